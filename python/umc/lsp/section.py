"""A section of a text: one declaration with the comments in it and after it, or what stands before the first one.

The same section is the same in each text, wherever it stands. It is read when something in it is asked. What it
declares is mostly told by its first words.
"""
import re
from dataclasses import dataclass
from functools import cached_property

from umc.lsp.names import Sort, Space
from umc.lsp.once import Once
from umc.lsp.piece import Piece
from umc.lsp.tokens import WIDE, WORDS, Kind, Token, end_of, split_after

# The head of most functions and base measures. What has characters beyond ASCII or a comment is left to the reading.
NAME = rf"[A-Za-z_][A-Za-z0-9_]*+(?![{WIDE}])"
FUNCTION = re.compile(rf"""let[ \t\r\n]+(?:rec[ \t\r\n]+)?(?P<name>{NAME})[ \t\r\n]*
    (?:\([ \t]*(?P<parameter>{NAME})[ \t]*:|(?P<constant>[=:]))""", re.VERBOSE)
MEASURE = re.compile(rf"\[<[ \t]*Measure[ \t]*>[ \t]*\][ \t]*type[ \t]+(?P<name>{NAME})")


@dataclass(frozen=True)
class Head:
    """What a section declares: a function or a base measure, and whether it is a function without parameters."""

    sort: Sort
    name: Token
    is_constant: bool


class Section:
    """The letters of a section, and what is read in them when it is asked."""

    def __init__(self, text: str) -> None:
        self.text = text
        self._piece = Once(lambda: Piece(text, split_after(text, 0)))

    @property
    def piece(self) -> Piece:
        return self._piece.get()

    @property
    def is_read(self) -> bool:
        return self._piece.is_made

    @cached_property
    def end(self) -> int:
        """Where its last token ends."""
        return end_of(self.text)

    @cached_property
    def head(self) -> Head | None:
        """What its first words tell; None if it must be read."""
        function = FUNCTION.match(self.text)
        found = function or MEASURE.match(self.text)
        if not found or _is_no_name(found["name"]):
            return None
        name = Token(Kind.NAME, found["name"], *found.span("name"))
        if function:
            parameter = function["parameter"]
            return None if parameter in WORDS else Head(Sort.FUNCTION, name, parameter is None)
        return Head(Sort.MEASURE, name, False) if name.end == self.end else None

    @property
    def declares(self) -> list[tuple[Space, str]]:
        """The names that it declares for the whole text, in order."""
        if self.head:
            return [("function" if self.head.sort is Sort.FUNCTION else "type", self.head.name.text)]
        return [(space, bound.text) for space, bound in self.piece.declared]


def _is_no_name(text: str) -> bool:
    return text == "_" or text in WORDS
