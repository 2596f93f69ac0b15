"""The lines and declarations of a text that stay for its next version.

A line is known by its letters, and so is a declaration. So after a change only the lines and the declarations that it
touches are read anew, wherever the others stand then.
"""
from dataclasses import dataclass

from umc.lsp.section import Section
from umc.lsp.tokens import texts

# What begins a declaration.
STARTS = frozenset(["[<", "type", "let"])
SPACE = " \t\r"


@dataclass(frozen=True, slots=True)
class Row:
    """The texts of the tokens of a line. `starts` are the numbers of those in STARTS."""

    texts: list[str]
    starts: list[int]
    is_indented: bool


class Kept:
    """What the last version that was read left. It is never wrong for another one, only of less use."""

    def __init__(self) -> None:
        self._rows: dict[str, Row] = {}
        self._sections: dict[str, Section] = {}

    def rows(self, lines: list[str]) -> list[Row]:
        """The lines of a text, as the program counts them."""
        earlier, now = self._rows, dict[str, Row]()
        for line in lines:
            if line not in now:
                now[line] = earlier.get(line) or _row(line)
        self._rows = now
        return [now[line] for line in lines]

    def sections(self, found: list[str]) -> list[Section]:
        """The sections of a text with these letters."""
        earlier, now = self._sections, dict[str, Section]()
        for text in found:
            if text not in now:
                now[text] = earlier.get(text) or Section(text)
        self._sections = now
        return [now[text] for text in found]


def _row(line: str) -> Row:
    found = texts(line)
    starts = [at for at, text in enumerate(found) if text in STARTS] if "let" in line or "type" in line or (
        "[<" in line) else []
    return Row(found, starts, line[:1] in SPACE)
