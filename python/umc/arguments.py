"""Arguments of a call: words of the command line, and files that are read with `@FILE`."""
import os
import re
from collections.abc import Sequence
from dataclasses import dataclass

from umc.errors import UsageError
from umc.texts import STANDARD_INPUT, Place, read

SEPARATOR = b"---"
# A line of the program's text that `calls` would take for the end of the text, and the same line without this meaning.
# Three signs alone in a line are three times minus, and a space after them changes nothing.
CUT = re.compile(rb"^---(?=\r?$)", re.MULTILINE)
COMMENT = re.compile(r"//[^\n]*")
BREAK = re.compile(r"[\t\r\n]")
CONTROL = re.compile(r"[\x00-\x08\x0a-\x1f\x7f-\x9f]")
WINDOW, BEFORE, FULL = 120, 80, 100


@dataclass(frozen=True)
class Argument:
    """The text of an argument, and the file that it was read from."""

    text: str
    file: str | None = None

    def place(self, at: int) -> Place | None:
        """Where a place of the text, counted from 1, stands in the file."""
        if self.file is None:
            return None
        before = self.text[:at - 1]
        return Place(self.file, before.count("\n") + 1, len(before) - (before.rfind("\n") + 1) + 1)

    def excerpt(self, at: int) -> list[str]:
        """The line of the text with this place, and a mark under it."""
        before, after = self.text[:at - 1], self.text[at - 1:]
        column = at - (before.rfind("\n") + 1)
        line = before[before.rfind("\n") + 1:] + after.partition("\n")[0]
        first = 1 if column <= FULL else column - BEFORE
        window = CONTROL.sub("\ufffd", line[first - 1:first - 1 + WINDOW])
        margin = "".join("\t" if sign == "\t" else " " for sign in window[:column - first])
        return [f"  | {window}", f"  | {margin}^"]


def argument(word: str) -> Argument:
    """The argument that a word means."""
    if not word.startswith("@"):
        return Argument(word)
    source = read(word[1:])
    return Argument(os.fsdecode(source.data), source.name)


def arguments(words: list[str], other_files: list[str]) -> list[Argument]:
    """The arguments of a call. Standard input is read once, so it is one of them or one of the other files."""
    if sum(name == STANDARD_INPUT for name in [*other_files, *(word[1:] for word in words if word[:1] == "@")]) > 1:
        raise UsageError("standard input can be read once, and '-' stands twice")
    return [argument(word) for word in words]


def line_of_calls(words: Sequence[str]) -> str:
    """A line of `calls` that means these words, without its end.

    A line can't hold a tab or the end of a line, so a space stands for each. A comment in an argument ends with its
    line, so spaces stand for it too. All places stay.
    """
    line = "\t".join(words)
    if line.count("\t") < len(words) and "\n" not in line and "\r" not in line:
        return line
    return "\t".join(BREAK.sub(" ", _without_comments(word)) for word in words)


def lines_of_calls(name: str, columns: Sequence[Sequence[str]]) -> str:
    """The lines of `calls` that call a function with each row of columns of arguments, each line with its end."""
    lines = [f"{name}\t{row}\n" for row in map("\t".join, zip(*columns))]
    text = "".join(lines)
    if text.count("\t") == len(lines) * len(columns) and text.count("\n") == len(lines) and "\r" not in text:
        return text  # no argument holds a tab or the end of a line
    return "".join([line_of_calls((name, *row)) + "\n" for row in zip(*columns)])


def _without_comments(word: str) -> str:
    return COMMENT.sub(lambda found: " " * len(found[0]), word) if "\n" in word else word


def source_of_calls(text: bytes, lines: list[str]) -> bytes:
    """What `calls` reads: a program's text, and lines of calls."""
    return before_calls(text) + os.fsencode("\n".join([*lines, ""]))


def before_calls(text: bytes) -> bytes:
    """What `calls` reads before the lines of calls: a program's text, and the line that ends it."""
    ended = b"" if not text or text.endswith(b"\n") else b"\n"
    return CUT.sub(SEPARATOR + b" ", text) + ended + SEPARATOR + b"\n"
