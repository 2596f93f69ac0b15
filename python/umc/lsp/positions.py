"""Places in a text: offsets in characters, places `L:C` of the program, and positions of the protocol.

The program's lines end with a line feed, and its columns count characters from 1. The protocol's lines also end with
a carriage return, and its columns count UTF-16 units from 0. Here a place is an offset in characters from 0.
"""
import re
from bisect import bisect_right
from typing import Any

Json = dict[str, Any]

END_OF_LINE = re.compile(r"\r\n|\n|\r")
LAST_OF_BASIC_PLANE = 0xFFFF


def units(text: str) -> int:
    """How many UTF-16 units a text has."""
    return len(text) if text.isascii() else len(text) + sum(ord(sign) > LAST_OF_BASIC_PLANE for sign in text)


class Lines:
    """The lines of a text, as the program counts them and as the protocol does."""

    def __init__(self, text: str):
        self.text = text
        self._starts, self._ends = [0], []
        for found in END_OF_LINE.finditer(text):
            self._ends.append(found.start())
            self._starts.append(found.end())
        self._ends.append(len(text))
        self._is_ascii = text.isascii()
        self._feeds = [0, *(at + 1 for at, sign in enumerate(text) if sign == "\n")] if "\r" in text else self._starts

    def __len__(self) -> int:
        return len(self._starts)

    def offset(self, position: Json) -> int:
        """The offset of a position. One after the end of a line or of the text is at that end."""
        line, units_left = int(position["line"]), int(position["character"])
        if line >= len(self._starts):
            return len(self.text)
        start, end = self._starts[max(line, 0)], self._ends[max(line, 0)]
        for at in range(start, end):
            units_left -= 1 + (ord(self.text[at]) > LAST_OF_BASIC_PLANE)
            if units_left < 0:
                return at
        return end

    def place(self, offset: int) -> tuple[int, int]:
        """The line of an offset and its column, as the protocol counts them."""
        line = bisect_right(self._starts, offset) - 1
        start = self._starts[line]
        return line, offset - start if self._is_ascii else units(self.text[start:offset])

    def position(self, offset: int) -> Json:
        """The position of an offset."""
        line, column = self.place(offset)
        return {"line": line, "character": column}

    def range(self, start: int, end: int) -> Json:
        """The range between two offsets."""
        return {"start": self.position(start), "end": self.position(end)}

    def line_of(self, offset: int) -> int:
        """The number of the line of an offset, from 0."""
        return bisect_right(self._starts, offset) - 1

    def start_of(self, line: int) -> int:
        """The offset at which a line begins."""
        return self._starts[line]

    def end_of(self, line: int) -> int:
        """The offset at which a line ends, before what ends it."""
        return self._ends[line]

    def counted(self, offset: int) -> tuple[int, int]:
        """The line and column of an offset as the program counts them."""
        line = bisect_right(self._feeds, offset)
        return line, offset - self._feeds[line - 1] + 1

    def at(self, line: int, column: int) -> int:
        """The offset of a place of the program; at most the end of the text."""
        if line > len(self._feeds):
            return len(self.text)
        return min(self._feeds[line - 1] + column - 1, len(self.text))


def changed(lines: Lines, changes: list[Json]) -> Lines:
    """The lines of a text after the changes that an editor sent, each made on what the one before left."""
    for change in changes:
        text, where = change["text"], change.get("range")
        if where is not None:
            start, end = lines.offset(where["start"]), lines.offset(where["end"])
            text = lines.text[:start] + text + lines.text[end:]
        lines = Lines(text)
    return lines
