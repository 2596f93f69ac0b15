"""A CSV file that is read row by row, with the line on which each row stands."""
import csv
import io
import os
import sys
from collections.abc import Iterator
from dataclasses import dataclass
from pathlib import Path
from types import TracebackType
from typing import BinaryIO

from umc.errors import DataError, InputError
from umc.texts import STANDARD_INPUT

BYTE_ORDER_MARK = "\ufeff"


@dataclass(frozen=True)
class Row:
    """A row of the data: its number from 1, the line that it ends on, and its cells."""

    number: int
    line: int
    cells: list[str]


class DataFile:
    """The rows of a CSV file, or of standard input for `-`. The first row is the header."""

    def __init__(self, name: str, delimiter: str):
        self.name = "<stdin>" if name == STANDARD_INPUT else name
        self._binary = self._open(name)
        self._text = io.TextIOWrapper(self._binary, encoding="utf-8", errors="surrogateescape", newline="")
        csv.field_size_limit(sys.maxsize)
        self._reader = csv.reader(self._text, delimiter=delimiter, strict=True)
        first = next(self._read(), None)
        if first is None or not any(cell.strip() for cell in first):
            raise DataError("the first line must have the names of the columns", f"{self.name}:1")
        self.header = [first[0].removeprefix(BYTE_ORDER_MARK), *first[1:]]

    def _open(self, name: str) -> BinaryIO:
        if name == STANDARD_INPUT:
            if sys.stdin is None:
                raise InputError("standard input is closed", self.name)
            return sys.stdin.buffer
        try:
            return Path(name).open("rb")
        except OSError as fault:
            raise InputError(fault.strerror or str(fault), name) from fault

    def __enter__(self) -> "DataFile":
        return self

    def __exit__(self, kind: type[BaseException] | None, value: BaseException | None,
                 trace: TracebackType | None) -> None:
        self._text.detach()
        if self._binary is not getattr(sys.stdin, "buffer", None):
            self._binary.close()

    def size(self) -> int | None:
        """How many bytes the file has, if it is a file."""
        try:
            found = os.fstat(self._binary.fileno())
        except (OSError, ValueError):
            return None
        return found.st_size if self._binary.seekable() else None

    def position(self) -> int:
        """About how many bytes were read."""
        return self._binary.tell()

    def _read(self) -> Iterator[list[str]]:
        while True:
            try:
                yield next(self._reader)
            except StopIteration:
                return
            except csv.Error as fault:
                raise DataError(f"this is no row of CSV: {fault}", f"{self.name}:{self._reader.line_num}") from fault
            except OSError as fault:
                raise InputError(fault.strerror or str(fault), self.name) from fault

    def rows(self) -> Iterator[Row]:
        """The rows after the header. Lines without a character are left out, if a row has more than one cell."""
        number = 0
        for cells in self._read():
            if not cells and len(self.header) > 1:
                continue
            number += 1
            yield Row(number, self._reader.line_num, cells)
