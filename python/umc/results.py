"""What table writes: the rows of the data with their results, as CSV or as JSON."""
import argparse
import csv
import io
import re
from types import TracebackType

from umc import printed
from umc.cells import OPEN, CellError, cells_of, header
from umc.data import Row
from umc.files import WholeFile
from umc.front import Front, encoded

Cells = list[tuple[str, str, str]]
NUMBERS = re.compile(r"num<([^'<>]*)>")  # the type of numbers of one unit


class Results:
    """The rows of results. Their header is written once the first results have told their units.

    The type is that of a result, which tells the unit of numbers if there are no results.
    """

    def __init__(self, args: argparse.Namespace, front: Front, data_header: list[str], type_text: str):
        self.front, self.args = front, args
        found = NUMBERS.fullmatch(type_text.removesuffix(" list") if args.lists else type_text)
        self.unit: str = found[1] if found else ""
        self.data_header = [] if args.only_results or args.lists else data_header
        self.columns: list[tuple[str, str]] | None = None
        self._units: list[str] = []
        self._waiting: list[tuple[list[str], Cells]] = []
        self._file = WholeFile(args.output) if args.output else None

    def __enter__(self) -> "Results":
        return self

    def __exit__(self, kind: type[BaseException] | None, value: BaseException | None,
                 trace: TracebackType | None) -> None:
        if self._file and kind is not None:
            self._file.drop()
        elif kind is None:
            self.flush(last=True)
            if self._file:
                self._file.keep()

    def add(self, row: Row | None, line: str) -> None:
        """Takes the value of a row. A value whose units aren't those of the column is a CellError."""
        if self.front.json:
            where = {"row": row.number, "line": row.line} if row else {}
            self._write(encoded({"status": 0, **where, "value": printed.value(line), "text": line}))
            return
        cells = cells_of(line, self.args.function, self.args.digits)
        self._check(cells)
        self._waiting.append((row.cells if row and self.data_header else [], cells))

    def _check(self, cells: Cells) -> None:
        """Sees to it that the units are those of the rows above; an open one becomes any other."""
        own_units = [unit for _, unit, _ in cells]
        if own_units == self._units:
            return
        known = self._units or own_units
        for unit, (name, own, _) in zip(known, cells):
            if own not in (unit, OPEN) and (unit != OPEN or self.columns is not None):
                raise CellError(f"the result {name} is in {own or 1} here, and in {unit or 1} above")
        self._units = [own if unit == OPEN else unit for unit, (_, own, _) in zip(known, cells)]

    def flush(self, last: bool = False) -> None:
        """Writes the rows that were taken."""
        if self.front.json or not (self._waiting or last):
            return
        buffer = io.StringIO()
        writer = csv.writer(buffer, lineterminator="\n", delimiter=self.args.delimiter)
        if self.columns is None:
            names = [name for name, _, _ in self._waiting[0][1]] if self._waiting else [self.args.function]
            self.columns = list(zip(names, self._units or [self.unit]))
            writer.writerow([*self.data_header, *(header(name, unit) for name, unit in self.columns)])
        for cells, results in self._waiting:
            writer.writerow([*cells, *(text for _, _, text in results)])
        self._waiting.clear()
        self._write(buffer.getvalue().encode("utf-8", "surrogateescape"))

    def _write(self, data: bytes) -> None:
        if self._file:
            self._file.write(data)
        else:
            self.front.write(data)
