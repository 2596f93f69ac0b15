"""The command table: a call for each row of a CSV file, or one call on whole columns."""
import argparse
import csv
import gc
import shlex
from collections.abc import Iterator
from contextlib import AbstractContextManager, nullcontext
from dataclasses import dataclass, field
from importlib import import_module
from typing import Any

from umc import printed, reports
from umc.arguments import Argument, line_of_calls, source_of_calls
from umc.call_commands import STOPPED, limits_of
from umc.cells import CellError, Column, columns, counted, items_of
from umc.data import DataFile, Row
from umc.errors import Crashed, DataError, Exit, UsageError
from umc.front import Front
from umc.reports import Report
from umc.results import Results
from umc.similar import similar
from umc.texts import STANDARD_INPUT, Text, gather
from umc.why import why, wrong_word

CHUNK_SIZE = 4 << 20
LONGEST = 400  # signs of a command that is told
# What may stand between cells in place of a comma, as one reads it and as --delimiter names it.
OTHER_DELIMITERS = {"\t": ("tabs stand", "tab"), ";": ("';' stands", "';'"), "|": ("'|' stands", "'|'")}


@dataclass(frozen=True)
class Fault:
    """A row that can't be read: the column, if it is the cell of one, and why."""

    column: str | None
    message: str


@dataclass
class Chunk:
    """Rows that are handed to one run of the program, each with the words of its call or why it has none.

    The size is about how many characters are held.
    """

    rows: list[tuple[Row, list[str] | Fault]] = field(default_factory=list)
    lines: list[str] = field(default_factory=list)
    size: int = 0

    def add(self, row: Row, words: list[str] | Fault) -> None:
        """Adds a row."""
        self.rows.append((row, words))
        self.size += sum(map(len, row.cells))
        if not isinstance(words, Fault):
            self.lines.append(line_of_calls(words))
            self.size += len(self.lines[-1])


@dataclass
class Job:
    """What stays the same for all rows, the status so far, and in which ways rows were refused."""

    args: argparse.Namespace
    front: Front
    text: Text
    data: DataFile
    columns: list[Column]
    results: Results
    status: int = 0
    told: set[str] = field(default_factory=set)

    def goes_on(self) -> bool:
        """Whether the rows that follow are looked at."""
        return self.status == 0 or self.args.keep_going

    def answers(self, lines: list[str]) -> list[str]:
        """What the program answers to lines of calls."""
        if not lines:
            return []
        source = source_of_calls(self.text.data, lines)
        answer = self.front.program.ask(["calls", self.args.budget], source, limits_of(self.args))
        if answer.status != 0:
            report = reports.of_answer(answer.status, answer.output)
            raise Crashed(f"the program ended with error {report.status}: {report.message}", report.status)
        found = answer.output.decode().removesuffix("\n").split("\n")
        if len(found) != len(lines):
            raise Crashed(f"the program gave {len(found)} answers to {len(lines)} calls", Exit.SOFTWARE)
        return found

    # ---- what is told of a row

    def fault(self, row: Row | None, fault: Fault) -> None:
        """Tells a row that can't be read."""
        self.status = self.status or Exit.DATA
        if self.front.json:
            self.front.emit({"status": int(Exit.DATA), "kind": "data", "file": self.data.name, **self._where(row),
                             "column": fault.column, "message": fault.message})
            return
        column = f"column {fault.column!r}: " if fault.column is not None else ""
        self.front.terminal.say(f"{self._file(row)}: {column}{fault.message}{f' (row {row.number})' if row else ''}")

    def refuse(self, row: Row | None, words: list[str], report: Report) -> None:
        """Tells a call that the program refuses. Why is told of the first one that is refused in this way."""
        way, _, _ = report.message.partition(" at ")
        cause = [] if way in self.told else self._why(words, report)
        self.told.add(way)
        self.status = self.status or report.status
        notes, where = [], self._where(row)
        if report.argument and len(words) > report.argument[0]:
            number, at = report.argument
            where["column"] = self.columns[number - 1].header
            notes = Argument(words[number]).excerpt(at) if at is not None else []
        if self.front.json:
            self.front.emit({"status": report.status, "kind": report.kind, "file": self.data.name, **where,
                             "message": report.message, **({"explanation": cause} if cause else {})})
            return
        told = ", ".join(f"{name} {where[name]!r}" for name in ("row", "column") if name in where)
        self.front.tell(report, None, self._file(row), [*([told] if told else []), *notes, *cause])

    def _why(self, words: list[str], report: Report) -> list[str]:
        """What is known of the cause, or the command that knows it."""
        if report.status == 1:
            return wrong_word(words)
        if report.status not in STOPPED:
            return why(self.front.program.ask, self.text.data, report, words)
        before = [part for name in self.args.before for part in ("--with", name)]
        budget = ["--budget", self.args.budget] if report.status == 13 else []
        command = shlex.join(["um", "trace", *before, *budget, self.args.file, *words])
        fits = len(command) <= LONGEST and self.args.file != STANDARD_INPUT and self.front.program.has("trace")
        return [f"{command} says where"] if fits else []

    def _where(self, row: Row | None) -> dict[str, Any]:
        return {"row": row.number, "line": row.line} if row else {}

    def _file(self, row: Row | None) -> str:
        return f"{self.data.name}:{row.line}" if row else self.data.name


def run(args: argparse.Namespace, front: Front) -> int:
    """Reads the data, asks about it chunk by chunk, and writes the results."""
    gc.disable()    # rows form no cycles, and looking for some takes a third of the time
    if [*args.before, args.file, args.data].count(STANDARD_INPUT) > 1:
        raise UsageError("standard input can be read once, and '-' stands twice")
    text = gather(args.file, args.before, front.program)
    checked = front.program.ask(["types"], text.data)
    if checked.status != 0:
        return front.refuse_answer(text, ["types"], checked)
    schemes = {scheme["function"]: scheme for scheme in printed.schemes(checked.output.decode())}
    if args.function not in schemes:
        return _no_function(args, front, text, list(schemes))
    front.program.need("calls")
    with DataFile(args.data, args.delimiter) as data:
        scheme = schemes[args.function]
        every = _columns(args, data, scheme["parameters"])
        type_text = scheme["text"].partition(" : ")[2].rpartition(" -> ")[2]
        with Results(args, front, data.header, type_text) as results:
            job = Job(args, front, text, data, every, results)
            (_lists if args.lists else _rows)(job)
    return job.status


def _no_function(args: argparse.Namespace, front: Front, text: Text, names: list[str]) -> int:
    refused = front.program.ask(["run", "1", args.function], text.data)
    found = similar(args.function, names)
    return front.refuse(text, reports.of_answer(refused.status, refused.output),
                        notes=[f"similar: {' '.join(found)}"] if found else [])


def _columns(args: argparse.Namespace, data: DataFile, parameters: list[dict[str, Any]]) -> list[Column]:
    if args.lists:
        parameters = [parameter.get("item", parameter) for parameter in parameters]
    try:
        return columns(data.header, parameters, _listed(args.columns), _listed(args.units), args.function)
    except DataError as error:
        raise DataError(error.message + _other_delimiter(data.header), f"{data.name}:1") from error


def _other_delimiter(header: list[str]) -> str:
    """What may be wrong with a table of one column; nothing if nothing in its header tells."""
    found = next((told for sign, told in OTHER_DELIMITERS.items() if sign in header[0]), None)
    return f"; if {found[0]} between the cells, say --delimiter {found[1]}" if found and len(header) == 1 else ""


def _listed(word: str | None) -> list[str] | None:
    return None if word is None else next(csv.reader([word]), [])


def _words(job: Job, row: Row) -> list[str] | Fault:
    """The arguments that a row means."""
    if len(row.cells) != len(job.data.header):
        return Fault(None, f"the row has {counted(len(row.cells), 'cell')}, and the table "
                           f"{counted(len(job.data.header), 'column')}")
    try:
        return [column.argument(row.cells[column.at]) for column in job.columns]
    except CellError as error:
        return Fault(error.column, str(error))


# ---- a call for each row

def _rows(job: Job) -> None:
    with _progress(job) as bar:
        for chunk in _chunks(job):
            answers = iter(job.answers(chunk.lines))
            for row, words in chunk.rows:
                _take(job, row, words, answers)
                if not job.goes_on():
                    return
            job.results.flush()
            if bar is not None:
                bar.update(job.data.position() - bar.n)


def _take(job: Job, row: Row, words: list[str] | Fault, answers: Iterator[str]) -> None:
    """Takes the answer to a row, or tells why it has none."""
    if isinstance(words, Fault):
        job.fault(row, words)
        return
    line = next(answers)
    report = reports.parse(line) if line.startswith("error ") else None
    try:
        if report is None:
            job.results.add(row, line)
        else:
            job.refuse(row, words, report)
    except CellError as error:
        job.fault(row, Fault(None, str(error)))


def _chunks(job: Job) -> Iterator[Chunk]:
    """The rows in chunks. Unless one keeps going the first row that can't be read is the last."""
    chunk = Chunk()
    try:
        for row in job.data.rows():
            words = _words(job, row)
            chunk.add(row, words if isinstance(words, Fault) else [job.args.function, *words])
            if isinstance(words, Fault) and not job.args.keep_going:
                break
            if len(chunk.rows) >= job.args.chunk or chunk.size >= CHUNK_SIZE:
                yield chunk
                chunk = Chunk()
    except DataError as error:
        yield chunk
        job.results.flush()
        if job.goes_on():
            job.status = job.front.complain(error) if job.status == 0 else job.status
        return
    yield chunk


def _progress(job: Job) -> AbstractContextManager[Any]:
    """A bar on a terminal, if Debian's python3-tqdm is there."""
    stream = job.front.terminal.stream
    if stream is None or not stream.isatty():
        return nullcontext()
    try:
        tqdm = import_module("tqdm").tqdm
    except ImportError:
        return nullcontext()
    bar: AbstractContextManager[Any] = tqdm(
        total=job.data.size(), unit="B", unit_scale=True, file=stream, leave=False
    )
    return bar


# ---- one call on whole columns

def _lists(job: Job) -> None:
    """Makes one call whose arguments are the columns."""
    every: list[list[str]] = [[] for _ in job.columns]
    for row in job.data.rows():
        words = _words(job, row)
        if isinstance(words, Fault):
            job.fault(row, words)
            if not job.goes_on():
                return
            continue
        for items, word in zip(every, words):
            items.append(word)
    words = [job.args.function, *(f"[{'; '.join(items)}]" for items in every)]
    line = job.answers([line_of_calls(words)])[0]
    report = reports.parse(line) if line.startswith("error ") else None
    if report is not None:
        job.refuse(None, words, report)
        return
    for item in items_of(line) if line.startswith("[") and not job.front.json else [line]:
        job.results.add(None, item)
