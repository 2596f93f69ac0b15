"""The command calls: many calls of one program, a line of a file each."""
import argparse
import os
import sys
from collections.abc import Iterator
from typing import Any, BinaryIO

from umc import printed, reports
from umc.arguments import source_of_calls
from umc.call_commands import limits_of
from umc.errors import Crashed, Exit, InputError, UsageError
from umc.front import Front
from umc.reports import Report
from umc.texts import MOST, STANDARD_INPUT, Text, gather

CHUNK_SIZE = 4 << 20
SEPARATOR = "\t"
UNKNOWN = "error 11: no such function"


class Lines:
    """The lines of a file of calls, or of standard input for `-`, without their ends."""

    def __init__(self, name: str):
        self.name = "<stdin>" if name == STANDARD_INPUT else name
        self._file = self._open(name)

    def _open(self, name: str) -> BinaryIO:
        if name == STANDARD_INPUT:
            if sys.stdin is None:
                raise InputError("standard input is closed", self.name)
            return sys.stdin.buffer
        try:
            return open(name, "rb")
        except OSError as fault:
            raise InputError(fault.strerror or str(fault), name) from fault

    def __iter__(self) -> Iterator[str]:
        try:
            while line := self._file.readline(MOST + 1):
                yield os.fsdecode(line.removesuffix(b"\n"))
        except OSError as fault:
            raise InputError(fault.strerror or str(fault), self.name) from fault
        finally:
            if self._file is not getattr(sys.stdin, "buffer", None):
                self._file.close()

    def chunks(self) -> Iterator[list[str]]:
        """The lines in chunks, none of which is longer than the program takes unless one line is."""
        chunk: list[str] = []
        size = 0
        for line in self:
            if chunk and size + len(line) > CHUNK_SIZE:
                yield chunk
                chunk, size = [], 0
            chunk.append(line)
            size += len(line) + 1
        if chunk:
            yield chunk


class Job:
    """What stays the same for all lines, the number of the last one, and the status so far."""

    def __init__(self, args: argparse.Namespace, front: Front, text: Text):
        self.args, self.front, self.text = args, front, text
        self.lines = Lines(args.calls)
        self.number = self.status = 0
        self._told_of_tabs = False

    def answer(self, lines: list[str]) -> bool:
        """Asks about lines and tells the answers; whether the program took them."""
        answer = self.front.program.ask(["calls", self.args.budget], source_of_calls(self.text.data, lines),
                                        limits_of(self.args))
        if answer.status != 0:
            report = reports.of_answer(answer.status, answer.output)
            if report.status == 1:
                self.status = self.front.refuse_answer(self.text, ["calls", self.args.budget], answer)
            else:
                self._refuse(self.number + 1, report)
            return False
        found = answer.output.decode().removesuffix("\n").split("\n")
        if len(found) != len(lines):
            raise Crashed(f"the program gave {len(found)} answers to {len(lines)} calls", Exit.SOFTWARE)
        if not self.front.json:
            self.front.write(answer.output)
        self._tell_of_tabs(lines, found)
        if self.front.json or self.args.check:
            for line, text in zip(lines, found):
                self.number += 1
                self._tell(line, text)
        else:
            self.number += len(lines)
        return True

    def _tell_of_tabs(self, lines: list[str], found: list[str]) -> None:
        """Tells once, beside the answers, of a refused line in which spaces stand where tabs should."""
        for number, (line, text) in enumerate(zip(lines, found), self.number + 1):
            if text == UNKNOWN and not self._told_of_tabs and SEPARATOR not in line and " " in line.strip():
                self.front.terminal.say(f"um: {self.lines.name}:{number}: a tab stands between a function and its "
                                        "arguments, and this line has spaces alone")
                self._told_of_tabs = True

    def _tell(self, line: str, text: str) -> None:
        """Tells the answer to one line, as far as it doesn't stand on standard output yet."""
        report = reports.parse(text) if text.startswith("error ") else None
        if report is not None and self.args.check:
            self._refuse(self.number, report)
        elif self.front.json and text:
            self.front.emit(self._tree(line, text, report))

    def _tree(self, line: str, text: str, report: Report | None) -> dict[str, Any]:
        where = {"file": self.lines.name, "line": self.number}
        if report is not None:
            return {"status": report.status, "kind": report.kind, **where, "message": report.message}
        return {"status": 0, **where, "function": line.partition(SEPARATOR)[0], "value": printed.value(text),
                "text": text}

    def _refuse(self, number: int, report: Report) -> None:
        """Tells a refusal with the line of its call."""
        self.status = self.status or report.status
        if self.front.json:
            self.front.emit({"status": report.status, "kind": report.kind, "file": self.lines.name, "line": number,
                             "message": report.message})
        else:
            self.front.tell(report, None, f"{self.lines.name}:{number}", [])


def run(args: argparse.Namespace, front: Front) -> int:
    """Reads the lines, asks about them chunk by chunk, and writes the answers."""
    if [*args.before, args.file, args.calls].count(STANDARD_INPUT) > 1:
        raise UsageError("standard input can be read once, and '-' stands twice")
    text = gather(args.file, args.before, front.program)
    front.program.need("calls")
    checked = front.program.ask(["types"], text.data)
    if checked.status != 0:
        return front.refuse_answer(text, ["types"], checked)
    job = Job(args, front, text)
    for chunk in job.lines.chunks():
        if not job.answer(chunk):
            break
    return job.status
