"""One run of `um`: the program that it asks, what it writes, and how it tells a refusal."""
import argparse
import errno
import json
import sys
from collections.abc import Sequence
from functools import cached_property
from typing import Any

from umc import places, reports
from umc.errors import UmError
from umc.program import Answer, Program, find
from umc.reports import Report
from umc.terminal import BOLD, CYAN, GREEN, RED, Terminal
from umc.texts import Place, Text
from umc.unseen import unseen
from umc.why import wrong_word


class Front:
    """What all commands of `um` share."""

    def __init__(self, args: argparse.Namespace):
        self.json: bool = getattr(args, "json", False)
        self.terminal = Terminal(getattr(args, "color", "auto"))

    @cached_property
    def program(self) -> Program:
        """The program that is asked; it is looked for when it is needed."""
        return find()

    # ---- standard output

    def write(self, data: bytes) -> None:
        """Writes to standard output, at once."""
        if sys.stdout is None:
            raise OSError(errno.EBADF, "it is closed")
        sys.stdout.buffer.write(data)
        sys.stdout.buffer.flush()

    def emit(self, tree: dict[str, Any]) -> None:
        """Writes one result as one line of JSON."""
        self.write(encoded(tree))

    # ---- refusals

    def explanation(self, text: Text, report: Report, place: Place) -> list[str]:
        """What `explain` says after the report line; nothing where the program has no such command."""
        answer = self.program.ask(["explain"], text.data)
        first, *lines = answer.output.decode("utf-8", "replace").removesuffix("\n").split("\n")
        if answer.status != 0 or reports.parse(first) != report:
            return []
        return places.explanation(lines, text, place)

    def refuse_answer(self, text: Text, words: Sequence[str], answer: Answer, notes: Sequence[str] = ()) -> int:
        """Tells the refusal of a text, with what else is known of it, and gives the status."""
        report = reports.of_answer(answer.status, answer.output)
        if report.status == 1:
            self.program.need(words[0])
        return self.refuse(text, report, notes=unknown_words(words) if report.status == 1 else notes)

    def refuse(self, text: Text, report: Report, place: Place | None = None, notes: Sequence[str] = ()) -> int:
        """Tells a refusal with its place, if it has one, and what else is known of it."""
        lines: list[str] = []
        if place is None and report.line is not None and report.column is not None:
            place = text.place(report.line, report.column)
            lines = self.explanation(text, report, place) if report.has_explanation else []
            lines += unseen(text, report, place)
        self.tell(report, place, text.name, [*lines, *notes])
        return report.status

    def tell(self, report: Report, place: Place | None, file: str, lines: Sequence[str]) -> None:
        """Writes a refusal: a line that tools read, and the lines after it; or one object of JSON."""
        if self.json:
            self.emit(refusal_tree(report, place, file, lines))
            return
        paint = self.terminal.paint
        head = paint(f"{place or file}:", BOLD)
        self.terminal.say(f"{head} {paint(f'error {report.status}:', BOLD, RED)} {report.message}")
        for line in lines:
            self.terminal.say(self._painted(line))

    def _painted(self, line: str) -> str:
        number, bar, rest = line.partition(" | ")
        if bar and (number.isdigit() or not number.strip()):
            return self.terminal.paint(number + bar, CYAN) + (
                self.terminal.paint(rest, BOLD, GREEN) if rest.strip() == "^" else rest)
        return line

    def complain(self, error: UmError) -> int:
        """Tells an error of `um` itself, and gives its exit status."""
        if self.json:
            self.emit({"status": int(error.status), "kind": error.kind, "file": error.file, "message": error.message})
        else:
            where = f"{error.file or repr('')}: " if error.file is not None else ""
            self.terminal.say(self.terminal.paint("um: ", BOLD) + where + error.message)
        return int(error.status)


def encoded(tree: dict[str, Any]) -> bytes:
    """One result as one line of JSON."""
    return json.dumps(tree).encode() + b"\n"


def refusal_tree(report: Report, place: Place | None, file: str, lines: Sequence[str]) -> dict[str, Any]:
    """A refusal as an object."""
    tree: dict[str, Any] = {"status": report.status, "kind": report.kind, "file": place.file if place else file}
    if place:
        tree |= {"line": place.line, "column": place.column}
    if report.function:
        tree["function"] = report.function
    tree["message"] = report.message
    if lines:
        tree["explanation"] = list(lines)
    return tree


def unknown_words(words: Sequence[str]) -> list[str]:
    """What is said after `error 1: usage`."""
    shown = " ".join(words)
    shown = shown if len(shown) <= 200 else shown[:200] + " .."
    return wrong_word(words) or [f"umc takes no such words: {shown}", f"um {words[0]} --help says which it takes"]
