"""Refusals as exceptions."""
from contextlib import suppress
from dataclasses import replace

from umc import places, reports
from umc.arguments import Argument
from umc.embed.engines import Handle, line_of
from umc.errors import UmError
from umc.program import Answer
from umc.reports import Report
from umc.texts import Place, Text
from umc.why import Ask, why, wrong_word

WORDS, CALL, TRAPS = (1, 2), 11, (12, 13)


class Refused(UmError):
    """The program refused a text or a call.

    status: the number of the refusal, as the exit status of `umc`; kind: a word for it, as `units`
    report: the line that `umc` prints; message: the same without number and place
    place: the file, line and column in a text; argument: the number and the place in the text of an argument
    function: the function that the line names; explanation: the lines that say more, which may be none
    row: the number of the row, from 1, among many calls
    """

    def __init__(self, report: Report, line: str, place: Place | None = None, explanation: tuple[str, ...] = ()):
        super().__init__(report.message, place.file if place else None)
        self.status = report.status  # type: ignore[assignment]
        self.kind, self.function, self.argument = report.kind, report.function, report.argument
        self.report, self.place, self.explanation = line, place, explanation
        self.row: int | None = None
        self._parts = report

    def __str__(self) -> str:
        where = f"{self.place}: " if self.place else ""
        row = f" (row {self.row})" if self.row else ""
        return "\n".join([f"{where}error {self.status}: {self.message}{row}", *self.explanation])

    def __reduce__(self) -> tuple[object, ...]:
        return _again, (self._parts, self.report, self.place, self.explanation, self.row)


def _again(report: Report, line: str, place: Place | None, explanation: tuple[str, ...], row: int | None) -> Refused:
    made = Refused(report, line, place, explanation)
    made.row = row
    return made


def of_text(handle: Handle, text: Text, answer: Answer, has_explain: bool) -> Refused:
    """The refusal of a text, with its place in the file that it stands in."""
    report = reports.of_answer(answer.status, answer.output)
    place = None
    if report.line is not None and report.column is not None:
        place = text.place(report.line, report.column)
    lines = _explained(handle, text, report, place) if place and report.has_explanation and has_explain else []
    return Refused(report, line_of(answer), place, tuple(lines))


def _explained(handle: Handle, text: Text, report: Report, place: Place) -> list[str]:
    answer = handle.ask(["explain"])
    first, *lines = line_of(answer).split("\n")
    return places.explanation(lines, text, place) if answer.status == 0 and reports.parse(first) == report else []


def of_call(answer: Answer, arguments: list[str], scheme: str | None, ask: Ask | None = None,
            text: bytes = b"") -> Refused:
    """The refusal of a call, with the argument that it names and what the function takes, and with the cause as far as
    what is asked knows it.
    """
    report = reports.of_answer(answer.status, answer.output)
    lines = wrong_word(arguments) if report.status in WORDS else []
    if report.argument is not None:
        number, at = report.argument
        lines = Argument(arguments[number - 1]).excerpt(at) if at is not None and number <= len(arguments) else []
    if report.status == CALL and scheme is not None:
        with suppress(UmError):     # the answer may reach a limit, and the refusal is known
            lines += why(ask, text, report, [scheme.partition(" : ")[0], *arguments]) if ask else []
        lines.append(scheme)
    return Refused(report, line_of(answer), None, tuple(lines))


def of_trap(handle: Handle, text: Text, words: list[str], refused: Refused) -> Refused:
    """The refusal of a run with the place where it ended, which `trace` knows."""
    try:
        answer = handle.ask(["trace", *words])
    except UmError:     # it may reach a limit, and a process takes long words for `run` alone
        return refused
    first, *lines = line_of(answer).split("\n")
    report = reports.parse(first)
    if answer.status != 0 or report is None or report.line is None or report.column is None:
        return refused
    place = text.place(report.line, report.column)
    told = replace(report, status=refused.status)
    return Refused(told, refused.report, place, tuple(places.explanation(lines, text, place)))
