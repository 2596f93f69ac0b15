"""Report lines: the one line that the program prints when it refuses, by its parts."""
import re
from dataclasses import dataclass

from umc.errors import Crashed

REPORT = re.compile(r"error (?P<status>[0-9]+): (?P<message>.*?)(?: at (?P<line>[0-9]+):(?P<column>[0-9]+))?\n?",
                    re.DOTALL)
KINDS = {
    1: "usage", 2: "length", 3: "encoding", 4: "token", 5: "syntax", 6: "limit", 7: "name", 8: "shape", 9: "units",
    10: "power range", 11: "call", 12: "trap", 13: "budget", 14: "size", 15: "read", 16: "write", 17: "memory",
    19: "generality", 20: "signature", 21: "certificate", 22: "image",
}
SILENT = {16: "the program couldn't write its answer", 17: "the program had too little memory"}
# How the lines of these statuses name a function. A name holds no space, so "the call" is none.
FUNCTIONS = {
    9: re.compile(r"units of (\S+)"), 10: re.compile(r"power range of (\S+)"),
    12: re.compile(r"(?:overflow|division by zero) in (\S+)"), 13: re.compile(r"budget in (\S+)"),
    19: re.compile(r"not general in (\S+)"), 20: re.compile(r"(?:form|units) of (\S+), type [0-9]+"),
    21: re.compile(r"certificate of (\S+): number [0-9]+"),
}
ARGUMENT = re.compile(r"argument (?P<number>[0-9]+)(?:, [a-z ]+ at (?P<at>[0-9]+))?")
SIGNATURE = re.compile(r"signature, [a-z ]+ at (?P<at>[0-9]+)")
# After these `explain` has more to say.
EXPLAINED = {3, 4, 5, 6, 7, 8, 9, 10, 19}


@dataclass(frozen=True)
class Report:
    """A refusal: the status, what is said, and the place in the text if one is named."""

    status: int
    message: str
    line: int | None = None
    column: int | None = None

    @property
    def kind(self) -> str:
        """What kind of refusal it is, in a word."""
        return KINDS.get(self.status, "unknown")

    @property
    def function(self) -> str | None:
        """The function that the line names."""
        found = FUNCTIONS[self.status].fullmatch(self.message) if self.status in FUNCTIONS else None
        return found[1] if found else None

    @property
    def argument(self) -> tuple[int, int | None] | None:
        """The number of the argument that the line names, and the place in it, both counted from 1."""
        found = ARGUMENT.fullmatch(self.message) if self.status in (11, 14) else None
        return (int(found["number"]), int(found["at"]) if found["at"] else None) if found else None

    @property
    def signature(self) -> int | None:
        """The place in the signature that the line names."""
        found = SIGNATURE.fullmatch(self.message) if self.status == 11 else None
        return int(found["at"]) if found else None

    @property
    def has_explanation(self) -> bool:
        """Whether `explain` can say more about the text."""
        return self.status in EXPLAINED and self.line is not None


def parse(line: str) -> Report | None:
    """The parts of a report line; None for a line that is none."""
    found = REPORT.fullmatch(line)
    if not found:
        return None
    if found["line"] is None:
        return Report(int(found["status"]), found["message"])
    return Report(int(found["status"]), found["message"], int(found["line"]), int(found["column"]))


def of_answer(status: int, output: bytes) -> Report:
    """The report of an answer whose status isn't 0."""
    report = parse(output.decode("utf-8", "replace"))
    if report is not None and report.status == status:
        return report
    if status not in SILENT:
        raise Crashed(f"the program ended with status {status}", status)
    return Report(status, SILENT[status])
