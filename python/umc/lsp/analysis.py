"""What the program says about one version of a text: its refusal, or the type of each function and of each part."""
import re
import threading
from collections.abc import Callable, Sequence
from dataclasses import dataclass, field
from functools import cached_property

from umc import places, reports
from umc.limits import Limits
from umc.lsp.once import Once
from umc.lsp.placed import Declaration
from umc.lsp.positions import Lines
from umc.lsp.reading import Reading
from umc.program import Answer, Program
from umc.reports import Report

ROUNDS = 8
# A line of `annot`: that of a function, or that of a part with its place.
FUNCTION = re.compile(r"^([^ \n]+) : (.*)$", re.MULTILINE)
PART = re.compile(r"^  ([0-9]+:[0-9]+) (.*)$", re.MULTILINE)


class Dropped(Exception):
    """A newer text came, so nobody waits for an answer about this one."""


@dataclass(frozen=True)
class Until(Limits):
    """A run of the program goes on until this event is set."""

    event: threading.Event = field(default_factory=threading.Event)

    def check(self, began: float, held: int, answered: int) -> None:
        if self.event.is_set():
            raise Dropped


@dataclass(frozen=True)
class Scheme:
    """The type of a function: its line, and the types of its parameters and its result."""

    line: str
    parameters: tuple[str, ...]
    result: str


class Parts:
    """The types of parts as the program printed them, each by its place; `first_line` lines stand before the text."""

    def __init__(self, printed: str, lines: Lines, first_line: int):
        self._printed, self._lines, self._first_line = printed, lines, first_line

    @cached_property
    def _of_place(self) -> dict[str, str]:
        return dict(PART.findall(self._printed))

    def get(self, offset: int) -> str | None:
        """The type of the part at an offset of the text; None if none is told there."""
        line, column = self._lines.counted(offset)
        return self._of_place.get(f"{line + self._first_line}:{column}")


@dataclass(frozen=True)
class Known:
    """The types of functions by their names, and of parts by their offsets. `left_out` was not asked about."""

    schemes: dict[str, Scheme]
    parts: Parts
    left_out: frozenset[int] = frozenset()


@dataclass(frozen=True)
class Refusal:
    """Why a text is refused: the report, its offset, and the lines of the explanation after the excerpt."""

    report: Report
    offset: int | None
    details: tuple[str, ...]


@dataclass(frozen=True)
class Outcome:
    """What the program printed of the types of a text, or why it has none."""

    printed: str
    refusal: Refusal | None


class Analysis:
    """Asks the program about a text. `before` is what stands before it in the same program.

    The reading of the text is made when it is needed: of a text that the program accepts it isn't for the types.
    """

    def __init__(self, program: Program, lines: Lines, before: str, read: Callable[[], Reading],
                 stale: threading.Event):
        self.program, self.lines, self.before = program, lines, before
        self._read, self.stale = read, stale
        self.text = lines.text
        self.first_line = before.count("\n")
        self.earlier: Known | None = None
        self._nowhere = Parts("", self.lines, self.first_line)
        self._outcome = Once(self._ask_outcome)
        self._known = Once(self._ask_known)

    # ---- asking

    def ask(self, words: Sequence[str], text: str) -> Answer:
        """The program's answer about a text in the place of this one. Raises Dropped when a newer text comes."""
        if self.stale.is_set():
            raise Dropped
        if self.before and text.startswith("\ufeff"):
            text = " " + text[1:]
        data = (self.before + text).encode("utf-8", "surrogatepass")
        return self.program.ask(words, data, Until(event=self.stale))

    @property
    def reading(self) -> Reading:
        return self._read()

    @cached_property
    def command(self) -> str:
        """The command that tells the types."""
        return "annot" if self.program.has("annot") else "types"

    def offset(self, line: int, column: int) -> int | None:
        """The offset of a place of the program; None if it is a place of what stands before the text."""
        return self.lines.at(line - self.first_line, column) if line > self.first_line else None

    def ask_alone(self, words: Sequence[str], text: str) -> Answer:
        """The answer about a text by itself, without what stands before it."""
        if self.stale.is_set():
            raise Dropped
        return self.program.ask(words, text.encode("utf-8", "surrogatepass"), Until(event=self.stale))

    # ---- types and refusals

    @property
    def outcome(self) -> Outcome:
        return self._outcome.get()

    @property
    def known(self) -> Known:
        """The types; of a refused text those of the declarations that the program accepts without the refused ones."""
        return self._known.get()

    @property
    def known_soon(self) -> Known:
        """The types if they are there already; otherwise those of functions in the version before, if it had any."""
        if self.earlier is None or self._known.is_made:
            return self.known
        return self.earlier

    @property
    def for_later(self) -> Known | None:
        """What the next version may know of this one: the types of functions, but no places."""
        known = self.known if self._known.is_made else None
        return Known(known.schemes, self._nowhere, known.left_out) if known else self.earlier

    def _ask_outcome(self) -> Outcome:
        answer = self.ask([self.command], self.text)
        if answer.status == 0:
            return Outcome(answer.output.decode(), None)
        report = reports.of_answer(answer.status, answer.output)
        details = self.explanation(self.text, report)
        offset = None if report.line is None else self.offset(report.line, report.column or 1)
        return Outcome("", Refusal(report, offset, tuple(details)))

    def explanation(self, text: str, report: Report) -> list[str]:
        """What `explain` says after the report line and the excerpt; nothing if the program has no such command."""
        if not report.has_explanation or not self.program.has("explain"):
            return []
        answer = self.ask(["explain"], text)
        first, *lines = answer.output.decode("utf-8", "replace").removesuffix("\n").split("\n")
        if answer.status != 0 or reports.parse(first) != report:
            return []
        return lines[2:] if lines and places.GUTTER.match(lines[0]) else lines

    def _parsed(self, output: str, left_out: frozenset[int]) -> Known:
        schemes: dict[str, Scheme] = {}
        for name, types in FUNCTION.findall(output):
            *parameters, result = types.split(" -> ")
            schemes[name] = Scheme(f"{name} : {types}", tuple(parameters), result)
        return Known(schemes, Parts(output, self.lines, self.first_line), left_out)

    # ---- a text without the declarations that are refused

    def _ask_known(self) -> Known:
        refusal = self.outcome.refusal
        if refusal is None:
            return self._parsed(self.outcome.printed, frozenset())
        left_out: set[int] = set()
        for _ in range(ROUNDS):
            more = self._to_leave_out(refusal, left_out)
            if not more:
                break
            left_out |= more
            answer = self.ask([self.command], self.without(left_out))
            if answer.status == 0:
                return self._parsed(answer.output.decode(), frozenset(left_out))
            report = reports.of_answer(answer.status, answer.output)
            offset = None if report.line is None else self.offset(report.line, report.column or 1)
            refusal = Refusal(report, offset, ())
        return Known({}, self._nowhere, frozenset(declaration.start for declaration in self.reading.declarations))

    def _to_leave_out(self, refusal: Refusal | None, left_out: set[int]) -> set[int]:
        """Where the declaration begins that is refused, and all that use what it declares."""
        if refusal is None or refusal.offset is None:
            return set()
        declarations = self.reading.declarations
        at = max((n for n, one in enumerate(declarations) if one.start <= refusal.offset), default=0)
        if not declarations:
            return set()
        # What is missing at the end of a declaration is refused at the first token of the next one.
        if refusal.report.status == 5 and declarations[at].start == refusal.offset and at > 0 and (
                declarations[at - 1].start not in left_out):
            at -= 1
        return self._with_users(declarations[at]) if declarations[at].start not in left_out else set()

    def _with_users(self, declaration: Declaration) -> set[int]:
        """Where this declaration begins, and those that can't be read without it."""
        found: set[int] = set()
        waiting = [declaration]
        while waiting:
            one = waiting.pop()
            if one.start in found:
                continue
            found.add(one.start)
            for token in [one.name, *(member.token for member in one.members)]:
                name = self.reading.name_of(token) if token else None
                waiting += [self.reading.declaration_at(use.start) for use in name.uses] if name else []
        return found

    def without(self, left_out: set[int] | frozenset[int]) -> str:
        """The text with spaces in the place of the declarations that begin at these offsets."""
        pieces, at = [], 0
        for declaration in self.reading.declarations:
            if declaration.start in left_out:
                pieces.append(self.text[at:declaration.start])
                pieces.append("".join("\n" if sign == "\n" else " "
                                      for sign in self.text[declaration.start:declaration.end]))
                at = declaration.end
        return "".join([*pieces, self.text[at:]])
