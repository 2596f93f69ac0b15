"""What an input may take of time and memory: the bounds that tools/hostile holds a program to, each with its reason.

A bound is so much for each of what the program has to do, beside what any run may take. It is meant for the proved
program on a processor that does nothing else; a processor whose neighbours are busy takes up to twice the time.
"""
from collections.abc import Sequence
from dataclasses import dataclass

MIB, GIB = 1 << 20, 1 << 30
ANY_SECONDS, ANY_MIB = 0.5, 64.0
MEMORY = 4 * GIB        # what a run may hold at all; a run that needs more ends with status 17


@dataclass(frozen=True)
class Most:
    """The seconds of the processor and the MiB that a run may take."""

    seconds: float
    mib: float


@dataclass(frozen=True)
class Bound:
    """So many seconds and MiB for each of something that an input has, and why."""

    name: str
    each: str
    seconds: float
    mib: float
    reason: str

    def most(self, count: float) -> Most:
        """What a run may take for so many."""
        return Most(ANY_SECONDS + self.seconds * count, ANY_MIB + self.mib * count)


TEXT = Bound(
    "text", "MiB of the text", 3, 400,
    "each character, token, node and name is looked at a bounded number of times; of a function's at most 2,000 "
    "unknown units each equation may change all that were found before")
IMAGE = Bound(
    "image", "MiB of the image", 0.25, 40,
    "each instruction takes one step or as many as a logarithm, and what stacks have in common is kept once")
PAIRS = Bound(
    "pairs", "million pairs of shapes that meet", 0.3, 48,
    "forced: whether such an image is verified is whether a graph has a triangle (docs/DECISIONS.md)")
FULL = Bound(
    "full memory", "GiB that the run may hold", 6, 1024,
    "forced: the answer, or what a definition compares, is longer than any memory. The run ends with status 17 when "
    "the memory is full")
VALUE = Bound(
    "value", "MiB of the value's text", 0.4, 40,
    "forced: the text is the answer. The value is taken out of its cells before it is printed")
ANSWER = Bound(
    "answer", "MiB of the answer", 0.02, 3,
    "forced: each type names its units, however long their names are")
NODES = Bound(
    "nodes", "million nodes that calls look at", 0.4, 56,
    "a unit of the budget is a call, which looks at each node of its function's body at most once. A node takes one "
    "operation on numbers of 64 bits, a product of fractions up to 180 divisions for two greatest common divisors, "
    "and leaves at most a value of 24 bytes, a frame of 40 or a cell of 48")
TWICE = Bound(
    "nodes, twice", "million nodes that calls look at", 0.8, 56,
    "the same; two runs, one after the other")
CALLS = Bound(
    "calls", "MiB of the calls", 1.5, 6,
    "a line takes time for its words and its run, however many names the program has; the answer is kept")
CERTIFICATE = Bound(
    "certificate", "MiB of the answer", 1, 20,
    "forced: the answer names the equations that each unit comes from, which grow with the square of a function's "
    "unknown units")
STATED = Bound(
    "stated", "second or MiB that a limit states", 1.5, 1.25,
    "the limits are looked at each fiftieth of a second. Without a limit of time 10 s, without one of memory 4 GiB")

BOUNDS = [TEXT, IMAGE, PAIRS, FULL, VALUE, ANSWER, NODES, TWICE, CALLS, CERTIFICATE, STATED]


@dataclass(frozen=True)
class Stated:
    """Limits that a user states, as `umc.Limits` takes them: seconds, bytes of memory, bytes of the answer."""

    time: float | None = None
    memory: int | None = None
    output: int | None = None

    def most(self) -> Most:
        """What a run may take within them."""
        seconds = 10.0 if self.time is None else STATED.seconds * self.time
        mib = MEMORY / MIB if self.memory is None else STATED.mib * self.memory / MIB
        return Most(ANY_SECONDS + seconds, ANY_MIB + mib)

    def words(self) -> list[str]:
        """The same as words of `um`."""
        time = [] if self.time is None else ["--limit-time", f"{self.time:g}"]
        memory = [] if self.memory is None else ["--limit-memory", f"{self.memory // MIB}M"]
        output = [] if self.output is None else ["--limit-output", f"{self.output // MIB}M"]
        return time + memory + output


def table(bounds: Sequence[Bound]) -> str:
    """The bounds as bench/README.md shows them."""
    lines = ["| bound | for each | s | MiB | why |", "|---|---|---|---|---|"]
    lines += [f"| {it.name} | {it.each} | {it.seconds:g} | {it.mib:g} | {it.reason} |" for it in bounds]
    return "\n".join(lines) + "\n"
