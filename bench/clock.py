"""What the tools that measure by the clock have in common: the times of a question, and a loop of Python."""
import statistics
import time
from collections.abc import Sequence

TURNS = 10_000_000


def spread(milliseconds: Sequence[float]) -> str:
    """The least, the middle and the most of the times of a question, as cells of a table."""
    return f"{min(milliseconds):.1f} | {statistics.median(milliseconds):.1f} | {max(milliseconds):.1f}"


def loop() -> float:
    """The seconds of the processor that a loop takes."""
    began = time.process_time()
    for _ in range(TURNS):
        pass
    return time.process_time() - began


def loop_line() -> str:
    """The line by which one machine can be held against another."""
    return f"a loop of {TURNS:,} turns in Python: {min(loop() for _ in range(3)):.2f} s of the processor"
