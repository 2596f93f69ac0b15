"""Limits of a run: time, memory and the length of its answer."""
import os
import re
import time
from dataclasses import dataclass
from pathlib import Path

from umc.errors import LimitReached, UsageError

KIB, MIB, GIB = 1 << 10, 1 << 20, 1 << 30
UNITS = {"": 1, "K": KIB, "M": MIB, "G": GIB}
PAGE = os.sysconf("SC_PAGE_SIZE")
DEFAULT_MEMORY, DEFAULT_OUTPUT = 4 * GIB, 256 * MIB


@dataclass(frozen=True)
class Limits:
    """At most so many seconds, bytes of memory held and bytes of the answer. None is no limit."""

    time: float | None = None
    memory: int | None = None
    output: int | None = None

    def check(self, began: float, held: int, answered: int) -> None:
        """Raises LimitReached if a run that began at this time, holds and answered so many bytes is past a limit."""
        if self.time is not None and time.monotonic() - began > self.time:
            raise LimitReached(f"the run took more than {self.time:g} s (--limit-time)")
        if self.memory is not None and held > self.memory:
            raise LimitReached(f"the run held more than {shown(self.memory)} of memory (--limit-memory)")
        if self.output is not None and answered > self.output:
            raise LimitReached(f"the answer is longer than {shown(self.output)} (--limit-output)")


NONE = Limits()


def held_by(process: int) -> int:
    """How many bytes of memory a process holds, as Linux tells; 0 where that can't be known."""
    try:
        return int(Path(f"/proc/{process}/statm").read_text().split()[1]) * PAGE
    except (OSError, ValueError, IndexError):
        return 0


def size(text: str) -> int | None:
    """The bytes that a word such as `500M` or `4G` names; `none` is no limit."""
    if text == "none":
        return None
    found = re.fullmatch(r"([0-9]+)([KMG]?)", text)
    if not found:
        raise UsageError(f"'{text}' is no size: write 4096, 500K, 200M, 4G or none")
    return int(found[1]) * UNITS[found[2]]


def seconds(text: str) -> float | None:
    """The seconds that a word such as `2` or `0.5` names; `none` is no limit."""
    if text == "none":
        return None
    if not re.fullmatch(r"[0-9]+(\.[0-9]+)?", text):
        raise UsageError(f"'{text}' is no time: write seconds, as 2 or 0.5, or none")
    return float(text)


def shown(count: int) -> str:
    """A number of bytes as people write it."""
    for sign in "GMK":
        if count and count % UNITS[sign] == 0:
            return f"{count // UNITS[sign]} {sign}iB"
    return f"{count:,} bytes"
