"""What the program says on standard error: it is passed on, but the same line once.

`umc` of a checkout says at each run if what answers isn't proved yet, and `um` may ask it several times.
"""
import os
import sys
import threading
from typing import IO

PIECE = 1 << 16
_known: set[bytes] = set()


class Said:
    """Passes on what a process says, as soon as a line is whole."""

    def __init__(self, source: IO[bytes]):
        self._source = source
        self._thread = threading.Thread(target=self._pass_on, daemon=True)
        self._thread.start()

    def _pass_on(self) -> None:
        kept = b""
        while piece := os.read(self._source.fileno(), PIECE):
            *lines, kept = (kept + piece).splitlines(keepends=True) + ([b""] if piece.endswith((b"\n", b"\r")) else [])
            for line in lines:
                tell(line)
        if kept:
            tell(kept)

    def end(self, seconds: float) -> None:
        """Waits until all that was said is passed on. Something that goes on after the process isn't waited for."""
        self._thread.join(seconds)


def tell(line: bytes) -> None:
    """Writes a line that wasn't written before."""
    if line in _known or sys.stderr is None:
        return
    _known.add(line)
    try:
        os.write(sys.stderr.fileno(), line)
    except (OSError, ValueError):
        pass
