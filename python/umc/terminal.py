"""What a person sees on standard error: lines, and colours on a terminal."""
import os
import sys
from typing import IO

BOLD, RED, GREEN, CYAN = "1", "31", "32", "36"


class Terminal:
    """Standard error, with colours if they are asked for."""

    def __init__(self, when: str = "auto", stream: IO[str] | None = None):
        self.stream: IO[str] | None = stream if stream is not None else sys.stderr
        self.coloured = _coloured(when, self.stream)

    def paint(self, text: str, *codes: str) -> str:
        """The text in a colour."""
        if not self.coloured or not text:
            return text
        return f"\x1b[{';'.join(codes)}m{text}\x1b[0m"

    def say(self, line: str) -> None:
        """One line. That standard error is closed or can't be written is nothing that could be said."""
        if self.stream is None:
            return
        try:
            self.stream.write(line + "\n")
            self.stream.flush()
        except (OSError, ValueError):
            self.stream = None


def _coloured(when: str, stream: IO[str] | None) -> bool:
    if when != "auto":
        return when == "always"
    if os.environ.get("NO_COLOR") or os.environ.get("TERM") == "dumb":
        return False
    try:
        return stream is not None and stream.isatty()
    except ValueError:
        return False
