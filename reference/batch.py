"""`calls`: many calls of one program, a line each."""
from __future__ import annotations

from collections.abc import Callable

from front import MOST_TEXT, Report, Source, typed

MOST_BYTES = 16777216
Run = Callable[[list[str], Source], str]


def cut(data: bytes) -> tuple[bytes, bytes]:
    """What stands before the first line that is `---` alone, and what stands after it."""
    at = 0
    while at <= len(data):
        end = data.find(b"\n", at)
        line = data[at:] if end < 0 else data[at:end]
        if line == b"---" or (line == b"---\r" and end >= 0):
            return data[:at], data[end + 1:] if end >= 0 else b""
        if end < 0:
            break
        at = end + 1
    return data, b""


def call_line(line: bytes, source: Source, run: Run) -> str:
    """The answer to one line: its words are cut at tabs."""
    line = line.removesuffix(b"\r")
    if not line:
        return "\n"
    try:
        words = line.decode().split("\t")
    except UnicodeDecodeError:
        return "error 1: usage\n"
    if any(len(word.encode()) > MOST_TEXT for word in words):
        return "error 1: usage\n"
    try:
        return run(words, source)
    except Report as report:
        return report.line + "\n"


def answered(data: bytes, run: Run) -> str:
    """The lines of the calls, after the steps of `types` on the text."""
    if len(data) > MOST_BYTES:
        raise Report(2, "text too long")
    text, calls = cut(data)
    source = typed(text)
    lines = calls.split(b"\n")
    if not lines[-1]:
        lines.pop()
    return "".join(call_line(line, source, run) for line in lines)
