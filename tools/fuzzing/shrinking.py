"""Shrinking: a smaller case that still differs."""
from __future__ import annotations

from collections.abc import Callable

from cases import Case
from texts import tokens_of


def smaller(parts: list, holds: Callable[[list], bool]) -> list:
    """The parts with as many left out as can be, pieces of half the length after pieces of the whole."""
    size = len(parts) // 2
    while size:
        at = 0
        while at < len(parts):
            shorter = parts[:at] + parts[at + size:]
            if holds(shorter):
                parts = shorter
            else:
                at += size
        size //= 2
    return parts


def shrunk(case: Case, differs: Callable[[Case], bool]) -> Case:
    """The case with lines, then tokens (or bytes) left out, while it differs."""
    words, text = case.words, case.data
    made = lambda data: Case(case.kind, words, data)
    try:
        lines = text.decode().split("\n")
        kept = smaller(lines, lambda lines: differs(made("\n".join(lines).encode())))
        tokens = smaller(tokens_of("\n".join(kept)), lambda tokens: differs(made("".join(tokens).encode())))
        if differs(made("".join(tokens).encode())):
            return made("".join(tokens).encode())
    except UnicodeDecodeError:
        parts = [text[at:at + 1] for at in range(len(text))]
        return made(b"".join(smaller(parts, lambda parts: differs(made(b"".join(parts))))))
    return case
