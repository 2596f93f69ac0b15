"""Programs that are asked: a command in a process, and the shared library or the reference inside this one."""
from __future__ import annotations

import gc
import importlib
import os
import signal
import subprocess
import sys
from pathlib import Path

LONG, MOST_KEPT = 2000, 500


class Slow(Exception):
    """No answer in time."""


class Command:
    """A program that is run for each case."""

    def __init__(self, words: list[str], seconds: int) -> None:
        self.words, self.seconds = words, seconds

    def ask(self, words: list[str], data: bytes) -> tuple[int, bytes]:
        """The status and the answer."""
        try:
            done = subprocess.run(self.words + words, input=data, stdout=subprocess.PIPE, stderr=subprocess.DEVNULL,
                                  timeout=self.seconds, close_fds=False)
        except subprocess.TimeoutExpired:
            raise Slow from None
        return done.returncode, done.stdout


class Shared:
    """The shared library, called in this process. A fault of it ends this process too."""

    def __init__(self, path: Path) -> None:
        sys.path.insert(0, str(Path(__file__).resolve().parents[2] / "python"))
        self.library = importlib.import_module("umc").Library(path)

    def ask(self, words: list[str], data: bytes) -> tuple[int, bytes]:
        """The status and the answer."""
        answer = self.library.answer(words, data)
        return answer.status, answer.output


class Inside:
    """The reference, run inside this process: many times as fast as a process for each case."""

    def __init__(self, folder: Path, seconds: int) -> None:
        sys.path.insert(0, str(folder))
        sys.setrecursionlimit(10**9)
        gc.set_threshold(100_000)   # it makes many small objects, and hardly a circle of them
        self.answer, self.seconds = importlib.import_module("answer"), seconds
        self.kept: dict[tuple, tuple[int, bytes]] = {}
        signal.signal(signal.SIGPROF, self.late)

    def late(self, *_: object) -> None:
        """The time is up."""
        raise Slow

    def ask(self, words: list[str], data: bytes) -> tuple[int, bytes]:
        """The status and the answer. Those about long texts are kept: texts at the limits come again and again."""
        if len(data) < LONG:
            return self.answered(words, data)
        question = (*words, data)
        if question not in self.kept:
            if len(self.kept) == MOST_KEPT:
                self.kept.clear()
            self.kept[question] = self.answered(words, data)
        return self.kept[question]

    def answered(self, words: list[str], data: bytes) -> tuple[int, bytes]:
        """The status and the answer."""
        signal.setitimer(signal.ITIMER_PROF, self.seconds)  # of the processor, so that a busy machine changes nothing
        try:
            answer, status = self.answer.answer(words, lambda: data), 0
        except self.answer.Report as report:
            answer, status = report.line + "\n", report.status
        except (ArithmeticError, LookupError, MemoryError, RecursionError, TypeError, ValueError) as fault:
            answer, status = f"the reference failed: {fault!r}\n", -1
        finally:
            signal.setitimer(signal.ITIMER_PROF, 0)
        return status, answer if isinstance(answer, bytes) else answer.encode()


def runner(program: str, seconds: int) -> Inside | Shared | Command:
    """A shared library, or the reference (`answer.py` stands beside it), inside this process; otherwise a command."""
    path = Path(program)
    if (path.parent / "answer.py").exists():
        return Inside(path.parent.resolve(), seconds)
    if ".so" in path.name:
        return Shared(path.resolve())
    return Command([os.path.abspath(program)], seconds)
