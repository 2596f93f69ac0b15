"""What answers: the program in a process of its own, or the shared library in this process.

An engine opens the text of a program and gives a handle; a handle answers about this text alone. So an engine that
keeps checked programs fits in beside those that read the text at each call.
"""
import os
from collections.abc import Callable, Generator, Sequence
from concurrent.futures import ThreadPoolExecutor
from contextlib import closing
from functools import cached_property, partial
from pathlib import Path
from typing import Protocol, TypeVar

from umc import program as processes
from umc.arguments import before_calls, lines_of_calls
from umc.call_commands import ask as ask_any_length
from umc.errors import WordsTooLong
from umc.limits import NONE, Limits
from umc.program import Answer
from umc.texts import Source, Text

CHUNK = 10_000
NO_ZERO = "no word may hold the character 0"
PROBES = processes.PROBES
UNKNOWN_WORDS = processes.UNKNOWN_WORDS
Piece = TypeVar("Piece")
Made = TypeVar("Made")


def words_line(words: Sequence[str]) -> bytes:
    """The words of a call in one line, with a zero byte between each two."""
    if "\0" in "".join(words):
        raise WordsTooLong(NO_ZERO)
    return "\0".join(words).encode("utf-8", "surrogateescape")


def line_words(line: bytes) -> list[str]:
    """The words of a line."""
    return line.decode("utf-8", "surrogateescape").split("\0")


def line_of(answer: Answer) -> str:
    """What was answered, without the end of its last line."""
    return answer.output.decode("utf-8", "replace").removesuffix("\n")


def in_order(work: Callable[[Piece], Made], pieces: Sequence[Piece], threads: int) -> Generator[Made, None, None]:
    """What the work makes of each piece, in order, by at most so many threads."""
    if threads < 2 or len(pieces) < 2:
        yield from map(work, pieces)
        return
    pool = ThreadPoolExecutor(min(threads, len(pieces)))
    try:
        yield from pool.map(work, pieces)
    finally:
        pool.shutdown(cancel_futures=True)


class Handle(Protocol):
    """A program's text that questions are put to."""

    def ask(self, words: Sequence[str]) -> Answer:
        """The answer of a command on the text."""

    def call(self, budget: int, line: bytes) -> str | Answer:
        """The value that one call prints, or the answer that refuses it: the line has the function's name and its
        arguments, with a zero byte between each two.
        """

    def calls(self, budget: int, name: str, columns: Sequence[list[str]]) -> list[str] | Answer:
        """The lines that calls of a function print, one for each row of columns: a value, or a report line.

        An answer refuses all of them.
        """

    def close(self) -> None:
        """Lets go of what is kept."""


class Engine(Protocol):
    """What answers."""

    @property
    def path(self) -> Path:
        """The file of the program or of the library."""

    def has(self, command: str) -> bool:
        """Whether it has this command."""

    def open(self, text: bytes) -> Handle:
        """A handle on this text. It isn't looked at yet."""


class Process:
    """The program `umc`, in a process of its own for each question, within limits."""

    threads = 1

    def __init__(self, path: str | os.PathLike[str] | None = None, limits: Limits = NONE):
        self.program = processes.find() if path is None else processes.Program(Path(path).absolute())
        self.limits = limits

    def __repr__(self) -> str:
        return f"umc.Process({str(self.path)!r})"

    @property
    def path(self) -> Path:
        """The program's file."""
        return self.program.path

    def has(self, command: str) -> bool:
        """Whether the program has this command."""
        return self.program.has(command)

    def answer(self, words: Sequence[str], text: bytes) -> Answer:
        """The program's answer to these words about a text."""
        if words[0] == "run":   # the words may be longer than the system takes
            return ask_any_length(self.program, list(words), Text([Source("", text)]), self.limits)
        return self.program.ask(words, text, self.limits)

    def open(self, text: bytes) -> Handle:
        """A handle on this text."""
        return TextHandle(self, text)


class Answering(Protocol):
    """An engine that reads the text at each question."""

    @property
    def threads(self) -> int:
        """How many threads may put the questions of one `each` at once."""

    def has(self, command: str) -> bool:
        """Whether it has this command."""

    def answer(self, words: Sequence[str], text: bytes) -> Answer:
        """The answer to these words about a text."""


class TextHandle:
    """A handle of an engine that reads the text at each question."""

    def __init__(self, engine: Answering, text: bytes):
        self._engine, self._text = engine, text

    def ask(self, words: Sequence[str]) -> Answer:
        """The answer of a command on the text."""
        return self._engine.answer(words, self._text)

    def call(self, budget: int, line: bytes) -> str | Answer:
        """The value that one call prints, or the answer that refuses it."""
        answer = self.ask(["run", str(budget), *line_words(line)])
        return line_of(answer) if answer.status == 0 else answer

    def calls(self, budget: int, name: str, columns: Sequence[list[str]]) -> list[str] | Answer:
        """The lines of many calls: the text is read once for each ten thousand, if the engine has `calls`."""
        rows = len(columns[0]) if columns else 0
        pieces = [[column[first:first + CHUNK] for column in columns] for first in range(0, rows, CHUNK)]
        answers = self._chunk if self._engine.has("calls") else self._one_by_one
        found: list[str] = []
        with closing(in_order(partial(answers, budget, name), pieces, self._engine.threads)) as every:
            for lines in every:
                if isinstance(lines, Answer):
                    return lines
                found += lines
        return found

    def _chunk(self, budget: int, name: str, columns: Sequence[list[str]]) -> list[str] | Answer:
        source = self._before_calls + os.fsencode(lines_of_calls(name, columns))
        answer = self._engine.answer(["calls", str(budget)], source)
        return line_of(answer).split("\n") if answer.status == 0 else answer

    def _one_by_one(self, budget: int, name: str, columns: Sequence[list[str]]) -> list[str] | Answer:
        answers = [self.ask(["run", str(budget), name, *row]) for row in zip(*columns)]
        silent = [answer for answer in answers if not answer.output]
        return silent[0] if silent else [line_of(answer) for answer in answers]

    @cached_property
    def _before_calls(self) -> bytes:
        return before_calls(self._text)

    def close(self) -> None:
        """Nothing is kept."""
