"""The shared library `libumc.so`, called in this process: include/umc.h describes its functions."""
import ctypes
import ctypes.util
import os
import resource
import sys
from collections.abc import Sequence
from functools import cache
from pathlib import Path
from typing import Any

from umc.embed.engines import NO_ZERO, PROBES, UNKNOWN_WORDS, Handle, TextHandle
from umc.errors import Unavailable, WordsTooLong
from umc.program import HOME, Answer, is_checkout

NAME = "libumc.so.1"
STACK = 8 << 20
VARIABLE = "UMC_LIBRARY"
NO_LIBRARY = ("", "none")
FIRST_ROOM = 1 << 12     # bytes for the answer of a call; a longer one is computed twice
MOST_BUDGET = (1 << 64) - 1     # that the library's call can be handed


def folders() -> list[Path]:
    """Where the library is looked for: in the checkout, otherwise in this package and in `lib` beside `share`."""
    if is_checkout(HOME):
        return [HOME / "embed/out"]
    return [Path(__file__).resolve().parents[1], HOME.parent.parent / "lib"]


def find() -> str | None:
    """The library's file: the one that UMC_LIBRARY names, otherwise the one that is installed; None if none is."""
    named = os.environ.get(VARIABLE)
    if named is not None:
        return None if named in NO_LIBRARY else named
    for folder in folders():
        if (folder / NAME).is_file():
            return str(folder / NAME)
    return None if is_checkout(HOME) else ctypes.util.find_library("umc")


def loaded(name: str) -> Path:
    """The file of a library that the system found by its name, as Linux tells what this process has loaded."""
    for line in Path("/proc/self/maps").read_text(errors="replace").splitlines():
        _, sign, path = line.partition("/")
        if sign and Path(path).name.startswith(name):
            return Path(f"/{path}")
    return Path(sys.prefix) / "lib" / name


def all_threads() -> int:
    """How many threads may ask at once: one for each processor, if a thread has the stack that a run may need."""
    stack, _ = resource.getrlimit(resource.RLIMIT_STACK)    # of a thread too; without a limit a thread has 2 MiB
    return len(os.sched_getaffinity(0)) if stack >= STACK else 1


class Library:
    """The shared library. A question costs no process, and nothing limits its time and memory but the budget.

    threads: how many threads may put the questions of one `each` at once, otherwise one for each processor
    """

    def __init__(self, path: str | os.PathLike[str] | None = None, threads: int | None = None):
        self.threads = all_threads() if threads is None else threads
        found = find() if path is None else os.fspath(path)
        if found is None:
            raise Unavailable(f"there is no {NAME}; {VARIABLE}=FILE names one")
        try:
            self._calls = ctypes.CDLL(found)
            self._answer, self._free = self._calls.umc_answer, self._calls.umc_free
            self._open, self._close = self._calls.umc_open, self._calls.umc_close
            self._call_into = self._calls.umc_call_into
        except (OSError, AttributeError) as fault:
            raise Unavailable(f"{found}: {fault}") from fault
        # What `_call_into` is handed is made of these types once for many calls, so ctypes needn't make it.
        text: list[Any] = [ctypes.c_char_p, ctypes.c_size_t]
        words: list[Any] = [ctypes.POINTER(ctypes.c_char_p), ctypes.c_size_t]
        answer: list[Any] = [ctypes.POINTER(ctypes.c_void_p), ctypes.POINTER(ctypes.c_size_t)]
        self._answer.argtypes = [*words, *text, *answer]
        self._open.argtypes = [*text, ctypes.POINTER(ctypes.c_void_p), *answer]
        self._free.argtypes = self._close.argtypes = [ctypes.c_void_p]
        self._free.restype = self._close.restype = None
        self.path = Path(found) if "/" in found else loaded(found)

    def __repr__(self) -> str:
        return f"umc.Library({str(self.path)!r})"

    def has(self, command: str) -> bool:
        """Whether the library has this command."""
        return _has(self, command)

    def answer(self, words: Sequence[str], text: bytes) -> Answer:
        """The library's answer to these words about a text. Other threads run meanwhile."""
        if "\0" in "".join(words):
            raise WordsTooLong(NO_ZERO)
        given = [word.encode("utf-8", "surrogateescape") for word in words]
        begin, size = ctypes.c_void_p(), ctypes.c_size_t()
        status = self._answer((ctypes.c_char_p * len(given))(*given), len(given), text, len(text),
                              ctypes.byref(begin), ctypes.byref(size))
        return self._taken(status, begin, size)

    def open(self, text: bytes) -> Handle:
        """A handle on this text. The library keeps the program checked and compiled from the first question on."""
        return OpenHandle(self, text)

    def _taken(self, status: int, begin: ctypes.c_void_p, size: ctypes.c_size_t) -> Answer:
        """An answer of the library, whose memory it gets back."""
        try:
            return Answer(status, ctypes.string_at(begin, size.value) if begin else b"")
        finally:
            self._free(begin)


# Room for answers to calls of a program with one budget, made once for many calls: the budget, and how many bytes an
# answer may have; what the library is handed beside a line, in its order; and what holds the answer and its size.
Room = tuple[int, int, ctypes.c_void_p, ctypes.c_ulong, ctypes.c_size_t, ctypes.c_void_p, ctypes.c_size_t,
             ctypes.c_void_p, "ctypes.Array[ctypes.c_char]", ctypes.c_size_t]


def room_for(program: ctypes.c_void_p, budget: int, most: int) -> Room:
    """Room for answers of so many bytes."""
    answer, size = ctypes.create_string_buffer(most), ctypes.c_size_t()
    return (budget, most, program, ctypes.c_ulong(budget), ctypes.c_size_t(),
            ctypes.c_void_p(ctypes.addressof(answer)), ctypes.c_size_t(most),
            ctypes.c_void_p(ctypes.addressof(size)), answer, size)


class Kept:
    """A program that the library keeps open until nothing refers to it; none if the text is refused.

    answer: what the library answers to `types`; rooms: one for each thread that called at the same time
    """

    def __init__(self, library: Library, text: bytes):
        self._library, self.program = library, ctypes.c_void_p()
        begin, size = ctypes.c_void_p(), ctypes.c_size_t()
        status = library._open(text, len(text), ctypes.byref(self.program), ctypes.byref(begin), ctypes.byref(size))
        self.answer = library._taken(status, begin, size)
        self.is_open = bool(self.program)
        self.rooms: list[Room] = []

    def __del__(self) -> None:
        self._library._close(self.program)


class OpenHandle(TextHandle):
    """A handle of the library. After `close` the next question opens the program again."""

    def __init__(self, library: Library, text: bytes):
        super().__init__(library, text)
        self._library, self._call_into = library, library._call_into
        self._kept: Kept | None = None

    def _open(self) -> Kept:
        kept = self._kept = self._kept or Kept(self._library, self._text)
        return kept

    def ask(self, words: Sequence[str]) -> Answer:
        """The answer of a command on the text."""
        return self._open().answer if list(words) == ["types"] else super().ask(words)

    def call(self, budget: int, line: bytes) -> str | Answer:
        """The value that one call prints, or the answer that refuses it.

        Other threads run meanwhile, but for those that call the same program.
        """
        kept = self._kept or self._open()   # a thread that calls keeps it open
        try:
            room = kept.rooms.pop()
        except IndexError:
            room = None
        if room is None or room[0] != budget:
            if not kept.is_open or not 0 <= budget <= MOST_BUDGET:
                return super().call(budget, line)
            room = room_for(kept.program, budget, FIRST_ROOM)
        while True:
            _, most, program, calls, line_size, answer_at, answer_size, size_at, answer, size = room
            line_size.value = len(line)
            status = self._call_into(program, calls, line, line_size, answer_at, answer_size, size_at)
            count = size.value
            if count <= most:
                break
            room = room_for(kept.program, budget, count)
        found: bytes = answer[:count]   # type: ignore[assignment]
        if most == FIRST_ROOM:
            kept.rooms.append(room)
        return Answer(status, found) if status else found[:-1].decode()     # a value is a line

    def close(self) -> None:
        """Lets go of the program, once no thread calls it."""
        self._kept = None


@cache
def _has(library: Library, command: str) -> bool:
    words = PROBES.get(command)
    return words is None or library.answer(words, b"").status != UNKNOWN_WORDS
