"""The proved program: where it is, and one call of it."""
import errno
import os
import select
import shutil
import signal
import subprocess
import threading
import time
from collections.abc import Sequence
from contextlib import suppress
from dataclasses import dataclass
from functools import cache
from pathlib import Path
from typing import IO

from umc.errors import Crashed, Unavailable, WordsTooLong
from umc.limits import NONE, Limits, held_by
from umc.said import Said
from umc.signals import allowed, held, running, starting

HOME = Path(__file__).resolve().parents[2]
PIECE = 1 << 20
TICK = 0.02
PATIENCE = 2.0

# What tells, on an empty text, whether a program has a command that not every program has: words that it answers with
# any status but that of unknown words.
PROBES: dict[str, tuple[str, ...]] = {
    "explain": ("explain",),
    "annot": ("annot",),
    "tidy": ("tidy",),
    "calls": ("calls", "1"),
    "trace": ("trace", "1", "f"),
    "show": ("show", "0", "-", "1", "f"),
}
UNKNOWN_WORDS = 1


@dataclass(frozen=True)
class Answer:
    """What a call of the program ended with, and all that it wrote."""

    status: int
    output: bytes


@dataclass(frozen=True)
class Program:
    """A program `umc`."""

    path: Path

    def ask(self, words: Sequence[str], text: bytes, limits: Limits = NONE) -> Answer:
        """The program's answer to these words about a text, which it reads from its standard input."""
        with held():
            process = self._start(words)
            assert process.stderr
            said = Said(process.stderr)
            try:
                with allowed():
                    output = _exchange(process, text, limits)
                    status = process.wait()
            finally:
                _end(process)
                said.end(PATIENCE)
                running.discard(process.pid)
        if status < 0:
            raise Crashed(f"{self.path} was ended by {signal.Signals(-status).name}", 128 - status)
        return Answer(status, output)

    def _start(self, words: Sequence[str]) -> subprocess.Popen[bytes]:
        """Starts the program in a process group of its own, which can be ended as a whole."""
        try:
            with starting:
                process = subprocess.Popen([str(self.path), *words], stdin=subprocess.PIPE, stdout=subprocess.PIPE,
                                           stderr=subprocess.PIPE, bufsize=0, process_group=0)
                running.add(process.pid)
            return process
        except OSError as fault:
            if fault.errno == errno.E2BIG:
                raise WordsTooLong("the words are longer than the system takes") from fault
            raise Unavailable(f"{self.path}: {fault.strerror}") from fault
        except ValueError as fault:
            raise WordsTooLong("the system takes no word with the character 0") from fault

    def has(self, command: str) -> bool:
        """Whether the program has this command."""
        return _has(self, command)

    def lacking(self) -> list[str]:
        """The commands that a later program has and this one hasn't."""
        return [command for command in PROBES if not self.has(command)]

    def need(self, command: str) -> None:
        """Raises Unavailable if the program hasn't this command."""
        if not self.has(command):
            raise Unavailable(f"this umc has no command '{command}'")


@cache
def _has(program: Program, command: str) -> bool:
    words = PROBES.get(command)
    return words is None or program.ask(words, b"").status != UNKNOWN_WORDS


def _exchange(process: subprocess.Popen[bytes], text: bytes, limits: Limits) -> bytes:
    """Hands the text in and takes the whole answer, within the limits."""
    assert process.stdin and process.stdout
    writer = threading.Thread(target=_hand_in, args=(process.stdin, text), daemon=True)
    writer.start()
    began, answer, limited = time.monotonic(), bytearray(), limits != NONE
    source = process.stdout.fileno()
    while True:
        ready, _, _ = select.select([source], [], [], TICK if limited else None)
        piece = os.read(source, PIECE) if ready else None
        if piece == b"":
            break
        answer += piece or b""
        if limited:
            limits.check(began, held_by(process.pid) if limits.memory is not None else 0, len(answer))
    writer.join()
    return bytes(answer)


def _hand_in(sink: IO[bytes], text: bytes) -> None:
    """Writes a text and closes. A program that doesn't read it to its end is no fault: its status says why."""
    left = memoryview(text)
    with sink, suppress(BrokenPipeError):
        while left:
            left = left[sink.write(left):]


def _end(process: subprocess.Popen[bytes]) -> None:
    """Ends the program if it still runs, and whatever it has started."""
    for number in (signal.SIGTERM, signal.SIGKILL) if process.poll() is None else ():
        with suppress(ProcessLookupError, subprocess.TimeoutExpired):
            os.killpg(process.pid, number)
            process.wait(PATIENCE)
            break
    assert process.stdout
    process.stdout.close()


def built() -> Program:
    """The program as `find` gives it, if it answers at once. That of a checkout may have to be built first."""
    found = find()
    if found.path != HOME / "umc":
        return found
    for path in (HOME / "crates/umc/out/umc", HOME / "out/quick/umc"):
        if os.access(path, os.X_OK):
            return Program(path)
    raise Unavailable("the program isn't built yet")


def is_checkout(folder: Path) -> bool:
    """Whether a folder is a checkout of the project."""
    return (folder / "crates.txt").is_file() and (folder / "umc").is_file()


def find() -> Program:
    """The program that UMC names, otherwise the checkout's, otherwise the one on PATH."""
    named = os.environ.get("UMC")
    if named:
        found = shutil.which(named)
        if found is None:
            wrong = "it is no program that one may run" if os.path.exists(named) else "there is no such program"
            raise Unavailable(f"UMC={named}: {wrong}")
        return Program(Path(found).absolute())
    if is_checkout(HOME) and os.access(HOME / "umc", os.X_OK):
        return Program(HOME / "umc")
    found = shutil.which("umc")
    if found is None:
        raise Unavailable("there is no program umc on PATH; UMC=PROGRAM names one")
    return Program(Path(found).absolute())
