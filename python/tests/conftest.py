"""What the tests share: the program, calls of `um`, and which commands the program has.

The tests ask the program that UMC names, otherwise the proved program of the checkout. They never build one. A test
that needs a command which the program lacks asks a script that hands this command to `reference/umc`, which has them
all.
"""
import json
import os
import signal
import subprocess
import sys
from collections.abc import Callable, Iterator, Sequence
from dataclasses import dataclass
from functools import cache
from pathlib import Path
from tempfile import TemporaryDirectory
from typing import Any

import pytest

from waiting import WAIT

HOME = Path(__file__).resolve().parents[2]
UM = HOME / "um"
BUILT = HOME / "crates/umc/out/umc"
sys.path.insert(0, str(HOME / "python"))

PROGRAM = Path(os.environ.get("UMC") or BUILT).absolute()
REFERENCE = HOME / "reference/umc"
VEHICLE = HOME / "examples/vehicle.um"
# The reference is slow: what takes large files is left out with a program that lacks the command.
TOO_SLOW = {"calls"}
FOLDER = TemporaryDirectory()


def pytest_configure(config: pytest.Config) -> None:
    """The tests are nothing without a program, and signals reach what they start: a job in the background ignores some.

    `nohup` has its program ignore SIGHUP, and a shell has a job in the background ignore SIGINT and SIGQUIT.
    """
    signal.signal(signal.SIGINT, signal.default_int_handler)
    for number in (signal.SIGHUP, signal.SIGQUIT, signal.SIGTERM, signal.SIGTSTP):
        signal.signal(number, signal.SIG_DFL)
    config.addinivalue_line("markers", "needs(command): a test that needs a command which not every program has")
    if not os.access(PROGRAM, os.X_OK):
        pytest.exit(f"there is no program {PROGRAM}: UMC=PROGRAM names one", returncode=2)
    os.environ["UMC"] = str(PROGRAM)
    for name in ("NO_COLOR", "UM_PATH"):
        os.environ.pop(name, None)


def lacks(command: str | None) -> bool:
    """Whether the program that the test asks has no such command."""
    from umc.program import Program
    return command is not None and not Program(Path(os.environ["UMC"])).has(command)


@cache
def whole() -> Path:
    """A script that asks the program, and the reference where the program lacks the command."""
    from umc.program import Program
    lacking = [command for command in Program(PROGRAM).lacking() if command not in TOO_SLOW]
    path = Path(FOLDER.name) / "umc"
    reference = f'exec "{sys.executable}" "{REFERENCE}" "$@"'
    path.write_text(f'#!/bin/sh\ncase $1 in {"|".join(lacking)}) {reference};; esac\nexec "{PROGRAM}" "$@"\n')
    path.chmod(0o755)
    return path


def need(command: str | None) -> None:
    """Gives the rest of the test a program with this command, or skips it."""
    if lacks(command):
        if command in TOO_SLOW:
            pytest.skip(f"this umc has no command '{command}'")
        os.environ["UMC"] = str(whole())


def pytest_runtest_setup(item: pytest.Item) -> None:
    """Gives each test its program."""
    os.environ["UMC"] = str(PROGRAM)
    for mark in item.iter_markers("needs"):
        need(mark.args[0])


@dataclass(frozen=True)
class Run:
    """What a run of `um` ended with."""

    status: int
    out: str
    err: str

    @property
    def objects(self) -> list[Any]:
        """The lines of standard output as JSON."""
        return [json.loads(line) for line in self.out.splitlines()]


# The fixtures that run `um`, write a file, and start a command.
Um = Callable[..., Run]
Write = Callable[..., Path]
Start = Callable[..., subprocess.Popen[bytes]]


def run(*words: str | Path, stdin: str | bytes = b"", cwd: Path = HOME, **environment: str) -> Run:
    """Runs `um` on these words."""
    done = subprocess.run([sys.executable, str(UM), *map(str, words)], cwd=cwd, capture_output=True, timeout=WAIT,
                          input=stdin.encode() if isinstance(stdin, str) else stdin,
                          env={**os.environ, **environment})
    return Run(done.returncode, done.stdout.decode("utf-8", "surrogateescape"),
               done.stderr.decode("utf-8", "surrogateescape"))


@pytest.fixture
def um() -> Callable[..., Run]:
    return run


@pytest.fixture
def start() -> Iterator[Callable[..., subprocess.Popen[bytes]]]:
    """Starts `um` on words, or a whole command. What still runs after the test is ended."""
    started: list[subprocess.Popen[bytes]] = []

    def begin(words: Sequence[str | Path], **settings: Any) -> subprocess.Popen[bytes]:
        started.append(subprocess.Popen(list(map(str, words)), cwd=HOME, **settings))
        return started[-1]
    yield begin
    for process in started:
        if process.poll() is None:
            process.terminate()
            process.wait(timeout=WAIT)


def answer(words: Sequence[str], text: str | bytes) -> tuple[int, str]:
    """What the program itself answers."""
    data = text.encode() if isinstance(text, str) else text
    done = subprocess.run([os.environ["UMC"], *words], input=data, capture_output=True)
    return done.returncode, done.stdout.decode()


@pytest.fixture
def program(tmp_path: Path) -> Callable[[str | bytes, str], Path]:
    """Writes a file of a program, and gives its path."""
    def write(text: str | bytes, name: str = "a.um") -> Path:
        path = tmp_path / name
        path.write_bytes(text.encode() if isinstance(text, str) else text)
        return path
    return write


@pytest.fixture
def script(tmp_path: Path) -> Callable[[str], Path]:
    """Writes a program of a shell that stands for umc, if a test needs one that misbehaves."""
    def write(text: str) -> Path:
        path = tmp_path / "script"
        path.write_text(f"#!/bin/sh\n{text}\n")
        path.chmod(0o755)
        return path
    return write


# ---- programs in Python

def engines() -> list[Any]:
    """What may answer a program in Python: the program, and the shared library if it is there."""
    from umc.embed import library
    why = f"there is no {library.NAME}: embed/build makes it, {library.VARIABLE} names one"
    mark = [pytest.mark.skip(reason=why)] if library.find() is None else []
    return [pytest.param("process", id="umc"), pytest.param("library", id="library", marks=mark)]


@pytest.fixture(params=engines())
def engine(request: pytest.FixtureRequest) -> Any:
    import umc
    return umc.Process(PROGRAM) if request.param == "process" else umc.Library()


@pytest.fixture
def vehicle(engine: Any) -> Any:
    import umc
    return umc.Program.read(VEHICLE, engine=engine)
