"""Texts that the program is asked about: files, standard input, and files that stand before a file.

Several files are handed in as one text. A place in that text is told as a place of the file that it stands in.
"""
import os
import sys
from bisect import bisect_right
from collections.abc import Iterable, Sequence
from dataclasses import dataclass
from pathlib import Path

from umc.errors import InputError, UsageError
from umc.program import HOME, Program, is_checkout
from umc.similar import similar

STANDARD_INPUT = "-"
# No command of the program takes more bytes.
MOST = 1 << 24
BYTE_ORDER_MARK = b"\xef\xbb\xbf"
NEEDS = b"// with:"


@dataclass(frozen=True)
class Source:
    """What was read of one file, with the name that it is told by."""

    name: str
    data: bytes


@dataclass(frozen=True)
class Place:
    """A line and a column of a file, counted from 1."""

    file: str
    line: int
    column: int

    def __str__(self) -> str:
        return f"{self.file}:{self.line}:{self.column}"


class Text:
    """The text of one or more files in order. The last is the one that was asked about."""

    def __init__(self, sources: Sequence[Source]):
        self.sources = tuple(sources)
        self.data = b"".join(_joined(self.sources))
        self._lines = [1]
        self._marked = [False]
        for before, here in zip(self.sources, self.sources[1:]):
            self._lines.append(self._lines[-1] + _ended(before.data).count(b"\n"))
            self._marked.append(here.data.startswith(BYTE_ORDER_MARK))

    @property
    def name(self) -> str:
        """The file that was asked about."""
        return self.sources[-1].name

    @property
    def before(self) -> bytes:
        """The texts before the file that was asked about, as one text."""
        return b"".join(_joined([*self.sources[:-1], Source("", b"")]))

    @property
    def is_one_file(self) -> bool:
        """Whether nothing stands before the file."""
        return len(self.sources) == 1

    def place(self, line: int, column: int) -> Place:
        """Where a place of the whole text stands."""
        at = bisect_right(self._lines, line) - 1
        own = line - self._lines[at] + 1
        # The mark in front of a later file was left out. It counts as a column, as it does in front of a text.
        return Place(self.sources[at].name, own, column + (own == 1 and self._marked[at]))


def _ended(data: bytes) -> bytes:
    return data if not data or data.endswith(b"\n") else data + b"\n"


def _joined(sources: Sequence[Source]) -> Iterable[bytes]:
    """The pieces of the whole text: each file but the last ends its last line, and a mark stands in front alone."""
    for number, source in enumerate(sources):
        data = source.data if number == 0 else source.data.removeprefix(BYTE_ORDER_MARK)
        yield data if number == len(sources) - 1 else _ended(data)


def read(name: str) -> Source:
    """The bytes of a file, or of standard input for `-`. Of a file that is too long it reads what shows this."""
    try:
        if name == STANDARD_INPUT:
            if sys.stdin is None:
                raise InputError("standard input is closed", "<stdin>")
            return Source("<stdin>", sys.stdin.buffer.read(MOST + 1))
        with open(name, "rb") as file:
            return Source(name, file.read(MOST + 1))
    except OSError as fault:
        raise InputError(fault.strerror or str(fault), "<stdin>" if name == STANDARD_INPUT else name) from fault
    except ValueError as fault:
        raise InputError("a file's name can't hold the character 0") from fault


def library_folders(program: Program) -> list[Path]:
    """Where a file of the library is looked for, in order."""
    beside = program.path.resolve().parent
    named = [Path(part) for part in os.environ.get("UM_PATH", "").split(os.pathsep) if part]
    checkout = [HOME / "library"] if is_checkout(HOME) else []
    # What is installed with this module stands before it.
    installed = [HOME / "library", beside.parent / "share/umc/library", Path("/usr/local/share/umc/library"),
                 Path("/usr/share/umc/library")]
    return [beside / "library", *checkout, *named, *installed]


def library_file(name: str, program: Program) -> str:
    """The file that `--with NAME` means: a path as it stands, otherwise a file NAME.um of the library."""
    if name == STANDARD_INPUT or "/" in name or name.endswith(".um"):
        return name
    folders = library_folders(program)
    for folder in folders:
        if (folder / f"{name}.um").is_file():
            own = is_checkout(HOME) and folder == HOME / "library"
            return os.path.relpath(folder / f"{name}.um") if own else str(folder / f"{name}.um")
    raise InputError(f"no file of the library has this name{_others(name, folders)}; a file of your own is "
                     f"--with ./{name}.um", name)


def _others(name: str, folders: Iterable[Path]) -> str:
    """What is told of the files that are there, after one that isn't."""
    names = sorted({path.stem for folder in folders for path in folder.glob("*.um")})
    found = similar(name, names)
    return f"; similar: {' '.join(found)}" if found else f"; there are {' '.join(names)}" if names else ""


def _identity(name: str) -> object:
    """What two names of one file have in common."""
    if name == STANDARD_INPUT:
        return name
    try:
        found = os.stat(name)
    except (OSError, ValueError):
        return name
    return found.st_dev, found.st_ino


def needs(source: Source) -> list[str]:
    """The files of the library that a text asks for in its first line, as `// with: si list`."""
    first = source.data.removeprefix(BYTE_ORDER_MARK).partition(b"\n")[0]
    found = first.removeprefix(NEEDS) if first.startswith(NEEDS) else b""
    return found.decode("utf-8", "replace").split()


class Gathering:
    """Files in the order in which they stand in a text, each once, after those that it asks for."""

    def __init__(self, program: Program, follows: bool):
        self.program, self.follows = program, follows
        self.sources: dict[object, Source] = {}
        self.names: list[str] = []
        self._open: list[tuple[object, str]] = []

    def add(self, name: str) -> None:
        """Adds a file after the files that its first line asks for."""
        own = _identity(name)
        if own in [each for each, _ in self._open]:
            raise InputError(f"the first line asks for {name}, which asks for this file", self._open[-1][1])
        if own in self.sources:
            return
        source = read(name)
        self._open.append((own, name))
        for part in needs(source) if self.follows else []:
            self.add(self._library_file(part, source))
        self._open.pop()
        self.sources[own] = source
        self.names.append(name)

    def _library_file(self, part: str, source: Source) -> str:
        try:
            return library_file(part, self.program)
        except InputError as error:
            others = _others(part, library_folders(self.program))
            raise InputError(f"the first line asks for {part}: no file of the library has this name{others}",
                             source.name) from error


def gathered(file: str, before: Sequence[str], program: Program, follows: bool = True) -> Gathering:
    """The files of the text of a file with texts before it."""
    found = Gathering(program, follows)
    for name in [*(library_file(part, program) for part in before), file]:
        found.add(name)
    return found


def gather(file: str, before: Sequence[str], program: Program, follows: bool = True) -> Text:
    """The text of a file after the texts before it, and after those that these files ask for.

    A file that is named twice is taken once, at its first place.
    """
    return Text(list(gathered(file, before, program, follows).sources.values()))


def check_once(names: Sequence[str]) -> None:
    """Raises UsageError if standard input is named more than once."""
    if sum(name == STANDARD_INPUT for name in names) > 1:
        raise UsageError("standard input can be read once, and '-' stands twice")
