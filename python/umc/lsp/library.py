"""The files that stand before a text: those of `--with`, and those that its first line asks for."""
import os
from dataclasses import dataclass
from pathlib import Path

from umc.errors import UmError
from umc.lsp.positions import Lines
from umc.lsp.reading import Reading
from umc.program import Program
from umc.texts import Gathering, Source, library_file, needs

KEPT = 8
Stamp = tuple[int, int, int] | None


@dataclass(frozen=True)
class Part:
    """A file that stands before a text."""

    uri: str
    path: str
    reading: Reading
    lines: Lines


@dataclass(frozen=True)
class Library:
    """The files that stand before a text, as one text and each by itself. `fault` says why one can't be read."""

    text: str = ""
    parts: tuple[Part, ...] = ()
    fault: str | None = None

    @property
    def readings(self) -> list[Reading]:
        return [part.reading for part in self.parts]

    def part(self, uri: str) -> Part | None:
        return next((part for part in self.parts if part.uri == uri), None)


class Libraries:
    """Finds the files before a text. What was read is kept until a file changes."""

    def __init__(self, program: Program, before: list[str]):
        self.program, self.before = program, before
        self._kept: dict[tuple[str, ...], tuple[list[tuple[str, Stamp]], Library]] = {}

    def of(self, text: str, path: str) -> Library:
        """The files before a text, which is that of a file."""
        asked = needs(Source(path, text.partition("\n")[0].encode("utf-8", "surrogatepass")))
        if not asked and not self.before:
            return Library()
        key = (path, *asked)
        if key in self._kept and all(_stamp(name) == stamp for name, stamp in self._kept[key][0]):
            return self._kept[key][1]
        try:
            sources = self.read(asked, path)
        except UmError as error:
            return Library(fault=f"{error.file}: {error.message}" if error.file else error.message)
        made = _made(sources)
        while len(self._kept) >= KEPT:
            self._kept.pop(next(iter(self._kept)))
        self._kept[key] = ([(source.name, _stamp(source.name)) for source in sources], made)
        return made

    def read(self, asked: list[str], path: str) -> list[Source]:
        """The files, each after those that it asks for. The file of the text itself is left out."""
        found = Gathering(self.program, True)
        for name in [*self.before, *asked]:
            found.add(library_file(name, self.program))
        own = _identity(path)
        return [source for source in found.sources.values() if own is None or _identity(source.name) != own]


def _made(sources: list[Source]) -> Library:
    whole, parts = "", list[Part]()
    for source in sources:
        text = source.data.decode("utf-8", "replace").removeprefix("\ufeff")
        uri = Path(os.path.abspath(source.name)).as_uri()
        parts.append(Part(uri, source.name, Reading(text, [part.reading for part in parts], uri), Lines(text)))
        whole += text if text.endswith("\n") or not text else text + "\n"
    return Library(whole, tuple(parts))


def _stamp(name: str) -> Stamp:
    """What changes if a file does."""
    try:
        found = os.stat(name)
    except OSError:
        return None
    return found.st_ino, found.st_size, found.st_mtime_ns


def _identity(name: str) -> tuple[int, int] | None:
    try:
        found = os.stat(name)
    except (OSError, ValueError):
        return None
    return found.st_dev, found.st_ino
