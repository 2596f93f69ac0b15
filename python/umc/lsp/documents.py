"""The texts that an editor has open, each in its newest version with what is known of it."""
import threading
from typing import Any
from urllib.parse import unquote, urlsplit

from umc.lsp.abbreviations import Abbreviations
from umc.lsp.analysis import Analysis
from umc.lsp.kept import Kept
from umc.lsp.library import Libraries
from umc.lsp.once import Once
from umc.lsp.positions import Json, Lines, changed
from umc.lsp.reading import Reading
from umc.program import Program


class Snapshot:
    """One version of a text. It never changes; a newer version is another snapshot."""

    def __init__(self, uri: str, version: int | None, lines: Lines, workspace: "Workspace", kept: Kept):
        self.uri, self.version, self.lines, self.workspace, self.kept = uri, version, lines, workspace, kept
        self.stale = threading.Event()
        self.library = workspace.libraries.of(self.text, path_of(uri))
        self._reading = Once(lambda: Reading(self.text, self.library.readings, uri, kept))
        self.analysis = Analysis(workspace.program, lines, self.library.text, self._reading.get, self.stale)

    @property
    def text(self) -> str:
        return self.lines.text

    @property
    def reading(self) -> Reading:
        """What the tokens of the text tell."""
        return self._reading.get()

    def offset(self, position: Json) -> int:
        return self.lines.offset(position)

    def range(self, start: int, end: int) -> Json:
        return self.lines.range(start, end)

    def lines_of(self, uri: str) -> Lines:
        """The lines of this text, or of a file that stands before it."""
        part = self.library.part(uri)
        return part.lines if part else self.lines


class Workspace:
    """All texts that are open."""

    def __init__(self, program: Program, before: list[str]):
        self.program = program
        self.libraries = Libraries(program, before)
        self.abbreviations = Abbreviations(program)
        self.client: Json = {}
        self._open: dict[str, Snapshot] = {}

    def client_can(self, *path: str) -> Any:
        """What the client says of one of its capabilities; None if it says nothing."""
        found: Any = self.client
        for name in path:
            found = (found or {}).get(name)
        return found

    def open(self, uri: str, version: int | None, text: str) -> Snapshot:
        """A text that was opened."""
        return self._put(uri, version, Lines(text))

    def _put(self, uri: str, version: int | None, lines: Lines) -> Snapshot:
        """A new version of a text, if there was one. What is asked of an older version is dropped."""
        earlier = self._open.get(uri)
        self.close(uri)
        kept = earlier.kept if earlier else Kept()
        snapshot = self._open[uri] = Snapshot(uri, version, lines, self, kept)
        if earlier:
            snapshot.analysis.earlier = earlier.analysis.for_later
        return snapshot

    def change(self, uri: str, version: int | None, changes: list[Json]) -> Snapshot:
        """The text of a version that was open, after changes."""
        return self._put(uri, version, changed(self._open[uri].lines, changes))

    def close(self, uri: str) -> None:
        if uri in self._open:
            self._open.pop(uri).stale.set()

    def close_all(self) -> None:
        for uri in list(self._open):
            self.close(uri)

    def get(self, uri: str) -> Snapshot | None:
        return self._open.get(uri)


def path_of(uri: str) -> str:
    """The file that a URI names, as a person knows it."""
    return unquote(urlsplit(uri).path) if uri.startswith("file:") else uri
