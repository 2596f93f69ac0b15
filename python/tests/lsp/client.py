"""A client of the language server for tests: plain JSON-RPC over pipes."""
import json
import os
import queue
import subprocess
import sys
import threading
from pathlib import Path
from typing import Any

from waiting import WAIT

Json = dict[str, Any]
HOME = Path(__file__).resolve().parents[3]
CAPABILITIES: Json = {"textDocument": {"publishDiagnostics": {"relatedInformation": True},
                                       "hover": {"contentFormat": ["markdown", "plaintext"]},
                                       "signatureHelp": {"signatureInformation": {
                                           "parameterInformation": {"labelOffsetSupport": True}}}}}


def answer(words: list[str], text: str) -> tuple[int, str]:
    """What the program itself answers."""
    done = subprocess.run([os.environ["UMC"], *words], input=text.encode(), capture_output=True)
    return done.returncode, done.stdout.decode()


class Failed(Exception):
    """The server answered a request with an error."""

    def __init__(self, error: Json):
        super().__init__(error["message"])
        self.code: int = error["code"]


class Client:
    """A session with one server."""

    def __init__(self, *words: str, capabilities: Json = CAPABILITIES, begin: bool = True, **environment: str):
        self.process = subprocess.Popen([sys.executable, str(HOME / "um"), "lsp", *words], stdin=subprocess.PIPE,
                                        stdout=subprocess.PIPE, stderr=subprocess.PIPE,
                                        env={**os.environ, **environment})
        self.messages: queue.Queue[Json | None] = queue.Queue()
        self.notes: list[Json] = []
        self.answers: dict[int, Json] = {}
        self.last = 0
        self.version = 0
        threading.Thread(target=self._read, daemon=True).start()
        if begin:
            self._begin(capabilities)

    def _begin(self, capabilities: Json) -> None:
        """Begins the session. A server that refuses it is ended."""
        try:
            self.server = self.request("initialize", {"processId": None, "rootUri": None,
                                                      "capabilities": capabilities})
        except BaseException:
            self.kill()
            raise
        self.notify("initialized", {})

    def _read(self) -> None:
        source = self.process.stdout
        assert source
        while True:
            length = 0
            while (line := source.readline()).strip():
                name, _, value = line.partition(b":")
                if name.lower() == b"content-length":
                    length = int(value)
            if not line:
                break
            self.messages.put(json.loads(source.read(length)))
        self.messages.put(None)

    def write(self, message: Json) -> None:
        data = json.dumps(message).encode()
        assert self.process.stdin
        self.process.stdin.write(b"Content-Length: %d\r\n\r\n" % len(data) + data)
        self.process.stdin.flush()

    def notify(self, method: str, params: Json) -> None:
        self.write({"jsonrpc": "2.0", "method": method, "params": params})

    def ask(self, method: str, params: Any) -> int:
        """Sends a request, and gives its number."""
        self.last += 1
        self.write({"jsonrpc": "2.0", "id": self.last, "method": method, "params": params})
        return self.last

    def answer(self, number: int) -> Any:
        """Waits for the answer to a request."""
        while number not in self.answers:
            self._next()
        message = self.answers.pop(number)
        if "error" in message:
            raise Failed(message["error"])
        return message["result"]

    def request(self, method: str, params: Any) -> Any:
        return self.answer(self.ask(method, params))

    def _next(self) -> None:
        message = self.messages.get(timeout=WAIT)
        assert message is not None, "the server ended"
        if "id" in message:
            self.answers[message["id"]] = message
        else:
            self.notes.append(message)

    def note(self, method: str, **wanted: Any) -> Any:
        """Waits for a notification whose parameters are these, and gives all of them."""
        while True:
            for at, message in enumerate(self.notes):
                if message["method"] == method and wanted.items() <= message["params"].items():
                    return self.notes.pop(at)["params"]
            self._next()

    # ---- texts

    def open(self, text: str, uri: str = "file:///a.um") -> "Text":
        """Opens a text."""
        self.version += 1
        self.notify("textDocument/didOpen", {"textDocument": {"uri": uri, "languageId": "um",
                                                              "version": self.version, "text": text}})
        return Text(self, uri, text, self.version)

    def end(self) -> int:
        """Ends the session, and gives the exit status."""
        self.request("shutdown", None)
        self.notify("exit", {})
        return self.process.wait(WAIT)

    def kill(self) -> None:
        """Ends the process, whatever it does."""
        if self.process.poll() is None:
            self.process.kill()
        self.process.wait()
        for pipe in (self.process.stdin, self.process.stdout, self.process.stderr):
            if pipe:
                pipe.close()


def position(text: str, offset: int) -> Json:
    """A position by the protocol's rules, counted anew here: lines by their ends, UTF-16 units by the codec."""
    before = text[:offset].replace("\r\n", "\n").replace("\r", "\n").split("\n")
    return {"line": len(before) - 1, "character": len(before[-1].encode("utf-16-le")) // 2}


class Text:
    """A text that is open at a server."""

    def __init__(self, client: Client, uri: str, text: str, version: int):
        self.client, self.uri, self.text, self.version = client, uri, text, version

    @property
    def identity(self) -> Json:
        return {"textDocument": {"uri": self.uri}}

    def place(self, mark: str, at: int = 0, more: int = 0) -> Json:
        """The position of the at-th time that a piece of text stands in it."""
        offset = -1
        for _ in range(at + 1):
            offset = self.text.index(mark, offset + 1)
        return position(self.text, offset + more)

    def ask(self, method: str, mark: str = "", at: int = 0, more: int = 0, **params: Any) -> Any:
        """Asks about a place in the text, or about the text."""
        where = {"position": self.place(mark, at, more)} if mark else {}
        return self.client.request(f"textDocument/{method}", {**self.identity, **where, **params})

    def span(self, start: int = 0, end: int | None = None) -> Json:
        return {"start": position(self.text, start), "end": position(self.text, len(self.text) if end is None else end)}

    def piece(self, where: Json) -> str:
        """What stands in a range."""
        ends = {(place["line"], place["character"]): offset for offset in reversed(range(len(self.text) + 1))
                for place in [position(self.text, offset)]}
        start, end = (ends[where[side]["line"], where[side]["character"]] for side in ("start", "end"))
        return self.text[start:end]

    def change(self, changes: list[Json], text: str) -> None:
        """Sends changes, after which the text is this one."""
        self.client.version += 1
        self.version, self.text = self.client.version, text
        self.client.notify("textDocument/didChange", {
            "textDocument": {"uri": self.uri, "version": self.version}, "contentChanges": changes})

    def replace(self, text: str) -> None:
        """Sends a whole new text."""
        self.change([{"text": text}], text)

    @property
    def diagnostics(self) -> list[Json]:
        """What the server tells about this version of the text."""
        params = self.client.note("textDocument/publishDiagnostics", uri=self.uri, version=self.version)
        found: list[Json] = params["diagnostics"]
        return found

    def applied(self, edits: list[Json]) -> str:
        """The text after edits."""
        ends = {(place["line"], place["character"]): offset for offset in reversed(range(len(self.text) + 1))
                for place in [position(self.text, offset)]}
        text = self.text
        for edit in sorted(edits, key=lambda edit: (edit["range"]["start"]["line"],
                                                    edit["range"]["start"]["character"]), reverse=True):
            start, end = (ends[edit["range"][side]["line"], edit["range"][side]["character"]]
                          for side in ("start", "end"))
            text = text[:start] + edit["newText"] + text[end:]
        return text
