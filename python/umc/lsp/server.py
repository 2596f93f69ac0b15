"""The server: it reads messages, hands each to what answers it, and drops what a newer text makes useless."""
import logging
import threading
import time
from collections.abc import Callable
from concurrent.futures import ThreadPoolExecutor
from functools import partial
from typing import Any, BinaryIO

from pylsp_jsonrpc.endpoint import Endpoint  # type: ignore[import]
from pylsp_jsonrpc.exceptions import JsonRpcException  # type: ignore[import]
from pylsp_jsonrpc.streams import JsonRpcStreamReader, JsonRpcStreamWriter  # type: ignore[import]

from umc.errors import UmError
from umc.lsp import capabilities, diagnostics
from umc.lsp.analysis import Dropped
from umc.lsp.documents import Snapshot, Workspace
from umc.lsp.positions import Json
from umc.lsp.refused import Refused
from umc.program import Program

log = logging.getLogger(__name__)
Answer = Callable[[Snapshot, Json], Any]
WORKERS = 4
PAUSE = 0.002
ERROR = 1


class Code:
    """The numbers of errors, as the protocol has them."""

    INVALID_REQUEST = -32600
    INVALID_PARAMS = -32602
    NOT_INITIALIZED = -32002
    CONTENT_MODIFIED = -32801
    CANCELLED = -32800
    REQUEST_FAILED = -32803


class Server:
    """Answers one client until it ends the session. `status` is then the exit status.

    `requests` are those about texts that aren't answered yet, each with what tells that the client took it back.
    `later` is the thread for what nobody waits for.
    """

    def __init__(self, program: Program, source: BinaryIO, sink: BinaryIO, before: list[str]):
        self.workspace = Workspace(program, before)
        self.status = 1
        self.requests: dict[Any, threading.Event] = {}
        self._started = self._ending = False
        self._request: Any = None
        self.later = ThreadPoolExecutor(1)
        self._reader = JsonRpcStreamReader(source)
        self._writer = JsonRpcStreamWriter(sink)
        self._endpoint = Endpoint(self, self._writer.write, max_workers=WORKERS)

    def serve(self) -> int:
        """Answers messages until the client says that it ends, or hangs up."""
        self._reader.listen(self._take)
        if not self._started:
            self.status = 0
        self.workspace.close_all()
        self.later.shutdown()
        self._endpoint.shutdown()
        return self.status

    def _take(self, message: Json) -> None:
        if not isinstance(message, dict):
            return
        if message.get("method") == "$/cancelRequest":
            event = self.requests.get((message.get("params") or {}).get("id"))
            if event:
                event.set()
            return
        self._request = message.get("id")
        self._endpoint.consume(message)

    def __getitem__(self, method: str) -> Callable[[Any], Any]:
        """What carries out a method. The endpoint looks it up here, and answers a KeyError as an unknown method."""
        if method in NOTIFICATIONS:
            return lambda params: NOTIFICATIONS[method](self, params or {})
        if method == "initialize":
            return lambda params: self._initialize(params or {})
        if not self._started:
            raise JsonRpcException("the session isn't begun yet", Code.NOT_INITIALIZED)
        if self._ending:
            raise JsonRpcException("the session is ending", Code.INVALID_REQUEST)
        if method == "shutdown":
            return lambda params: self._shutdown()
        answer = capabilities.ANSWERS[method]
        return lambda params: self._start(answer, params or {})

    # ---- the session

    def _initialize(self, params: Json) -> Json:
        self.workspace.client = params.get("capabilities") or {}
        try:
            able = capabilities.of_server(self.workspace.program)
        except UmError as error:
            raise JsonRpcException(f"um: {error.message}", Code.REQUEST_FAILED) from error
        self._started = True
        return able

    def _shutdown(self) -> None:
        self._ending = True
        self.workspace.close_all()

    def exit(self, params: Json) -> None:
        """Ends the session. The status is 0 if the client said before that it would."""
        self.status = 0 if self._ending else 1
        self._reader.close()

    # ---- texts

    def opened(self, params: Json) -> Callable[[], None]:
        document = params["textDocument"]
        return self._look(self.workspace.open(document["uri"], document.get("version"), document["text"]))

    def changed(self, params: Json) -> Callable[[], None] | None:
        document = params["textDocument"]
        if self.workspace.get(document["uri"]) is None:
            return None
        return self._look(self.workspace.change(document["uri"], document.get("version"), params["contentChanges"]))

    def closed(self, params: Json) -> None:
        uri = params["textDocument"]["uri"]
        self.workspace.close(uri)
        self._endpoint.notify("textDocument/publishDiagnostics", {"uri": uri, "diagnostics": []})

    def _look(self, snapshot: Snapshot) -> Callable[[], None]:
        """Asks the program about a text, and tells the client what it refuses."""
        def look() -> None:
            try:
                found = diagnostics.diagnostics(snapshot)
            except Dropped:
                return
            except UmError as error:
                self._endpoint.notify("window/showMessage", {"type": ERROR, "message": f"um: {error.message}"})
                return
            if not snapshot.stale.is_set():
                told: Json = {"uri": snapshot.uri, "diagnostics": found}
                if snapshot.version is not None:
                    told["version"] = snapshot.version
                self._endpoint.notify("textDocument/publishDiagnostics", told)
                self._prepare(snapshot)
        return look

    def _prepare(self, snapshot: Snapshot) -> None:
        """Makes what the next requests need."""
        try:
            if snapshot.reading.declarations:
                snapshot.analysis.known
        except (Dropped, UmError):
            return
        self.later.submit(self._read, snapshot)

    def _read(self, snapshot: Snapshot) -> None:
        """Reads a text, a declaration at a time. What is asked meanwhile goes first, on the threads that answer."""
        for made in snapshot.reading.declarations:
            while self.requests and not snapshot.stale.is_set():
                time.sleep(PAUSE)
            if snapshot.stale.is_set():
                return
            if not made.section.is_read:
                made.piece
                time.sleep(PAUSE)

    # ---- requests

    def _start(self, answer: Answer, params: Json) -> Callable[[], Any]:
        """What answers a request about a text, on a thread of its own."""
        request, cancelled = self._request, threading.Event()
        try:
            snapshot = self.workspace.get(params["textDocument"]["uri"])
        except (KeyError, TypeError) as fault:
            raise JsonRpcException("the request names no document", Code.INVALID_PARAMS) from fault
        if snapshot is None:
            raise JsonRpcException("the document isn't open", Code.INVALID_PARAMS)
        self.requests[request] = cancelled
        return partial(self._carry_out, answer, snapshot, params, request)

    def _carry_out(self, answer: Answer, snapshot: Snapshot, params: Json, request: Any) -> Any:
        """Answers a request unless the client takes it back."""
        cancelled = self.requests[request]
        try:
            result = None if cancelled.is_set() else self._answer(answer, snapshot, params)
            if cancelled.is_set():
                raise JsonRpcException("the client took the request back", Code.CANCELLED)
            return result
        finally:
            self.requests.pop(request, None)

    def _answer(self, answer: Answer, snapshot: Snapshot, params: Json) -> Any:
        """Answers a request unless a newer text comes."""
        try:
            if snapshot.stale.is_set():
                raise Dropped
            result = answer(snapshot, params)
            if snapshot.stale.is_set():
                raise Dropped
            return result
        except Dropped as dropped:
            raise JsonRpcException("a newer text came", Code.CONTENT_MODIFIED) from dropped
        except Refused as refused:
            raise JsonRpcException(str(refused), Code.REQUEST_FAILED) from refused
        except UmError as error:
            raise JsonRpcException(f"um: {error.message}", Code.REQUEST_FAILED) from error
        except (KeyError, TypeError, ValueError) as fault:
            log.exception("a request")
            raise JsonRpcException(f"the request can't be read: {fault!r}", Code.INVALID_PARAMS) from fault


NOTIFICATIONS: dict[str, Callable[[Server, Json], Any]] = {
    "initialized": lambda server, params: None,
    "exit": Server.exit,
    "textDocument/didOpen": Server.opened,
    "textDocument/didChange": Server.changed,
    "textDocument/didClose": Server.closed,
    "textDocument/didSave": lambda server, params: None,
    "$/setTrace": lambda server, params: None,
    "workspace/didChangeConfiguration": lambda server, params: None,
}
