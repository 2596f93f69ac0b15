#!/usr/bin/env python3
"""A web service that answers calls of programs that anybody sends, within limits.

use: examples/embed/service.py [--port N] ..

  POST /types  {"text": "let k = 1"}
  POST /call   {"text": "..", "library": ["si"], "function": "mean", "arguments": ["[1<m>; 2<m>]"]}
  POST /call   {"image": "BASE64", "function": "mean", "arguments": ["[1; 2]"]}

The answer is JSON: {"status": 0, "text": "3r2<m>"}, or for a refusal {"status": 9, "kind": "units", "message": ..,
"explanation": [..]}. A request that isn't one of these has the HTTP status 400, one that is too long 413; 429 says that
as many calls run as may run at once, and 503 that a limit of a run was reached.

From a checkout: PYTHONPATH=python examples/embed/service.py --port 8080
"""
import argparse
import base64
import binascii
import json
import re
import sys
import threading
from collections.abc import Iterator
from contextlib import contextmanager
from http.server import BaseHTTPRequestHandler, ThreadingHTTPServer
from typing import Any

import umc

WORD = re.compile(r"[\w']{1,100}")
MOST_ARGUMENTS = 16


class Wrong(Exception):
    """A request that isn't one."""


def field(asked: dict[str, Any], name: str, kind: type, otherwise: Any = None) -> Any:
    """A part of a request, of this kind."""
    found = asked.get(name, otherwise)
    if not isinstance(found, kind):
        raise Wrong(f"{name!r} must be a {kind.__name__}")
    return found


def words(asked: dict[str, Any], name: str) -> list[str]:
    """A part of a request that is a list of texts."""
    found = field(asked, name, list, [])
    if len(found) > MOST_ARGUMENTS or not all(isinstance(word, str) and "\0" not in word for word in found):
        raise Wrong(f"{name!r} must be a list of at most {MOST_ARGUMENTS} texts")
    return found


def refusal(refused: umc.Refused) -> dict[str, Any]:
    """A refusal as an answer."""
    place = {"line": refused.place.line, "column": refused.place.column} if refused.place else {}
    return {"status": refused.status, "kind": refused.kind, "message": refused.message, **place,
            "explanation": list(refused.explanation)}


class Service(BaseHTTPRequestHandler):
    """Answers one request after another of one connection."""

    protocol_version = "HTTP/1.1"
    timeout = 10            # seconds that a connection may be silent
    most_bytes = 1 << 20
    engine: umc.Process
    places: threading.BoundedSemaphore

    def do_POST(self) -> None:
        """Answers a question."""
        try:
            asked = json.loads(self._body())
            if not isinstance(asked, dict):
                raise Wrong("the request must be an object")
            with self._place():
                self._answer(200, self._result(asked))
        except (ValueError, RecursionError):
            self._answer(400, {"error": "the request isn't JSON"})
        except Wrong as wrong:
            self._answer(*wrong.args) if len(wrong.args) == 2 else self._answer(400, {"error": str(wrong)})
        except umc.Refused as refused:
            self._answer(200, refusal(refused))
        except umc.LimitReached as error:
            self._answer(503, {"error": error.message})
        except umc.Unavailable:
            self._answer(500, {"error": "there is no program umc"})
        except umc.Error as error:
            self._answer(400, {"error": error.message})

    def _body(self) -> bytes:
        length = self.headers.get("Content-Length", "")
        if not re.fullmatch("[0-9]{1,18}", length):
            self.close_connection = True
            raise Wrong("Content-Length must say how long the request is")
        if int(length) > self.most_bytes:
            self.close_connection = True
            self._pass_over(int(length))
            raise Wrong(413, {"error": f"a request has at most {self.most_bytes} bytes"})
        return self.rfile.read(int(length))

    def _pass_over(self, length: int) -> None:
        """Reads away a request that is too long, up to a bound: while it sends, its sender may miss the answer."""
        left = min(length, 16 * self.most_bytes)
        while left > 0 and (piece := self.rfile.read(min(left, 1 << 16))):
            left -= len(piece)

    @contextmanager
    def _place(self) -> Iterator[None]:
        if not self.places.acquire(blocking=False):
            raise Wrong(429, {"error": "as many calls run as may run at once; try again"})
        try:
            yield
        finally:
            self.places.release()

    def _result(self, asked: dict[str, Any]) -> dict[str, Any]:
        if self.path == "/call" and "image" in asked:
            return self._of_image(asked)
        if self.path not in ("/call", "/types"):
            raise Wrong(404, {"error": "there is /types and /call"})
        library = words(asked, "library")
        if not all(WORD.fullmatch(name) for name in library):
            raise Wrong("'library' has names of files of the library, as si")
        program = umc.Program(field(asked, "text", str), library, engine=self.engine)
        if self.path == "/types":
            return {"status": 0, "types": [str(scheme) for scheme in program.types().values()]}
        name = field(asked, "function", str)
        if name not in program.types():
            raise Wrong("the program has no such function")
        return {"status": 0, "text": program[name].printed(*words(asked, "arguments"))}

    def _of_image(self, asked: dict[str, Any]) -> dict[str, Any]:
        try:
            image = base64.b64decode(field(asked, "image", str), validate=True)
        except binascii.Error as error:
            raise Wrong("'image' must be base64") from error
        name = field(asked, "function", str)
        if not WORD.fullmatch(name):
            raise Wrong("'function' must be a name")
        return {"status": 0, "text": umc.Image(image, engine=self.engine).printed(name, *words(asked, "arguments"))}

    def _answer(self, status: int, tree: dict[str, Any]) -> None:
        body = json.dumps(tree).encode() + b"\n"
        self.send_response(status)
        self.send_header("Content-Type", "application/json")
        self.send_header("Content-Length", str(len(body)))
        self.end_headers()
        self.wfile.write(body)

    def log_message(self, form: str, *parts: Any) -> None:
        """Says nothing of each request."""


def main() -> int:
    reader = argparse.ArgumentParser(description=__doc__, formatter_class=argparse.RawDescriptionHelpFormatter)
    reader.add_argument("--port", type=int, default=8080, help="of this machine alone (8080); 0 takes a free one")
    reader.add_argument("--seconds", type=float, default=2.0, help="of one run (2)")
    reader.add_argument("--memory", type=int, default=500, help="MiB of one run (500)")
    reader.add_argument("--answer", type=int, default=1024, help="KiB of one answer (1024)")
    reader.add_argument("--at-once", type=int, default=4, help="runs at once (4)")
    options = reader.parse_args()
    limits = umc.Limits(options.seconds, options.memory << 20, options.answer << 10)
    Service.engine = umc.Process(limits=limits)
    Service.places = threading.BoundedSemaphore(options.at_once)
    with ThreadingHTTPServer(("127.0.0.1", options.port), Service) as server:
        print(f"http://127.0.0.1:{server.server_port}", flush=True)
        try:
            server.serve_forever()
        except KeyboardInterrupt:
            return 130
    return 0


if __name__ == "__main__":
    sys.exit(main())
