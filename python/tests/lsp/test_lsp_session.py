"""The session: its beginning and end, texts that change, requests that are dropped, and what can't be read."""
import os
import signal
from collections.abc import Callable
from pathlib import Path

import pytest
from lsp.client import HOME, Client, Failed, Json, answer, position
from waiting import WAIT, wait_for

NOT_INITIALIZED, INVALID_REQUEST, METHOD_NOT_FOUND, INVALID_PARAMS = -32002, -32600, -32601, -32602
CONTENT_MODIFIED, CANCELLED, REQUEST_FAILED = -32801, -32800, -32803
Start = Callable[..., Client]


@pytest.fixture
def client(start: Start) -> Client:
    """A session of its own for each test."""
    return start()


def test_begin_and_end(client: Client) -> None:
    assert client.server["serverInfo"]["name"] == "um lsp"
    assert client.server["serverInfo"]["version"] == (HOME / "VERSION").read_text().strip()
    assert client.end() == 0


def test_layout_is_offered_if_the_program_has_it(client: Client) -> None:
    status, _ = answer(["tidy"], "")
    assert client.server["capabilities"]["documentFormattingProvider"] is (status == 0)


def test_nothing_but_messages_on_standard_output(client: Client) -> None:
    client.open("let f = ").ask("hover", "f")
    client.end()
    assert client.process.stderr and client.process.stderr.read() == b""


def test_exit_without_shutdown_is_1(client: Client) -> None:
    client.notify("exit", {})
    assert client.process.wait(WAIT) == 1


def test_a_client_that_hangs_up(client: Client) -> None:
    client.open("let f = 1")
    assert client.process.stdin
    client.process.stdin.close()
    assert client.process.wait(WAIT) == 1


def test_requests_before_the_session(start: Start) -> None:
    client = start(begin=False)
    with pytest.raises(Failed) as failed:
        client.request("textDocument/hover", {})
    assert failed.value.code == NOT_INITIALIZED


def test_requests_after_its_end(client: Client) -> None:
    client.request("shutdown", None)
    with pytest.raises(Failed) as failed:
        client.request("textDocument/hover", {})
    assert failed.value.code == INVALID_REQUEST


def test_unknown_methods(client: Client) -> None:
    with pytest.raises(Failed) as failed:
        client.request("textDocument/unheardOf", {})
    assert failed.value.code == METHOD_NOT_FOUND
    client.notify("$/unheardOf", {})
    assert client.open("let f = 1").diagnostics == []


@pytest.mark.parametrize("params", [{}, {"textDocument": {}}, {"textDocument": {"uri": "file:///not/open.um"}}, [1],
                                    {"textDocument": {"uri": "file:///a.um"}},
                                    {"textDocument": {"uri": "file:///a.um"}, "position": {"line": "x"}}])
def test_requests_that_cant_be_read(client: Client, params: object) -> None:
    text = client.open("let f = 1")
    with pytest.raises(Failed) as failed:
        client.request("textDocument/hover", params)
    assert failed.value.code == INVALID_PARAMS
    assert text.ask("hover", "f") is not None


def test_messages_that_are_none(client: Client) -> None:
    client.write([])  # type: ignore[arg-type]
    client.write({"id": 7})
    assert client.process.stdin
    client.process.stdin.write(b"Content-Length: 3\r\n\r\n{x}")
    assert client.open("let f = 1").diagnostics == []


def test_there_is_no_program(start: Start) -> None:
    client = start(begin=False, UMC="/there/is/none")
    assert client.process.wait(WAIT) == 69
    assert client.process.stderr and b"UMC=/there/is/none: there is no such program" in client.process.stderr.read()


def test_the_program_breaks(start: Start, script: Callable[[str], Path]) -> None:
    client = start(UMC=str(script("grep -q . && kill -9 $$; exit 1")))
    client.open("let f = 1")
    assert "SIGKILL" in client.note("window/showMessage")["message"]


def test_the_program_breaks_at_once(start: Start, script: Callable[[str], Path]) -> None:
    with pytest.raises(Failed) as failed:
        start(UMC=str(script("kill -9 $$")))
    assert failed.value.code == REQUEST_FAILED and "SIGKILL" in str(failed.value)


# ---- texts

def test_changes_of_ranges(client: Client) -> None:
    text = client.open("let f (x: num) = x\nlet g = f 1\n")
    assert text.diagnostics == []
    new = "let f (x: num) = x\nlet g = f true\n"
    text.change([{"range": {"start": text.place("1\n"), "end": text.place("1\n", more=1)}, "text": "true"}], new)
    assert [found["code"] for found in text.diagnostics] == [8]
    text.replace("let g = 1")
    assert text.diagnostics == []


def test_several_changes_at_once_are_made_in_turn(client: Client) -> None:
    text = client.open("a\U0001f600b")
    start: Json = {"line": 0, "character": 0}
    text.change([{"range": {"start": {"line": 0, "character": 3}, "end": {"line": 0, "character": 4}}, "text": "= 1"},
                 {"range": {"start": start, "end": {"line": 0, "character": 3}}, "text": "let f "}], "let f = 1")
    assert text.diagnostics == []
    assert text.ask("hover", "f")["contents"]["value"].startswith("```um\nf : num\n")


def test_a_text_that_is_closed(client: Client) -> None:
    text = client.open("let f = ")
    assert text.diagnostics
    client.notify("textDocument/didClose", text.identity)
    assert client.note("textDocument/publishDiagnostics", uri=text.uri)["diagnostics"] == []
    with pytest.raises(Failed):
        text.ask("hover", "f")


def test_two_texts(client: Client) -> None:
    one = client.open("let f = 1", "file:///one.um")
    two = client.open("let f = true", "file:///two.um")
    assert "f : num" in one.ask("hover", "f")["contents"]["value"]
    assert "f : bool" in two.ask("hover", "f")["contents"]["value"]


# ---- places beyond ASCII

def test_columns_count_utf_16_units(client: Client) -> None:
    text = client.open("// \U0001f600\nlet f (x: num) = (* \U0001f600 *) x")
    [found] = text.diagnostics
    assert (found["code"], text.piece(found["range"])) == (4, "\U0001f600")
    assert found["range"]["start"]["line"] == 1
    text.replace("[<Measure>] type 𝑚\nlet é (𝒙: num<𝑚>) = 𝒙 * 𝒙 + true // 𝒙")
    [found] = text.diagnostics
    assert text.piece(found["range"]) == "+"
    text.replace("[<Measure>] type 𝑚\nlet é (𝒙: num<𝑚>) = 𝒙 * 𝒙 // 𝒙")
    assert text.diagnostics == []
    assert "𝒙 : num<𝑚>" in text.ask("hover", "𝒙 * 𝒙", more=4)["contents"]["value"]
    edits = text.ask("rename", "𝒙", newName="länge")["changes"][text.uri]
    assert text.applied(edits) == "[<Measure>] type 𝑚\nlet é (länge: num<𝑚>) = länge * länge // 𝒙"
    assert text.ask("definition", "𝑚>)")["range"] == text.span(17, 18)


@pytest.mark.parametrize("end", ["\n", "\r\n", "\r"])
def test_ends_of_lines(client: Client, end: str) -> None:
    text = client.open(f"[<Measure>] type m{end}let f (x: num<m>) ={end}  x + 1")
    [found] = text.diagnostics
    assert found["range"]["start"] == {"line": 2, "character": 4}
    assert text.piece(found["range"]) == "+"


def test_a_mark_in_front(client: Client) -> None:
    text = client.open("\ufefflet f = 1 + true")
    [found] = text.diagnostics
    assert text.piece(found["range"]) == "+"
    assert found["range"]["start"] == {"line": 0, "character": 11}


@pytest.mark.parametrize("text", ["", "\n", "let", "let f (", "type", "[<", "let f = 1<", "let f = [", "€",
                                  "let f = 'u", "\U0001f600", "let f = match", "| x :: r ->", ") ] }", "in in in",
                                  "let let let", "let f = a.", "let f (x: num<", "type r = {", "let f = let",
                                  "\ud800"])
def test_any_text_is_answered(client: Client, text: str) -> None:
    """No request fails on a text that is no program."""
    opened = client.open(text)
    assert len(opened.diagnostics) == (1 if text.strip() else 0)
    end = {"line": text.count("\n"), "character": len(text.encode("utf-16-le", "surrogatepass")) // 2}
    every = {"start": {"line": 0, "character": 0}, "end": end}
    for method in ("hover", "completion", "signatureHelp", "definition", "documentHighlight", "prepareRename"):
        for character in range(end["character"] + 1):
            client.request(f"textDocument/{method}", {**opened.identity, "position": {**end, "character": character}})
    for method in ("documentSymbol", "foldingRange", "semanticTokens/full", "inlayHint", "codeAction"):
        client.request(f"textDocument/{method}", {**opened.identity, "range": every, "context": {"diagnostics": []}})


# ---- requests that are dropped

@pytest.fixture
def slow(tmp_path: Path, script: Callable[[str], Path]) -> Path:
    """A program that answers a text with the word slow in it once there is a file `go` beside it."""
    return script(f"cat > {tmp_path}/$$\ngrep -q slow {tmp_path}/$$ && touch {tmp_path}/begun && "
                  f"while [ ! -e {tmp_path}/go ]; do sleep 0.05; done\n"
                  f"exec {os.environ['UMC']} \"$@\" < {tmp_path}/$$")


def test_an_older_request_is_dropped(start: Start, slow: Path) -> None:
    client = start(UMC=str(slow))
    text = client.open("let slow = 1")
    asked = client.ask("textDocument/hover", {**text.identity, "position": text.place("slow")})
    text.replace("let quick = 1")
    with pytest.raises(Failed) as failed:
        client.answer(asked)
    assert failed.value.code == CONTENT_MODIFIED
    assert text.diagnostics == []
    assert "quick : num" in text.ask("hover", "quick")["contents"]["value"]
    assert not [note for note in client.notes if note["method"] == "textDocument/publishDiagnostics"]


def test_a_request_that_is_taken_back(start: Start, slow: Path) -> None:
    client = start(UMC=str(slow))
    text = client.open("let slow = 1")
    asked = client.ask("textDocument/hover", {**text.identity, "position": text.place("slow")})
    client.notify("$/cancelRequest", {"id": asked})
    text.ask("documentHighlight", "slow")   # the server reads one message after the other
    (slow.parent / "go").touch()
    with pytest.raises(Failed) as failed:
        client.answer(asked)
    assert failed.value.code == CANCELLED
    client.notify("$/cancelRequest", {"id": 12345})
    assert "slow : num" in text.ask("hover", "slow")["contents"]["value"]


def test_the_end_stops_the_program(start: Start, slow: Path) -> None:
    client = start(UMC=str(slow))
    client.open("let slow = 1")
    assert client.end() == 0


# ---- files before the text

def test_files_before(start: Start, program: Callable[..., Path]) -> None:
    before = program("// é\n[<Measure>] type m\n// a square\nlet square (x: num<_>) = x * x", "units.um")
    client = start("--with", str(before))
    text = client.open("let f (x: num<m>) = square x\n")
    assert text.diagnostics == []
    assert "square : num<'a> -> num<'a^2>" in text.ask("hover", "square")["contents"]["value"]
    assert "a square" in text.ask("hover", "square")["contents"]["value"]
    assert text.ask("definition", "square") == {"uri": before.as_uri(), "range": {
        "start": position(before.read_text(), before.read_text().index("square (")),
        "end": position(before.read_text(), before.read_text().index(" (x"))}}
    assert text.ask("inlayHint", range=text.span()) == []
    with pytest.raises(Failed) as failed:
        text.ask("rename", "square", newName="quadrat")
    assert failed.value.code == REQUEST_FAILED and "declared in another file" in str(failed.value)
    edits = text.ask("rename", "x", newName="side")["changes"][text.uri]
    assert text.applied(edits) == "let f (side: num<m>) = square side\n"
    text.replace("\ufefflet m = 1\nlet square = 2")
    [found] = text.diagnostics
    assert found["message"].startswith("error 7: declared twice") and text.piece(found["range"]) == "square"


def test_a_file_before_that_is_refused(start: Start, program: Callable[..., Path]) -> None:
    before = program("let f = 1\nlet f = 2\n", "units.um")
    client = start("--with", str(before))
    [found] = client.open("let g = 1").diagnostics
    assert found["message"].startswith(f"error 7: declared twice at {before}:2:5")


def test_the_first_line_asks_for_files(start: Start, program: Callable[..., Path]) -> None:
    before = program("[<Measure>] type m\n", "units.um")
    client = start(UM_PATH=str(before.parent))
    text = client.open("// with: units\nlet f (x: num<m>) = x\n")
    assert text.diagnostics == []
    assert text.ask("definition", "m>")["uri"] == before.as_uri()
    before.write_text("[<Measure>] type metre\n")
    text.replace("// with: units\nlet f (x: num<m>) = x + 1\n")
    [found] = text.diagnostics
    assert (found["code"], text.piece(found["range"])) == (7, "m")
    text.replace("// with: units nowhere\nlet f = 1\n")
    [found] = text.diagnostics
    assert found["message"].startswith("nowhere: no file of the library") and found["range"] == text.span(0, 22)


def test_a_file_of_the_library_that_is_open_itself(start: Start, program: Callable[..., Path]) -> None:
    before = program("[<Measure>] type m\n", "units.um")
    text = start("--with", str(before)).open(before.read_text(), before.as_uri())
    assert text.diagnostics == []


def test_a_file_before_that_isnt_there(start: Start) -> None:
    client = start("--with", "./nowhere.um", begin=False)
    assert client.process.wait(WAIT) == 66


def test_a_signal_ends_the_server_and_its_program(start: Start, slow: Path) -> None:
    client = start(UMC=str(slow))
    client.open("let slow = 1")
    wait_for((slow.parent / "begun").exists, "the program")
    client.process.terminate()
    assert client.process.wait(WAIT) == -signal.SIGTERM
