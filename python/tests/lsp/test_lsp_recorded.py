"""A recorded session: what a client sent, message by message, and what the server must answer to it.

`session.jsonl` has a message on each line, in order. The name and version of the server are left out of it.
"""
import json
from collections.abc import Callable
from pathlib import Path

import pytest
from lsp.client import Client, Json
from waiting import WAIT

RECORDED = [json.loads(line) for line in (Path(__file__).parent / "session.jsonl").read_text().splitlines()]


def heard(client: Client, wanted: Json) -> Json:
    """The server's next message of this kind: an answer to the same request, or a notification."""
    if "id" not in wanted:
        return {"jsonrpc": "2.0", "method": wanted["method"], "params": client.note(wanted["method"])}
    while wanted["id"] not in client.answers:
        client._next()
    return client.answers.pop(wanted["id"])


@pytest.mark.needs("explain")
@pytest.mark.needs("annot")
@pytest.mark.needs("tidy")
def test_a_recorded_session(start: Callable[..., Client]) -> None:
    client = start(begin=False)
    for message in RECORDED:
        if "client" in message:
            client.write(message["client"])
            continue
        wanted = message["server"]
        found = heard(client, wanted)
        if wanted.get("id") == 1:
            assert found["result"].pop("serverInfo")["name"] == "um lsp"
        assert found == wanted
    assert client.process.wait(WAIT) == 0
    assert client.notes == []


def test_each_request_is_recorded_or_asked_by_neovim() -> None:
    from umc.lsp.capabilities import ANSWERS
    recorded = {message["client"]["method"] for message in RECORDED if "client" in message}
    by_neovim = {f"textDocument/{name}" for name in ("hover", "definition", "rename", "formatting")}
    assert set(ANSWERS) - recorded - by_neovim == set()
