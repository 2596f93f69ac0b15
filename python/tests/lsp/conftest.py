"""What the tests of the language server share: a session with a server that ends with the test."""
import importlib.util
import os
from collections.abc import Callable, Iterator
from pathlib import Path
from typing import Any

import pytest
from lsp.client import Client

HERE = Path(__file__).resolve().parent


def pytest_collection_modifyitems(items: list[pytest.Item]) -> None:
    """Skips the tests in this folder if the server can't run."""
    if importlib.util.find_spec("pylsp_jsonrpc") is None:
        for item in items:
            if HERE in item.path.parents:
                item.add_marker(pytest.mark.skip(reason="the server needs Debian's python3-pylsp-jsonrpc"))


@pytest.fixture
def start() -> Iterator[Callable[..., Client]]:
    """Begins sessions, whose servers are ended after the test."""
    begun: list[Client] = []

    def begin(*words: str, **settings: Any) -> Client:
        begun.append(Client(*words, **settings))
        return begun[-1]
    yield begin
    for client in begun:
        client.kill()


@pytest.fixture(scope="session")
def shared() -> Iterator[dict[str, Client]]:
    """A session with each program that tests ask."""
    every: dict[str, Client] = {}
    yield every
    for client in every.values():
        client.kill()


@pytest.fixture
def client(shared: dict[str, Client]) -> Client:
    """A session that tests share, each with texts of its own."""
    program = os.environ["UMC"]
    if program not in shared:
        shared[program] = Client()
    return shared[program]
