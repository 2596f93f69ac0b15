"""The program under test: UMC, or the built program of this repository."""
import os
import subprocess
import sys
from collections.abc import Callable
from pathlib import Path

import pytest

HOME = Path(__file__).resolve().parents[2]
sys.path.insert(0, str(HOME / "tools"))


@pytest.fixture(scope="session")
def program() -> Callable[..., str]:
    """Asks the program: a text, and the words; gives the answer."""
    path = os.environ.get("UMC", str(HOME / "crates" / "umc" / "out" / "umc"))
    if not os.access(path, os.X_OK):
        pytest.fail(f"no program at {path}: build it, or name one with UMC=PROGRAM")

    def ask(text: str, *words: str) -> str:
        done = subprocess.run([path, *words], input=text.encode(), capture_output=True, check=False)
        return done.stdout.decode().rstrip("\n")
    return ask
