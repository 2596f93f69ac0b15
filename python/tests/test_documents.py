"""The commands `./um ..` that documents show, with what they print, and what EMBEDDING.md shows of `import umc`."""
import doctest
import os
import re
import subprocess
import sys
from collections.abc import Iterator
from pathlib import Path
from typing import Any

import pytest

from conftest import HOME, need

from umc.commands import COMMANDS

FILES = [path for pattern in ("*.md", "docs/*.md", "examples/**/*.md", "python/*.md", "library/*.md")
         for path in sorted(HOME.glob(pattern))]


def shown(path: Any) -> Iterator[Any]:
    """Each command in a block of a document, with the lines that follow it."""
    inside, found = False, None
    for number, line in enumerate(path.read_text().splitlines(), 1):
        if line.startswith("```"):
            inside, found = not inside, None
        elif inside and line.startswith("$ "):
            found = [] if "./um " in line else None
            if found is not None:
                yield pytest.param(line[2:], found, id=f"{path.relative_to(HOME)}:{number}")
        elif inside and found is not None:
            found.append(line)


EVERY = [case for path in FILES for case in shown(path)]


def test_documents_show_commands() -> None:
    assert len(EVERY) >= 10


@pytest.mark.parametrize("line, lines", EVERY)
def test_a_document_is_true(line: Any, lines: Any, tmp_path: Path) -> None:
    for name in re.findall(r"\./um ([a-z]+)", line):
        need(COMMANDS[name].needs)
    is_refusal = bool(lines) and re.match(r"[^ ]+: error ", lines[0]) is not None
    if is_refusal and len(lines) > 1:
        need("explain")
    (tmp_path / "python3").symlink_to(sys.executable)
    done = subprocess.run(["bash", "-c", line], cwd=HOME, text=True, stdout=subprocess.PIPE, stderr=subprocess.STDOUT,
                          env={**os.environ, "PATH": f"{tmp_path}:{os.environ['PATH']}"})
    found = done.stdout.splitlines()
    # A document may show the first line of a refusal alone, without the explanation.
    assert (found[:1] if is_refusal and len(lines) == 1 else found) == lines


@pytest.mark.needs("show")
def test_the_document_on_python_is_true(monkeypatch: pytest.MonkeyPatch) -> None:
    monkeypatch.chdir(HOME)
    monkeypatch.setenv("UMC_LIBRARY", "none")
    blocks = (HOME / "docs/EMBEDDING.md").read_text().split("```\n")[1::2]
    sessions = "\n".join(block for block in blocks if block.startswith(">>>"))
    found = doctest.DocTestParser().get_doctest(sessions, {}, "EMBEDDING", "docs/EMBEDDING.md", 0)
    assert found.examples
    assert doctest.DocTestRunner(verbose=False).run(found).failed == 0


def test_a_script_that_names_its_interpreter_can_be_run() -> None:
    folders = ("examples", "tools", "bench", "embed", "page", "editors", "reference", "python")
    files = [path for folder in folders for path in (HOME / folder).rglob("*") if path.is_file()]
    scripts = [path for path in files if "out" not in path.parts and path.read_bytes()[:2] == b"#!"]
    assert HOME / "examples/embed/service.py" in scripts
    assert [path for path in scripts if not os.access(path, os.X_OK)] == []
