"""Neovim's own client, without a screen, opens each example and each refusal with the files of editors/."""
import json
import os
import shutil
import subprocess
import sys
from pathlib import Path
from typing import Any

import pytest
from lsp.client import HOME, answer
from lsp.samples import EVERY, MARKED, REFUSED, Example, Refused
from waiting import WAIT

HERE = Path(__file__).resolve().parent

# All files are opened by one Neovim, with a program that has all that is looked at.
pytestmark = [pytest.mark.skipif(shutil.which("nvim") is None, reason="Debian's neovim isn't installed"),
              *map(pytest.mark.needs, ("explain", "annot", "tidy"))]


def place(text: str, offset: int) -> list[int]:
    """A place as Neovim counts: the line from 1, the byte from 0."""
    before = text[:offset].split("\n")
    return [len(before), len(before[-1].encode())]


def step(file: Path, example: Example | None) -> dict[str, Any]:
    """What Neovim is to do with a file."""
    made: dict[str, Any] = {"file": str(file), "format": answer(["tidy"], "")[0] == 0}
    if example:
        made |= {"use": place(example.text, example.text.index(example.use)), "new": example.new}
    return made


@pytest.fixture(scope="module")
def shown(tmp_path_factory: pytest.TempPathFactory) -> dict[str, Any]:
    """What Neovim shows of each file, by the file's name."""
    folder = tmp_path_factory.mktemp("neovim")
    steps = []
    for sample in (*EVERY, *REFUSED):
        file = folder / sample.file
        file.write_text(sample.text)
        steps.append(step(file, sample if isinstance(sample, Example) else None))
    (folder / "plan.json").write_text(json.dumps(steps))
    command = json.dumps([sys.executable, str(HOME / "um"), "lsp"])
    done = subprocess.run(
        ["nvim", "--headless", "-u", "NONE", "-i", "NONE", "-n",
         "--cmd", f"set runtimepath^={HOME}/editors/vim,{HOME}/editors/neovim hidden",
         "--cmd", f"let g:um_command = {command}", "--cmd", "filetype plugin indent on",
         "-c", f"luafile {HERE / 'neovim.lua'}"],
        env={**os.environ, "UM_PLAN": str(folder / "plan.json"), "UM_RESULTS": str(folder / "results.json"),
             "XDG_STATE_HOME": str(folder), "XDG_CACHE_HOME": str(folder), "NVIM_LOG_FILE": str(folder / "log")},
        capture_output=True, text=True, timeout=3 * WAIT)
    assert (folder / "results.json").exists(), done.stderr
    results = json.loads((folder / "results.json").read_text())
    return {Path(name).name: result for name, result in results.items()}


@pytest.mark.parametrize("file", [sample.file for sample in (*EVERY, *REFUSED)])
def test_a_file_is_opened(shown: dict[str, Any], file: str) -> None:
    assert shown[file].get("failed") is None
    assert shown[file]["filetype"] == "um"


@pytest.mark.parametrize("refused", REFUSED, ids=lambda refused: refused.file)
def test_diagnostics(shown: dict[str, Any], refused: Refused) -> None:
    [[line, column, end_line, end_column, message, source, severity]] = shown[refused.file]["diagnostics"]
    [start, end] = (place(refused.text, refused.start + length) for length in (0, len(refused.what)))
    assert ([line + 1, column], [end_line + 1, end_column]) == (start, end)
    assert message.split("\n")[0] == f"error {refused.status}: {refused.report}"
    assert (source, severity) == ("umc", 1)


@pytest.mark.needs("explain")
@pytest.mark.parametrize("refused", [one for one in REFUSED if one.explained], ids=lambda refused: refused.file)
def test_explanations(shown: dict[str, Any], refused: Refused) -> None:
    assert refused.explained in [line.strip() for line in shown[refused.file]["diagnostics"][0][4].split("\n")]


@pytest.mark.parametrize("example", EVERY, ids=lambda example: example.file)
def test_no_diagnostics(shown: dict[str, Any], example: Example) -> None:
    assert shown[example.file]["diagnostics"] == []


@pytest.mark.parametrize("example", MARKED)
def test_hover(shown: dict[str, Any], example: Example) -> None:
    assert example.shown in "\n".join(shown[example.file]["hover"])


@pytest.mark.parametrize("example", EVERY, ids=lambda example: example.file)
def test_definition(shown: dict[str, Any], example: Example) -> None:
    offset = example.text.index(example.declared)
    declared = place(example.text, offset - (example.text[offset - 1] == "'"))
    assert (shown[example.file]["definition"], shown[example.file]["by_key"]) == (declared, declared)


@pytest.mark.parametrize("example", EVERY, ids=lambda example: example.file)
def test_rename(shown: dict[str, Any], example: Example) -> None:
    renamed = shown[example.file]["renamed"]
    assert renamed.count(example.new) == example.count and renamed != example.text
    assert answer(["types"], renamed)[0] == 0


@pytest.mark.needs("tidy")
@pytest.mark.parametrize("example", EVERY, ids=lambda example: example.file)
def test_formatting(shown: dict[str, Any], example: Example) -> None:
    assert shown[example.file]["formatted"] == answer(["tidy"], example.text)[1]


@pytest.mark.needs("tidy")
@pytest.mark.parametrize("refused", REFUSED, ids=lambda refused: refused.file)
def test_formatting_of_refused_files(shown: dict[str, Any], refused: Refused) -> None:
    status, laid_out = answer(["tidy"], refused.text)
    assert shown[refused.file]["formatted"] == (laid_out if status == 0 else refused.text)
