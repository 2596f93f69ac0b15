"""Emacs without a screen: the major mode of editors/emacs, and Eglot with the language server."""
import json
import os
import shutil
import subprocess
import sys
from pathlib import Path
from typing import Any

import pytest
from lsp.client import HOME
from lsp.samples import EXAMPLES, REFUSED
from waiting import WAIT

HERE = Path(__file__).resolve().parent
FILES = sorted(path.name for path in EXAMPLES.glob("*.um"))
TEXT = """// é [<Measure>] type no
[<Measure>] type mètre
[<Measure>] type km = mètre^3 / mètre
type Body<[<Measure>] 'u> = { pos: num<'u>; vel: num }
let rec f (x: num<km>) (b: Body<mètre> list) : num<_> = // num
  if x<km then 1<km> else let y = ([] : num<km> list) in 0<_> + b.pos
"""

pytestmark = pytest.mark.skipif(shutil.which("emacs") is None, reason="Debian's emacs-nox isn't installed")


@pytest.fixture(scope="module")
def results(tmp_path_factory: pytest.TempPathFactory) -> dict[str, Any]:
    """What Emacs does with the examples, and with a text of rare forms."""
    folder = tmp_path_factory.mktemp("emacs")
    for file in FILES:
        (folder / file).write_text((EXAMPLES / file).read_text())
    (folder / "rare.um").write_text(TEXT)
    units = next(refused for refused in REFUSED if refused.file == "units.um")
    (folder / "units.um").write_text(units.text)
    plan = {"files": [str(folder / file) for file in [*FILES, "rare.um"]],
            "server": [sys.executable, str(HOME / "um"), "lsp"],
            "asked": [[str(folder / "units.um"), "wall - door"]]}
    (folder / "plan.json").write_text(json.dumps(plan))
    done = subprocess.run(
        ["emacs", "--batch", "-L", str(HOME / "editors/emacs"), "--eval", "(package-initialize)",
         "-l", str(HERE / "emacs.el")], capture_output=True, text=True, timeout=3 * WAIT, cwd=folder,
        env={**os.environ, "HOME": str(folder), "UM_PLAN": str(folder / "plan.json"),
             "UM_RESULTS": str(folder / "results.json"), "LC_ALL": "C.UTF-8"})
    assert (folder / "results.json").exists(), done.stderr
    found: dict[str, Any] = json.loads((folder / "results.json").read_text())
    return {("server:" if name.startswith("server:") else "") + Path(name).name: result
            for name, result in found.items()}


@pytest.mark.parametrize("file", FILES)
def test_the_mode_of_a_file(results: dict[str, Any], file: str) -> None:
    assert results[file]["mode"] == "um-mode"
    assert results[file]["comment"] == "// "


@pytest.mark.parametrize("file", FILES)
def test_words_have_their_faces(results: dict[str, Any], file: str) -> None:
    wanted = {"let": "keyword", "rec": "keyword", "in": "keyword", "if": "keyword", "then": "keyword",
              "else": "keyword", "match": "keyword", "with": "keyword", "type": "keyword", "num": "type",
              "bool": "type", "list": "type", "Measure": "preprocessor", "pown": "builtin", "not": "builtin"}
    found = [(word, face) for word, face in results[file]["faces"] if word in wanted and "comment" not in face]
    assert found
    assert [(word, face) for word, face in found if face != f"font-lock-{wanted[word]}-face"] == []


def test_names_have_their_faces(results: dict[str, Any]) -> None:
    faces = [(word, face.removeprefix("font-lock-").removesuffix("-face"))
             for word, face in results["rare.um"]["faces"]]
    assert faces[0][1].startswith("comment") and ("no", "nil") not in faces
    assert [face for word, face in faces if word == "mètre"] == ["constant"] * 4
    assert [face for word, face in faces if word == "km"] == ["constant", "constant", "nil", "constant", "constant"]
    assert [face for word, face in faces if word == "Body"] == ["type", "type"]
    assert [face for word, face in faces if word in ("f", "y")] == ["function-name", "function-name"]
    assert [face for word, face in faces if word == "'u"][1:] == ["constant"]


@pytest.mark.parametrize("file", FILES)
def test_indentation_keeps_the_examples(results: dict[str, Any], file: str) -> None:
    lines = zip(results[file]["indented"]["before"].split("\n"), results[file]["indented"]["after"].split("\n"))
    assert [(before, after) for before, after in lines if before != after] == []


def test_eglot(results: dict[str, Any]) -> None:
    if "server:units.um" not in results:
        pytest.skip("Debian's elpa-eglot isn't installed")
    found = results["server:units.um"]
    [[what, message]] = found["diagnostics"]
    assert what == "-" and "error 9: units of total" in message
    assert "wall : num<m>" in found["hover"] and "parameter of total" in found["hover"]
