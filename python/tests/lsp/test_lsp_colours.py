"""The colours of Vim are those of the TextMate grammar: each token has a group that means the same as its scope.

They differ where an attribute and its `type` stand on two lines: a TextMate grammar looks at one line at a time.
"""
import json
import shutil
import subprocess
import sys
from pathlib import Path

import pytest
from lsp.client import HOME
from lsp.samples import EXAMPLES
from waiting import WAIT

FILES = [*sorted(EXAMPLES.glob("*.um")), *sorted((HOME / "library").glob("*.um"))]
RARE = """// é [<Measure>] type no
[<Measure>] type mètre
[<Measure>] type km = mètre^3 / mètre * 1 // s
[<Measure>] type s
type Body<[<Measure>] 'u, [<Measure>] 'v> = { pos: num<'u>; vel: num<'v^-1> list; on: bool }
let rec f (x: num<km>) (b: Body<mètre, s> list) : num<_> = // num
  if x<km && not true || 2<km^2> <> 3.50<km * km> then 1<km> else let y = ([] : num<km> list) in pown 0<_> 2 + b.pos
"""
GROUPS = {
    "comment": {"umComment"}, "constant.numeric": {"umNumber", "umPower"}, "constant.language": {"umBoolean"},
    "keyword.declaration.type": {"umStructure", "umMeasureType"},
    "keyword.declaration": {"umStatement", "umStructure", "umRecursive"}, "keyword.control": {"umConditional"},
    "keyword.operator.word": {"umWordOperator"}, "keyword.operator": {"umOperator", "umUnitOperator", "umPower"},
    "storage.modifier.measure": {"umAttribute"}, "storage.modifier.rec": {"umRecursive"}, "support.type": {"umType"},
    "entity.name.type.record": {"umDeclaredRecord", "umRecordType"}, "entity.name.type.measure": {"umDeclaredMeasure"},
    "support.constant.measure": {"umMeasure"}, "variable.parameter.unit": {"umUnitVariable"},
    "entity.name.function": {"umDeclared"}, "variable.language.hole": {"umHole", "umUnitHole"},
    "variable.other": {"umName"},
}

pytestmark = pytest.mark.skipif(shutil.which("vim") is None, reason="Debian's vim isn't installed")


def tokens(file: Path) -> list[tuple[int, int, str, str]]:
    """The line, the column of bytes, the text and the scope of each token that has a scope of its own."""
    lines, found, ends = file.read_text().split("\n"), [], dict[int, int]()
    done = subprocess.run([sys.executable, str(HOME / "editors/scopes"), str(file)], capture_output=True, text=True,
                          check=True)
    for row in done.stdout.splitlines():
        number, rest = row.split(maxsplit=1)
        token, scope = rest.rsplit(maxsplit=1)
        line = int(number)
        at = lines[line - 1].index(token, ends.get(line, 0))
        ends[line] = at + len(token)
        if scope != "-" and not scope.startswith("punctuation"):
            found.append((line, len(lines[line - 1][:at].encode()) + 1, token, scope))
    return found


def groups(file: Path, places: list[tuple[int, int]], folder: Path) -> list[str]:
    """The group that Vim has at each place of a file."""
    results, script = folder / "results.json", folder / "script.vim"
    (folder / "places.json").write_text(json.dumps(places))
    script.write_text("\n".join([
        "set nocompatible encoding=utf-8", f"set runtimepath^={HOME}/editors/vim", "filetype plugin indent on",
        "syntax on", f"edit {file}", f"let places = json_decode(join(readfile('{folder}/places.json'), ''))",
        "call map(places, {_, it -> synIDattr(synID(it[0], it[1], 1), 'name')})",
        f"call writefile([json_encode(places)], '{results}')", "qall!"]))
    done = subprocess.run(["vim", "-es", "-u", "NONE", "-i", "NONE", "-n", "-S", str(script)], timeout=WAIT,
                          capture_output=True, text=True, cwd=folder)
    assert results.exists(), done.stdout + done.stderr
    found: list[str] = json.loads(results.read_text())
    return found


@pytest.mark.parametrize("file", [*FILES, None], ids=lambda file: file.name if file else "rare forms")
def test_the_groups_of_vim(file: Path | None, tmp_path: Path) -> None:
    if file is None:
        file = tmp_path / "rare.um"
        file.write_text(RARE)
    every = tokens(file)
    assert len(every) > 3
    found = groups(file, [(line, column) for line, column, _, _ in every], tmp_path)
    wrong = []
    for (line, column, token, scope), group in zip(every, found, strict=True):
        wanted = next(groups for beginning, groups in GROUPS.items() if scope.startswith(beginning))
        if group not in wanted:
            wrong.append((line, column, token, scope, group))
    assert wrong == []
