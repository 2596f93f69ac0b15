"""Vim without a screen: the file type plugin, indentation, layout, completion of names, and columns of `:make`."""
import json
import os
import shutil
import subprocess
from collections.abc import Callable
from pathlib import Path
from typing import Any

import pytest
from lsp.client import HOME, answer
from lsp.samples import EXAMPLES, REFUSED, Refused
from waiting import WAIT

FILES = sorted(path.name for path in EXAMPLES.glob("*.um"))
Vim = Callable[..., Any]

pytestmark = pytest.mark.skipif(shutil.which("vim") is None, reason="Debian's vim isn't installed")


@pytest.fixture
def vim(tmp_path: Path) -> Vim:
    """Opens a text in Vim, carries commands out, and gives the value of an expression."""
    def run(text: str, commands: list[str], value: str, name: str = "a file.um") -> Any:
        file, results = tmp_path / name, tmp_path / "results.json"
        file.write_text(text)
        script = tmp_path / "script.vim"
        script.write_text("\n".join([
            "set nocompatible encoding=utf-8", f"set runtimepath^={HOME}/editors/vim",
            f"let g:umc_program = {json.dumps(os.environ['UMC'])}", "filetype plugin indent on",
            f"edit {str(file).replace(' ', chr(92) + ' ')}", *commands,
            f"call writefile([json_encode({value})], {json.dumps(str(results))})", "qall!"]))
        done = subprocess.run(["vim", "-es", "-u", "NONE", "-i", "NONE", "-n", "-S", str(script)], timeout=WAIT,
                              capture_output=True, text=True, cwd=tmp_path, env={**os.environ, "LC_ALL": "C.UTF-8"})
        assert results.exists(), done.stdout + done.stderr
        return json.loads(results.read_text())
    return run


def test_options(vim: Vim) -> None:
    assert vim("", [], "[&filetype, &commentstring, &omnifunc, &indentexpr, &shiftwidth, &expandtab]") == [
        "um", "// %s", "um#Complete", "GetUmIndent(v:lnum)", 2, 1]


@pytest.mark.parametrize("file", FILES)
def test_indentation_keeps_the_examples(vim: Vim, file: str) -> None:
    text = (EXAMPLES / file).read_text()
    assert vim(text, ["normal! gg=G"], "getline(1, '$')") == text.splitlines()


def test_indentation_of_what_is_written(vim: Vim) -> None:
    keys = "olet f (l: num list) =\\<CR>match l with\\<CR>| [] ->\\<CR>0\\<CR>\\<Esc>"
    assert vim("", [f'execute "normal! {keys}"'], "getline(1, '$')")[1:5] == [
        "let f (l: num list) =", "  match l with", "  | [] ->", "    0"]


@pytest.mark.needs("tidy")
def test_layout(vim: Vim) -> None:
    text = "let  f (é: num)   = é*2.50   // é % !\nlet  g=f 1"
    assert vim(text, ["normal! gggqG"], "getline(1, '$')") == answer(["tidy"], text)[1].splitlines()


def test_layout_keeps_what_is_refused(vim: Vim) -> None:
    text = "let  f = (1 // % ! \\ '\n\n\nlet  g=2"
    assert vim(text, ["normal! gggqG"], "getline(1, '$')") == text.splitlines()


@pytest.mark.parametrize("refused", REFUSED, ids=lambda refused: refused.file)
def test_places_of_make(vim: Vim, refused: Refused) -> None:
    found = vim(refused.text, ["compiler umc", "silent make"],
                "map(filter(getqflist(), {_, e -> e.valid}), {_, e -> [e.lnum, e.col, e.nr, e.text]})")
    before = refused.text[:refused.start].split("\n")
    assert found == [[len(before), len(before[-1].encode()) + 1, refused.status, refused.report]]


def test_a_column_beyond_ascii(vim: Vim) -> None:
    text = "let é (ä: num) = ä + 1\nlet ö\U0001f600 = 1"
    found = vim(text, ["compiler umc", "silent make"], "[line('.'), col('.'), getline('.')[col('.') - 1:]]")
    assert found == [2, 7, "\U0001f600 = 1"]
    text = "let é (ä: num) = ä + true"
    found = vim(text, ["compiler umc", "silent make"], "[line('.'), col('.'), getline('.')[col('.') - 1:]]")
    assert found == [1, 23, "+ true"]


def test_completion(vim: Vim) -> None:
    text = ("[<Measure>] type m\ntype R<[<Measure>] 'u> = { across: num<'u> }\nlet é (ä: num<m>) = ä * ä // äx\n"
            "let f (l: num list) = match l with [] -> 0 | x :: rest -> é\n")
    commands = ["call cursor(4, 59)", "let start = um#Complete(1, '')", "let found = um#Complete(0, '')"]
    start, found, one = vim(text, commands, "[start, found, um#Complete(0, 'ac')]")
    assert text.splitlines()[3].encode()[:start].decode().endswith("-> ")
    menu = {item["word"]: item["menu"] for item in found}
    assert [word for word in ("m", "R", "'u", "across", "é", "ä", "f", "l", "x", "rest") if word not in menu] == []
    assert "äx" not in menu and "let" not in menu
    assert menu["é"] == "num<m> -> num<m^2>"
    assert [item["word"] for item in one] == ["across"]
