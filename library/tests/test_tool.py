"""The tool tools/library: what it finds wrong, how it joins texts, and how it ends."""
import importlib.util
import subprocess
import sys
from importlib.machinery import SourceFileLoader
from pathlib import Path
from types import ModuleType

import pytest
from library_documents import shown_commands, written_document
from library_files import HOME, LIBRARY, STEMS, Call, Fault, calls, in_order, joined, signatures

TOOL = HOME / "tools" / "library"


@pytest.fixture(scope="module")
def tool() -> ModuleType:
    """The tool as a module."""
    loader = SourceFileLoader("library_tool", str(TOOL))
    spec = importlib.util.spec_from_loader("library_tool", loader)
    module = importlib.util.module_from_spec(spec)
    sys.modules["library_tool"] = module
    loader.exec_module(module)
    return module


class Answers:
    """A program that gives every call the same answer."""

    def __init__(self, answer: str) -> None:
        self.answer = answer

    def ask(self, _text: str, *_words: str) -> str:
        return self.answer

    def ask_each(self, _text: str, questions: list[tuple[str, ...]]) -> list[str]:
        return [self.answer for _ in questions]

    def run_each(self, _text: str, budgeted: list[tuple[int, tuple[str, ...]]]) -> list[str]:
        return [self.answer for _ in budgeted]


def call(answer: str, budget: int | None = None) -> Call:
    """A call of a function f."""
    return Call(("f", "1"), "f 1", answer, budget, "here:1")


def run(*words: str, cwd: Path = HOME) -> subprocess.CompletedProcess[str]:
    """The tool by itself."""
    return subprocess.run([str(TOOL), *words], capture_output=True, text=True, cwd=cwd, check=False)


def test_a_wrong_answer_is_told(tool: ModuleType, capsys: pytest.CaptureFixture[str]) -> None:
    tally = tool.Tally()
    tool.hold_calls(Answers("3"), "", [call("3"), call("4")], tally)
    assert (tally.passed, tally.failed) == (1, 1)
    assert capsys.readouterr().out == "here:1: f 1 gives 3\n"


def test_a_budget_that_is_too_large_is_told(tool: ModuleType) -> None:
    tally = tool.Tally()
    tool.hold_calls(Answers("3"), "", [call("3", 7)], tally)
    assert (tally.passed, tally.failed) == (1, 1)


def test_a_refused_signature_and_a_missing_one_are_told(tool: ModuleType, capsys: pytest.CaptureFixture[str]) -> None:
    tally = tool.Tally()
    tool.hold_signatures(Answers("error 20: units of pi, type 1"), "num", ["pi", "nameless"], tally)
    assert tally.passed == 0 and tally.failed == len(signatures(LIBRARY / "num.sig")) + 1
    assert "library/num.sig: no signature of nameless" in capsys.readouterr().out


def test_a_program_that_answers_nothing_fails(tool: ModuleType) -> None:
    with pytest.raises(Fault, match="true types: of the text 'let k = 1' it answers ''"):
        tool.Program(["true"])


def test_no_types_are_told(tool: ModuleType, capsys: pytest.CaptureFixture[str]) -> None:
    tally = tool.Tally()
    tool.hold_types(Answers(""), tally)
    assert tally.passed == 0 and tally.failed == len(STEMS) + 1
    assert "library/si.um: no types" in capsys.readouterr().out


def test_a_program_that_is_not_there() -> None:
    done = run("/nowhere/umc")
    assert done.returncode == 2 and "/nowhere/umc" in done.stderr and done.stdout == ""


def test_no_program_and_help() -> None:
    assert run().returncode == 2
    assert run("--help").returncode == 0 and "--text" in run("--help").stdout


def test_text_is_joined_once_each() -> None:
    text = run("--text", "library/stat.um", "library/list.um").stdout
    assert text == joined([LIBRARY / f"{stem}.um" for stem in ("num", "list", "stat")])
    missing = run("--text", "nothing.um")
    assert (missing.returncode, missing.stderr) == (2, "tools/library: nothing.um: No such file or directory\n")


def test_closed_output_is_no_error() -> None:
    words = f"{TOOL} --text library/stat.um | head -1"
    done = subprocess.run(words, shell=True, capture_output=True, text=True, cwd=HOME, check=False)
    assert done.stdout.startswith("// ") and done.stderr == ""


def test_first_lines(tmp_path: Path) -> None:
    file = tmp_path / "own.um"
    file.write_text("\ufeff// with: list stat\nlet k = 1")
    assert [path.stem for path in in_order(file)] == ["num", "list", "stat", "own"]
    assert joined([file]) == "// with: list stat\nlet k = 1\n"
    file.write_text("// with: lists\n")
    with pytest.raises(Fault, match="no library/lists.um"):
        in_order(file)


def test_a_circle_is_told(tmp_path: Path, monkeypatch: pytest.MonkeyPatch) -> None:
    (tmp_path / "a.um").write_text("// with: b\n")
    (tmp_path / "b.um").write_text("// with: a\n")
    monkeypatch.setattr("library_files.LIBRARY", tmp_path)
    with pytest.raises(Fault, match="a.um: needs itself, by a b"):
        in_order(tmp_path / "a.um")


def test_lines_of_calls(tmp_path: Path) -> None:
    file = tmp_path / "x.calls"
    file.write_text("# what\n\nf '[1; 2]' 3 => { a = 1 }\nf 1 => 2 in 13 calls\n")
    found = calls(file)
    assert [each.words for each in found] == [("f", "[1; 2]", "3"), ("f", "1")]
    assert [(each.answer, each.budget) for each in found] == [("{ a = 1 }", None), ("2", 13)]
    file.write_text("f 1 = 2\n")
    with pytest.raises(Fault, match="x.calls:1: no ' => '"):
        calls(file)


def test_commands_of_a_document(tmp_path: Path) -> None:
    file = tmp_path / "x.md"
    file.write_text("```\n$ tools/library --text a.um b.um | ./umc run 9 f '1 2'\n3\n```\n\n```\nlet k = 1\n```\n")
    command, = shown_commands(file)
    assert (command.files, command.words, command.answer) == (("a.um", "b.um"), ("run", "9", "f", "1 2"), ["3"])
    file.write_text("```\n$ ls\n```\n")
    with pytest.raises(Fault, match="x.md:2: no command"):
        shown_commands(file)


def test_a_document_is_renewed() -> None:
    old = "# T\n<!-- functions of num -->\nold\n<!-- end -->\nrest\n"
    new = written_document(old, {"num": ["sign : num<'a> -> num", "num_below : num -> num"]})
    assert new.startswith("# T\n<!-- functions of num -->\n\n- `sign : num<'a> -> num` of x\n  1 for a positive x")
    assert "old" not in new and "num_below" not in new and new.endswith("<!-- end -->\nrest\n")
    with pytest.raises(Fault, match="no part between"):
        written_document("# T\n", {"num": []})


def test_each_file_ends_with_a_line_feed_and_names_are_apart() -> None:
    assert {path.stem for path in LIBRARY.glob("*.um")} == set(STEMS)
    assert all(path.read_text().endswith("\n") for path in LIBRARY.glob("*.um"))
