"""Tests of the tool for hostile inputs: `python3 -m pytest tools/test_hostile.py`.

The programs are scripts that take as much time and memory as a test wants.
"""
import importlib.machinery
import importlib.util
import subprocess
import sys
from pathlib import Path
from types import ModuleType
from typing import Any

import pytest

from hostile_bounds import ANY_MIB, ANY_SECONDS, BOUNDS, FULL, MEMORY, MIB, NODES, TEXT, Most, Stated, table
from hostile_inputs import IMAGE_BYTES, TEXT_BYTES, Case, cases, doubled_text, doubling
from repository import ROOT

TOOL = ROOT / "tools" / "hostile"
HELD = "held = bytearray({} << 20)\n"
MOST = Most(0.4, 100)


def tool() -> ModuleType:
    """The tool as a module."""
    loader = importlib.machinery.SourceFileLoader("hostile", str(TOOL))
    module = importlib.util.module_from_spec(importlib.util.spec_from_loader("hostile", loader))
    sys.modules["hostile"] = module
    loader.exec_module(module)
    return module


hostile = tool()


def program(folder: Path, text: str) -> Path:
    """A program that does what this Python says."""
    made = folder / "program"
    made.write_text(f"#!{sys.executable} -S\nimport os, sys, time\n{text}")
    made.chmod(0o755)
    return made


def ran(folder: Path, text: str, case: Case, most: Most = MOST, has_checks: bool = False) -> Any:
    """How such a program ends with a case, and what the tool finds wrong."""
    source = folder / "source"
    source.write_bytes(case.make())
    found = hostile.run([str(program(folder, text))], case, source, most, has_checks)
    return found, hostile.fault(case, found, most, has_checks)


PLAIN = Case("kind", "title", ["types"], lambda: b"text")
FILLS = Case("kind", "title", ["run"], lambda: b"text", FULL, 4)


def test_a_run_within_its_bound_is_well(tmp_path: Path) -> None:
    found, wrong = ran(tmp_path, "print(sys.stdin.read(), sys.argv[1:])\nsys.exit(5)", PLAIN, Most(5, 500))
    assert (found.status, wrong) == ("5", "")
    assert 0 < found.seconds < 5 and 1 < found.mib < 500


@pytest.mark.parametrize("text, status, wrong", [
    ("while time.process_time() < 0.6: pass", "0", "above: time"),
    ("while True: pass", "no end", "no end"),
    (HELD.format(200), "0", "above: memory"),
    ("os.abort()", "SIGABRT", "SIGABRT"),
    ("os.kill(os.getpid(), 9)", "SIGKILL", "SIGKILL"),
])
def test_a_run_above_its_bound_is_marked(tmp_path: Path, text: str, status: str, wrong: str) -> None:
    found, told = ran(tmp_path, text, PLAIN)
    assert (found.status, told) == (status, wrong)


def test_a_program_with_checks_is_judged_by_its_time(tmp_path: Path) -> None:
    assert ran(tmp_path, HELD.format(200), PLAIN, has_checks=True)[1] == ""
    assert ran(tmp_path, "while time.process_time() < 0.6: pass", PLAIN, has_checks=True)[1] == "above: time"


def test_a_run_that_fills_the_memory_must_want_memory(tmp_path: Path) -> None:
    assert ran(tmp_path, "sys.exit(17)", FILLS)[1] == ""
    assert ran(tmp_path, "print(1)", FILLS)[1] == "not full"
    assert hostile.fault(FILLS, hostile.Ran("full memory", 0.3, 4096), MOST, True) == ""
    assert hostile.fault(FILLS, hostile.Ran("full memory", 0.5, 4096), MOST, True) == "above: time"
    assert hostile.fault(FILLS, hostile.Ran("full memory", 0.3, 4096), MOST, False) == "full memory"


def test_memory_is_limited(tmp_path: Path) -> None:
    text = f"try:\n    held = bytearray({MEMORY})\nexcept MemoryError:\n    sys.exit(17)\n"
    assert ran(tmp_path, text, FILLS, Most(5, 5000))[0].status == "17"


TYPES = "if sys.argv[1] == 'types':\n    print('f : num -> num')\n    sys.exit()\n"


@pytest.mark.parametrize("by", ["um", "python"])
@pytest.mark.parametrize("text, limits, said", [
    ("time.sleep(60)", Stated(time=0.2), "the run took more than 0.2 s (--limit-time)"),
    (HELD.format(300) + "time.sleep(60)", Stated(memory=200 * MIB), "the run held more than 200 MiB of memory"),
    ("sys.stdout.write('x' * (2 << 20))", Stated(output=MIB), "the answer is longer than 1 MiB (--limit-output)"),
])
def test_a_limit_that_is_stated_must_be_told(tmp_path: Path, by: str, text: str, limits: Stated, said: str) -> None:
    case = Case("limits", "title", ["f", "1"], lambda: doubling(1), by=by, limits=limits, said=said)
    found, wrong = ran(tmp_path, TYPES + text, case, Most(10, 1000))
    assert (found.status, wrong) == ("124", "")


def test_a_limit_that_is_not_reached_is_a_fault(tmp_path: Path) -> None:
    case = Case("limits", "title", ["f", "1"], lambda: doubling(1), by="um", limits=Stated(output=MIB), said="longer")
    found, wrong = ran(tmp_path, TYPES + "print('1')", case, Most(10, 1000))
    assert (found.status, wrong) == ("0", "said: ")


def told(folder: Path, text: str, *words: str) -> subprocess.CompletedProcess[str]:
    """What the tool says about such a program."""
    return subprocess.run([TOOL, *words, program(folder, text)], capture_output=True, text=True)


def test_the_status_tells_whether_a_line_is_above(tmp_path: Path) -> None:
    words = ["--only", "a list of 19,000 items"]
    well = told(tmp_path, "sys.exit(0)", *words)
    assert well.returncode == 0 and well.stdout.splitlines()[-1].endswith("| text |  |")
    late = told(tmp_path, "while time.process_time() < 1.2: pass", *words)
    assert late.returncode == 1 and late.stdout.splitlines()[-1].endswith("| text | above: time |")
    assert told(tmp_path, "while time.process_time() < 1.2: pass", "--slower", "4", *words).returncode == 0
    assert "| text |" not in told(tmp_path, "sys.exit(0)", "--least", "90", *words).stdout
    assert late.stderr == "1 inputs, 1 above its bound\n" and well.stderr == "1 inputs, none above its bound\n"
    lacking = told(tmp_path, "sys.exit(1)", *words)
    assert lacking.returncode == 0 and "not built" in lacking.stdout


def test_limits_are_asked_of_a_program_without_words(tmp_path: Path) -> None:
    made = program(tmp_path, "sys.exit(0)")
    done = subprocess.run([TOOL, "--only", "limits", made, "word"], capture_output=True, text=True)
    assert (done.returncode, done.stderr) == (0, "0 inputs, none above its bound\n")


def test_a_program_that_is_not_there_is_told(tmp_path: Path) -> None:
    done = subprocess.run([TOOL, tmp_path / "none"], capture_output=True, text=True)
    assert (done.returncode, done.stderr) == (2, f"tools/hostile: there is no program {tmp_path / 'none'}\n")


def test_a_bound_is_a_sum() -> None:
    assert TEXT.most(0) == Most(ANY_SECONDS, ANY_MIB)
    assert NODES.most(40) == Most(ANY_SECONDS + 40 * NODES.seconds, ANY_MIB + 40 * NODES.mib)
    assert PLAIN.most(TEXT_BYTES) == TEXT.most(1)
    assert Stated(time=2).most() == Most(ANY_SECONDS + 3, ANY_MIB + 4096)
    assert Stated(memory=400 * MIB).words() == ["--limit-memory", "400M"]


def test_inputs_are_no_longer_than_the_program_reads() -> None:
    """All but those that take long to make."""
    for case in cases():
        if case.kind not in ("collisions", "jumps", "joins", "shapes"):
            size = len(case.make())
            longest = TEXT_BYTES + 1 if case.words[0] not in ("exec", "calls") else IMAGE_BYTES
            assert size <= longest, case.title


def test_the_answers_of_values_have_their_length() -> None:
    assert [doubled_text(levels) for levels in (0, 1, 2)] == [len("1\n"), len("[1; 1]\n"), len("[[1; 1]; [1; 1]]\n")]


def test_the_document_shows_the_bounds() -> None:
    assert table(BOUNDS) in (ROOT / "bench" / "README.md").read_text(encoding="utf-8")
