"""Tests of the comparison itself: it finds a planted fault, shrinks it, and makes the same case again."""
from __future__ import annotations

import subprocess
import sys
from pathlib import Path

import pytest

HOME = Path(__file__).resolve().parent.parent.parent
sys.path[:0] = [str(HOME / "tools" / "fuzzing"), str(HOME / "reference")]

from cases import Cases  # noqa: E402
from earley import Grammar  # noqa: E402
from grammar import RULES  # noqa: E402
from shrinking import smaller  # noqa: E402

PLANTED = """#!/bin/sh
text=$(mktemp)
cat > "$text"
if grep -q '{pattern}' "$text"; then echo planted; else {umc} "$@" < "$text"; fi
status=$?
rm "$text"
exit $status
"""


def fuzz(program: Path, *words: str) -> subprocess.CompletedProcess:
    """Runs tools/fuzz on a program."""
    return subprocess.run([HOME / "tools" / "fuzz", "--program", program, *words], capture_output=True, text=True)


def planted(folder: Path, pattern: str) -> Path:
    """A program that answers wrongly on texts with a pattern."""
    program = folder / "program"
    program.write_text(PLANTED.format(pattern=pattern, umc=HOME / "reference" / "umc"))
    program.chmod(0o755)
    return program


def test_the_reference_agrees_with_itself() -> None:
    done = fuzz(HOME / "reference" / "umc", "--count", "60", "--seed", "a", "--kinds")
    assert done.returncode == 0
    assert "60 cases, 0 differ" in done.stdout


def test_a_planted_fault_is_found_and_shrunk(tmp_path: Path) -> None:
    done = fuzz(planted(tmp_path, "::"), "--commands", "types", "--only", "typed", "--most", "1", "--seed", "b")
    assert done.returncode == 1
    case = done.stdout.splitlines()[1]
    assert "::" in case and len(case) < 40


def test_a_case_depends_on_seed_and_number_alone() -> None:
    rules = Grammar(RULES).rules
    one, other = [Cases("s", rules, lambda text: None, True) for _ in range(2)]
    assert [one.case(number) for number in range(50)] == [other.case(number) for number in reversed(range(50))][::-1]
    assert one.case(1) != Cases("t", rules, lambda text: None, True).case(1)


@pytest.mark.parametrize("wanted", [{3}, {0, 9}, {4, 5, 6}])
def test_smaller_keeps_what_is_needed(wanted: set[int]) -> None:
    assert smaller(list(range(10)), lambda parts: wanted <= set(parts)) == sorted(wanted)
