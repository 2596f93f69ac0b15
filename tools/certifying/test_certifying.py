"""Tests of the checker of certificates: /usr/bin/python3 -m pytest tools/certifying (Debian's python3-pytest)."""
from __future__ import annotations

import argparse
import importlib.machinery
import importlib.util
import subprocess
import sys
from collections.abc import Callable
from pathlib import Path
from typing import Any

import pytest

HOME = Path(__file__).resolve().parent.parent.parent
sys.path[:0] = [str(HOME / "reference"), str(HOME / "tools"), str(HOME / "tools" / "fuzzing")]

from certifying import judging  # noqa: E402
from certifying.reading import Fault  # noqa: E402
from front import Report, typed  # noqa: E402
from prove import prove  # noqa: E402

MEAN = (HOME / "examples" / "mean.um").read_bytes()
UNITS = "[<Measure>] type m\n[<Measure>] type s\n"
CUBE = UNITS + "let h (x: num<_>) (y: num<_>) = (y < 1<m>) && (x * x < 1<m^3>) && (y < 1<s>)\n"
GENERAL = UNITS + "let f<[<Measure>] 'u> (x: num<'u>) = (x < 2 * x) && (x < 1<m>)\n"
LATER = "line 1: h: equation 3 isn't the first, counted from 1: those before it have no solution"
PARAMETER = UNITS + "let g<[<Measure>] 'u> (x: num<'u>) (y: num<_>) = x + y\n"


def shown(program: bytes | str, certificates: str) -> list[str]:
    """What the certificates show."""
    data = program if isinstance(program, bytes) else program.encode()
    return judging.check(judging.program_of_text(data), certificates)


def fault(program: bytes | str, certificates: str) -> str:
    """Why the certificates don't show it."""
    with pytest.raises(Fault) as raised:
        shown(program, certificates)
    return str(raised.value)


def certificates_of(program: bytes | str) -> str:
    """The certificates that the reference prints."""
    return prove(typed(program if isinstance(program, bytes) else program.encode(), True))


def test_schemes_follow() -> None:
    """The schemes of all functions."""
    assert shown(MEAN, certificates_of(MEAN)) == [
        "total : num<'a> list -> num<'a>", "count : num<'a> list -> num", "mean : num<'a> list -> num<'a>"]


def test_refusals_follow() -> None:
    """The kind and the place of a refusal."""
    assert shown(CUBE, certificates_of(CUBE)) == ["error 9: units of h at 3:54"]
    assert shown(GENERAL, certificates_of(GENERAL)) == ["error 19: not general in f at 3:56"]


@pytest.mark.parametrize("old, new, expected", [
    ("yes 1 1", "yes 1 2",
     "line 6: total: slot 1 comes back to the power 2 as 'a^2/'b^2 times itself, and its rows are 'a/'b"),
    ("yes 1 1", "yes 2 1", "line 1: total: 1 lines `back`, and there must be 2"),
    ("yes 1 1", "yes 1 0", "line 1: total: the divisor 0 isn't positive"),
    ("yes 1 1", "yes 01 1", "line 1: no such line may stand here"),
    ("total", "totals", "line 1: the program has no function totals"),
    ("slot 1: 'a", "slot 1: 1", "line 1: total: with the units of `slot` row 1 is 'a, not 1"),
    ("slot 1: 'a", "slot 1: 'b", "line 3: total: slot 1 has a variable that isn't among the first 1"),
    ("slot 1: 'a", "slot 1: m", "line 3: 'm' is no base unit of the program and no variable"),
    ("slot 1: 'a", "slot 1: 'a^1", "line 3: ''a^1' isn't how a unit is printed"),
    ("slot 1: 'a", "slot 1: 'a^2147483648", "line 3: the number 2147483648 is out of range"),
    ("slot 1", "slot 2", "line 3: slot 1 is missing"),
    ("back 0: 'a", "back 0: 'b^2", "line 5: total: with the units of `slot` back 0 isn't the variable 0"),
    ("rows 1: 1*1", "rows 1: 1*1 1*1", "line 6: row 1 stands out of order"),
    ("rows 1: 1*1", "rows 1: 1*0", "line 6: '1*0' is no row with a power other than 0"),
    ("rows 1: 1*1", "rows 3: 1*1", "line 7: rows 2 stands out of order"),
    ("  rows 1: 1*1\n", "  rows 0: 0*1\n  rows 1: 1*1\n", "line 6: total: rows 0 say nothing"),
    ("rows 1: 1*1", "rows 1: 9*1", "line 6: total: there is no row 9"),
    ("  rows 1: 1*1\n", "",
     "line 3: total: slot 1 comes back to the power 1 as 'a/'b times itself, and its rows are 1"),
    ("count yes", "mean yes", "line 8: this must be the certificate of count"),
    ("total yes 1 1", "error 10: power range", "line 1: no certificate was printed, but error 10: power range"),
])
def test_wrong_certificates(old: str, new: str, expected: str) -> None:
    """One change, and the fault that is told."""
    text = certificates_of(MEAN)
    assert old in text
    assert fault(MEAN, text.replace(old, new, 1)) == expected


def test_the_whole_text() -> None:
    """No certificate more or less, and each line ended."""
    text = certificates_of(MEAN)
    assert fault(MEAN, text[:text.index("mean")]) == "the certificate of mean is missing"
    assert fault(MEAN, text + text[text.index("mean"):]) == "line 18: a certificate follows the last one"
    assert fault(MEAN, text[:-1]) == "line 17: the last line isn't ended by a line feed"
    assert fault(MEAN, text + "\n") == "line 18: no such line may stand here"
    assert fault("let k = x\n", "") == "there is nothing to certify, the program has error 7: unknown name at 1:9"
    assert shown("// nothing\n", "") == []


@pytest.mark.parametrize("program, certificate, expected", [
    (CUBE, "h no 2 2\n  rows: 1*1\n", None),
    (CUBE, "h no 3 2\n  rows: 1*1\n", LATER),
    (CUBE, "h no 3 2\n  rows: 1*1 2*2\n", LATER),
    (CUBE, "h no 1 2\n  rows: 1*1\n", "line 1: h: row 1 comes after equation 1, counted from 1"),
    (CUBE, "h no 9 2\n  rows: 1*1\n", "line 1: h: there is no equation 9, counted from 1, of 3"),
    (CUBE, "h no 2 3\n  rows: 1*1\n", "line 1: h: slot 0 has the power 2, which is no multiple of 3"),
    (CUBE, "h no 2 2\n  rows: 1*2\n", "line 1: h: each base unit's power is a multiple of 2"),
    (CUBE, "h no 2 1\n  rows: 1*1\n", "line 1: h: the modulus 1 is less than 2"),
    (CUBE, "h no 2 2\n", "line 2: the line `rows:` of a refusal is missing"),
    (CUBE, "h not general 2 2\n  rows: 1*1\n",
     "line 1: h: the equations up to 2 have no solution for any unit parameters either"),
    (GENERAL, "f not general 2 2\n  rows: 1*1\n", None),
    (GENERAL, "f no 2 2\n  rows: 1*1\n", "line 1: f: slot 0 has the power 1, which is no multiple of 2"),
    (MEAN, "total no 2 2\n  rows: 1*1\n", "line 1: total: slot 0 has the power 1, which is no multiple of 2"),
])
def test_refusals(program: bytes | str, certificate: str, expected: str | None) -> None:
    """A refusal says which equation is the first, and whether other unit parameters would do."""
    if expected is None:
        assert shown(program, certificate) == shown(program, certificates_of(program))
    else:
        assert fault(program, certificate) == expected


def test_unit_parameters() -> None:
    """A unit parameter is a unit of its own."""
    text = certificates_of(PARAMETER)
    assert shown(PARAMETER, text) == ["g : num<'a> -> num<'a> -> num<'a>"]
    assert fault(PARAMETER, text.replace("$0", "m")) == "line 6: g: the unit parameter 0 isn't $0"
    assert fault(PARAMETER, text.replace("rigid 1: $0", "rigid 1: 1")) == (
        "line 1: g: with the units of `rigid` row 0 is $0, not 1")
    assert fault(PARAMETER, text[:text.index("  rigid")]) == "line 1: g: 0 lines `rigid`, and there must be 2"


def test_other_names_of_variables() -> None:
    """The inverse of a variable in its place is the same scheme."""
    text = "k yes 1 1\n  slot 0: /'a\n  back 0: /'a\n"
    assert shown("let k (x: num<_>) = x * x\n", text) == ["k : num</'a> -> num</'a^2>"]


def test_power_range() -> None:
    """A function that is refused for the range of powers isn't certified."""
    program = (HOME / "examples" / "refusals" / "powers.um").read_text()
    with pytest.raises(Report, match="power range of"):
        typed(program.encode(), True)
    source = judging.program_of_text(program.encode())
    name = source.program.functions[0].name
    assert "pass the range of powers" in fault(program, f"{name} yes 0 1\n")


def command(*words: str, given: str = "") -> tuple[int, str, str]:
    """The status, the output and the errors of the tool."""
    tool = [sys.executable, str(HOME / "tools" / "check_certificate.py")]
    done = subprocess.run([*tool, *words], input=given, text=True, capture_output=True)
    return done.returncode, done.stdout, done.stderr


def test_command(tmp_path: Path) -> None:
    """The command line: schemes, equations, faults and files that aren't there."""
    path = tmp_path / "f.um"
    path.write_text(PARAMETER)
    text = certificates_of(PARAMETER)
    assert command(str(path), "-", given=text) == (0, "g : num<'a> -> num<'a> -> num<'a>\n", "")
    assert command("--equations", str(path), "-", given=text) == (
        0, "g 2 1\n  type: num<'a> -> num<'b> -> num<'a>\n  row 0 at 3:52: 'a/'b\n", "")
    assert command(str(path), "-", given=text[:-1]) == (
        1, "", "refused: line 7: the last line isn't ended by a line feed\n")
    assert command(str(path), str(tmp_path / "none"))[0] == 2


# ---- the changed certificates: each check that is left out lets something false pass


class Inside:
    """The reference in the place of a program."""

    def ask(self, command: str, text: bytes) -> tuple[int, str]:
        """The status and the answer."""
        from answer import answer
        try:
            return 0, answer([command], lambda: text)
        except Report as report:
            return report.status, report.line + "\n"


def run_of(generated: int, mutated: int) -> Any:
    """A run of tools/certificates on generated programs."""
    loader = importlib.machinery.SourceFileLoader("certificates", str(HOME / "tools" / "certificates"))
    module = importlib.util.module_from_spec(importlib.util.spec_from_loader("certificates", loader))
    loader.exec_module(module)
    run = module.Run(argparse.Namespace(program=["none"], seed="tests", kinds=False))
    run.program = Inside()
    run.generated(0, generated)
    assert run.wrong == 0
    run.all_mutated(mutated)
    return run


def test_nothing_false_passes() -> None:
    """Of the changed certificates."""
    run = run_of(40, 300)
    assert run.wrong == 0
    assert any(kind.startswith("passed: ") for kind in run.kinds)


def only_in_list(question: judging.Question) -> None:
    """The named equation is there, and the product may be any."""
    if not 1 <= question.certificate.numbers[0] <= len(question.equations.rows()):
        raise question.refused("there is no such equation")


@pytest.mark.parametrize("name, instead", [
    ("check_rows", lambda question, units, word: None),
    ("check_back", lambda question: None),
    ("check_rigid", lambda question: None),
    ("check_product", only_in_list),
    ("is_solvable", lambda rows, units: True),
])
def test_each_check_is_needed(
    monkeypatch: pytest.MonkeyPatch, capsys: pytest.CaptureFixture, name: str, instead: Callable
) -> None:
    """Without it something false passes, and is told."""
    monkeypatch.setattr(judging, name, instead)
    run = run_of(120, 600)
    assert run.wrong > 0
    assert "passed, and isn't so" in capsys.readouterr().out
