"""What holds of all values and words, as Hypothesis (Debian's python3-hypothesis) looks for one of which it doesn't.

The program is the one that UMC names, otherwise the reference. No second program is asked: a value goes in and must
come out. Hypothesis makes a case that fails small by itself, and begins with it the next time.
"""
from __future__ import annotations

import os
import sys
from decimal import Decimal
from fractions import Fraction
from pathlib import Path
from typing import Any

import pytest

hypothesis = pytest.importorskip("hypothesis", reason="Debian's python3-hypothesis isn't there")
from hypothesis import example, given, settings  # noqa: E402
from hypothesis import strategies as st  # noqa: E402

HOME = Path(__file__).resolve().parent.parent.parent
sys.path.insert(0, str(HOME / "python"))

import umc  # noqa: E402
from umc.arguments import line_of_calls, source_of_calls  # noqa: E402
from umc.cells import CellError, number_text  # noqa: E402

PROGRAM = Path(os.environ.get("UMC") or HOME / "reference" / "umc").absolute()
TEXT = """[<Measure>] type m
[<Measure>] type s
type Pair<[<Measure>] 'u, [<Measure>] 'v> = { left: num<'u> list; right: num<'v>; open: bool }
let number (x: num<_>) = x
let truth (b: bool) = b
let numbers (l: num<_> list) = l
let lists (l: num<_> list list) = l
let pair (p: Pair<'a, 'b>) = p
"""
MOST = 2 ** 63 - 1  # the largest number that can be written
settings.register_profile("umc", max_examples=int(os.environ.get("EXAMPLES", "60")), deadline=None, print_blob=False)
settings.load_profile("umc")

integers = st.integers(-MOST, MOST)
fractions = st.builds(Fraction, st.integers(-10 ** 9, 10 ** 9), st.integers(1, 10 ** 6))
decimals = st.decimals(-10 ** 9, 10 ** 9, allow_nan=False, allow_infinity=False, places=6)
exact = st.one_of(integers, fractions, decimals)
units = st.dictionaries(st.sampled_from(["m", "s"]), st.integers(-9, 9).filter(bool), max_size=2)
signs = st.text(st.sampled_from("0123456789.-r<>[]{};=/ \t\n\rms_'e+/"), max_size=20)


@pytest.fixture(scope="module")
def program() -> umc.Program:
    """The program of these tests, which gives back what it gets."""
    return umc.Program(TEXT, engine=umc.Process(PROGRAM))


def unit_text(powers: dict[str, int]) -> str:
    """A unit in the language."""
    return " ".join(f"{name}^{power}" for name, power in powers.items()) or "1"


def number(value: Any) -> tuple[Fraction, dict[str, int]]:
    """A number that came out: its magnitude, and the powers of its unit."""
    return value.magnitude, value.powers


@given(exact, units)
@example(Fraction(-1, 3), {"m": -1})
@example(Decimal("-0.0"), {})
def test_a_number_comes_out_as_it_went_in(program: umc.Program, value: Any, powers: dict[str, int]) -> None:
    found = program.number((value, unit_text(powers)))
    assert number(found) == (Fraction(value), powers)
    assert program.number(found) == found


@given(st.lists(st.lists(exact, max_size=4), max_size=4), units)
def test_lists_come_out_as_they_went_in(program: umc.Program, values: list[list[Any]], powers: dict[str, int]) -> None:
    found = program.lists(values, unit=unit_text(powers))
    assert [[it.magnitude for it in part] for part in found] == [[Fraction(it) for it in part] for part in values]
    assert all(it.powers == powers for part in found for it in part)


@given(st.lists(exact, max_size=4), exact, st.booleans(), units, units)
def test_records_come_out_as_they_went_in(program: umc.Program, left: list[Any], right: Any, is_open: bool,
                                          one: dict[str, int], other: dict[str, int]) -> None:
    given_record = {"left": [(it, unit_text(one)) for it in left], "right": (right, unit_text(other)), "open": is_open}
    found = program.pair(given_record)
    assert [number(it) for it in found["left"]] == [(Fraction(it), one) for it in left]
    assert number(found["right"]) == (Fraction(right), other)
    assert found["open"] is is_open and list(found) == ["left", "right", "open"]


@given(st.lists(st.tuples(exact, units), min_size=1, max_size=20))
def test_rows_are_the_calls_by_themselves(program: umc.Program, rows: list[tuple[Any, dict[str, int]]]) -> None:
    found = program.number.each([(value, unit_text(powers)) for value, powers in rows])
    assert [number(it) for it in found] == [(Fraction(value), powers) for value, powers in rows]


@given(st.lists(signs, max_size=2))
@example(["1 // one"])
@example(["1\n// two\n<m>"])
@example(["1\t<m>", ""])
def test_a_line_of_calls_means_the_words(program: umc.Program, words: list[str]) -> None:
    """Tabs, ends of lines and comments in an argument change nothing, and no place either."""
    engine = program.engine
    alone = engine.answer(["run", "5", "number", *words], TEXT.encode())
    line = engine.answer(["calls", "5"], source_of_calls(TEXT.encode(), [line_of_calls(["number", *words])]))
    assert (line.status, line.output) == (0, alone.output)


@given(st.one_of(signs, exact.map(str)))
def test_a_cell_is_the_number_that_python_reads(text: str) -> None:
    """What `um table` takes for a number is what Python's Fraction reads, and the text says the same number."""
    try:
        told = number_text(text)
    except CellError:
        with pytest.raises((ValueError, ZeroDivisionError)):
            if text != text.strip() or "_" in text:
                raise ValueError
            Fraction(text)
        return
    if told.partition("r")[2].strip("0") or "r" not in told:
        assert Fraction(told.replace("r", "/")) == Fraction(text.replace("r", "/"))
