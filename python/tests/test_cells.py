"""Cells of a table: numbers are read and written exactly."""
import random
from fractions import Fraction
from typing import Any

import pytest

import conftest  # noqa: F401  (it makes the package known)
from umc import cells
from umc.errors import DataError

NUM, BOOL = {"type": "num", "unit": {}}, {"type": "bool"}


@pytest.mark.parametrize("cell, text", [
    ("2", "2"), ("-2.50", "-2.50"), ("+2", "2"), (".5", "1r2"), ("5.", "5"), ("1e3", "1000"), ("2.5E-1", "1r4"),
    ("1/3", "1r3"), ("-7r2", "-7r2"), ("0.1", "0.1"), ("12345678901234567890.5", "12345678901234567890.5")])
def test_a_cell_is_read_exactly(cell: str, text: str) -> None:
    assert cells.number_text(cell) == text


@pytest.mark.parametrize("cell", ["", "x", "1,5", "1.2.3", "0x10", "1e", "--1", "inf", "nan", "1 2", "1e999", "٣",
                                  "1_0"])
def test_a_cell_that_is_no_number_is_refused(cell: str) -> None:
    with pytest.raises(cells.CellError):
        cells.number_text(cell)


@pytest.mark.parametrize("header, parts", [
    ("mass [kg]", ("mass", "kg")), (" mass[kg m^2] ", ("mass", "kg m^2")), ("mass", ("mass", None)),
    ("[m]", ("", "m")), ("a [b] c", ("a [b] c", None)), ("x []", ("x", ""))])
def test_a_header_has_a_name_and_a_unit(header: str, parts: tuple[Any, ...]) -> None:
    assert cells.header_parts(header) == parts


@pytest.mark.parametrize("unit", ["", " ", "1", "-"])
def test_a_unit_may_be_none(unit: str) -> None:
    (column,) = cells.columns([f"x [{unit}]"], [NUM], None, None, "f")
    assert column.argument(" 2.5 ") == "2.5"


def test_a_cell_may_have_a_unit_of_its_own() -> None:
    (column,) = cells.columns(["x"], [NUM], None, None, "f")
    assert column.argument("2<kg>") == "2<kg>"
    (column,) = cells.columns(["x [m]"], [NUM], None, None, "f")
    with pytest.raises(cells.CellError, match="'2<kg>' isn't a number") as caught:
        column.argument("2<kg>")
    assert caught.value.column == "x [m]"


@pytest.mark.parametrize("cell, text", [("true", "true"), ("False", "false"), (" TRUE ", "true")])
def test_a_truth_value(cell: str, text: str) -> None:
    assert cells.columns(["x"], [BOOL], None, None, "f")[0].argument(cell) == text


@pytest.mark.parametrize("cell", ["", "1", "yes", "truer"])
def test_what_is_no_truth_value(cell: str) -> None:
    with pytest.raises(cells.CellError):
        cells.columns(["x"], [BOOL], None, None, "f")[0].argument(cell)


def test_only_a_number_has_a_unit_in_its_header() -> None:
    with pytest.raises(DataError, match="has a unit, and its parameter isn't a number"):
        cells.columns(["x [m]"], [BOOL], None, None, "f")


@pytest.mark.parametrize("number, digits, text", [
    ("1/2", None, "0.5"), ("-1/8", None, "-0.125"), ("1/3", None, "1/3"), ("7", None, "7"), ("-1/20", None, "-0.05"),
    ("1/1024", None, "0.0009765625"), ("-7/6", None, "-7/6"), ("1/3", 4, "0.3333"), ("2/3", 0, "1"), ("1/2", 0, "0"),
    ("3/2", 0, "2"), ("-1/2", 0, "0"), ("5/1000", 2, "0.00"), ("15/1000", 2, "0.02"), ("-15/1000", 2, "-0.02"),
    ("12", 1, "12.0"), ("-1/1000", 2, "0.00")])
def test_a_number_is_written_exactly_or_rounded(number: str, digits: Any, text: str) -> None:
    assert cells.decimal_text(Fraction(number), digits) == text


@pytest.mark.parametrize("line, found", [
    ("3<m>", [("f", "m", "3")]), ("7r2", [("f", "", "3.5")]), ("0<_>", [("f", "_", "0")]),
    ("true", [("f", "", "true")]), ("[]", [("f", "", "[]")]), ("[1r3<m>; 2<m>]", [("f", "", "[1r3<m>; 2<m>]")]),
    ("{ a = 1r3<m>; b = { c = true; d = [1] } }",
     [("f.a", "m", "1/3"), ("f.b.c", "", "true"), ("f.b.d", "", "[1]")])])
def test_a_value_fills_cells(line: str, found: list[tuple[Any, ...]]) -> None:
    assert cells.cells_of(line, "f", None) == found


# ---- made at random, the same each time

def random_cell(source: random.Random) -> str:
    digits = "".join(source.choice("0123456789") for _ in range(source.randint(1, 12)))
    more = "".join(source.choice("0123456789") for _ in range(source.randint(0, 8)))
    sign = source.choice(["", "-", "+"])
    form = source.randrange(4)
    if form == 0:
        return f"{sign.replace('+', '')}{digits}/{int(more or 0) + 1}"
    point = "." + more if form > 1 else ""
    return f"{sign}{digits}{point}" + (f"{source.choice('eE')}{source.randint(-12, 12)}" if form == 3 else "")


def test_numbers_are_read_and_written_without_loss() -> None:
    source = random.Random(7)
    for _ in range(3000):
        cell = random_cell(source)
        number = Fraction(cell)
        assert Fraction(cells.number_text(cell).replace("r", "/")) == number
        assert Fraction(cells.decimal_text(number, None)) == number
        digits = source.randint(0, 6)
        rounded = Fraction(cells.decimal_text(number, digits))
        assert abs(rounded - number) * 2 * 10 ** digits <= 1
        assert rounded == round(number, digits)


def random_value(source: random.Random, height: int) -> str:
    form = source.randrange(4 if height else 2)
    if form == 0:
        return source.choice(["true", "false"])
    if form == 1:
        number = f"{source.choice(['', '-'])}{source.randint(0, 99)}" + source.choice(["", "r7"])
        return number + source.choice(["", "<m>", "<kg m^2/s^2>", "</s>", "<_>"])
    parts = [random_value(source, height - 1) for _ in range(source.randint(0 if form == 2 else 1, 3))]
    if form == 2:
        return f"[{'; '.join(parts)}]"
    return "{ " + "; ".join(f"f{number} = {part}" for number, part in enumerate(parts)) + " }"


def test_a_value_is_its_text_again() -> None:
    source = random.Random(11)
    for _ in range(2000):
        text = random_value(source, 4)
        found = cells.cells_of(text, "f", None)
        if text.startswith("["):
            assert found == [("f", "", text)]
            assert cells.items_of(text) == [cells.cells_of(f"[{item}]", "f", None)[0][2][1:-1]
                                            for item in cells.items_of(text)]
            assert f"[{'; '.join(cells.items_of(text))}]" == text
        else:
            assert found
