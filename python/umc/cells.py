"""Cells of a table: columns with their units, arguments from cells, and cells from values."""
import re
from collections.abc import Sequence
from dataclasses import dataclass
from fractions import Fraction
from typing import Any

from umc import printed
from umc.errors import DataError

HEADER = re.compile(r"\s*(?P<name>.*?)\s*(?:\[(?P<unit>[^\[\]]*)\]\s*)?", re.DOTALL)
PLAIN = re.compile(r"-?[0-9]+(?:\.[0-9]+)?")
RATIO = re.compile(r"(-?[0-9]+)[/r]([0-9]+)")
DECIMAL = re.compile(r"[+-]?(?:[0-9]+\.?[0-9]*|\.[0-9]+)(?:[eE](?P<power>[+-]?[0-9]{1,9}))?")
TRUTHS = ("true", "false")
WITHOUT_UNIT = ("", "1", "-")
MOST_DIGITS = 400
OPEN = "_"


class CellError(ValueError):
    """A cell can't be read: why, and the header of its column."""

    def __init__(self, message: str, column: str | None = None):
        super().__init__(message)
        self.column = column


def header_parts(text: str) -> tuple[str, str | None]:
    """The name and the unit of a column's header, as `mass [kg]`."""
    found = HEADER.fullmatch(text)
    assert found
    return found["name"], found["unit"]


def header(name: str, unit: str) -> str:
    """The header of a column with this unit; none stands for the unit 1."""
    return f"{name} [{unit}]" if unit else name


@dataclass(frozen=True)
class Column:
    """A column of the data that gives an argument: where it stands, its header, its unit, and what a cell is."""

    at: int
    header: str
    unit: str
    type: dict[str, Any]

    def argument(self, cell: str) -> str:
        """The text of the argument that a cell means."""
        text = cell.strip()
        try:
            if self.type["type"] == "num":
                return self._number(text)
            return truth_text(text) if self.type["type"] == "bool" else some_text(text)
        except CellError as error:
            raise CellError(str(error), self.header) from error

    def _number(self, text: str) -> str:
        if not self.unit:
            return text if text.endswith(">") else number_text(text)
        return f"{number_text(text)}<{self.unit}>"


def some_text(text: str) -> str:
    """A cell that isn't empty, as it stands."""
    if not text:
        raise CellError("the cell is empty")
    return text


def truth_text(text: str) -> str:
    """The text of the truth value that a cell means."""
    if some_text(text).lower() not in TRUTHS:
        raise CellError(f"{shortened(text)} isn't true or false")
    return text.lower()


def number_text(text: str) -> str:
    """The number text that stands for a cell's number, which is read exactly."""
    if PLAIN.fullmatch(text):
        return text
    ratio = RATIO.fullmatch(text)
    if ratio:
        return f"{ratio[1]}r{ratio[2]}"
    found = DECIMAL.fullmatch(some_text(text))
    if not found:
        raise CellError(f"{shortened(text)} isn't a number such as 2.5, 1.5e3 or 1/3")
    if abs(int(found["power"] or 0)) > MOST_DIGITS:
        raise CellError(f"{shortened(text)} has too many digits")
    exact = Fraction(text)
    return f"{exact.numerator}r{exact.denominator}" if exact.denominator != 1 else str(exact.numerator)


def shortened(text: str) -> str:
    """A cell as it is told in a message."""
    return repr(text if len(text) <= 60 else text[:57] + "...")


def columns(headers: Sequence[str], parameters: Sequence[dict[str, Any]], chosen: Sequence[str] | None,
            units: Sequence[str] | None, function: str) -> list[Column]:
    """The column of each parameter: those that are named, otherwise all in their order."""
    places = _chosen(headers, chosen) if chosen is not None else list(range(len(headers)))
    if len(places) != len(parameters):
        raise DataError(f"{function} takes {counted(len(parameters), 'argument')}, and there "
                        f"{'is' if len(places) == 1 else 'are'} {counted(len(places), 'column')}; "
                        "--columns names those to take")
    if units is not None and len(units) != len(places):
        raise DataError(f"--units has {counted(len(units), 'unit')} for {counted(len(places), 'column')}")
    every = []
    for number, (at, parameter) in enumerate(zip(places, parameters)):
        own = header_parts(headers[at])[1] or ""
        unit = units[number].strip() if units is not None and units[number].strip() else own.strip()
        unit = "" if unit in WITHOUT_UNIT else unit
        if unit and parameter["type"] != "num":
            raise DataError(f"column {headers[at]!r} has a unit, and its parameter isn't a number")
        every.append(Column(at, headers[at], unit, parameter))
    return every


def _chosen(headers: Sequence[str], chosen: Sequence[str]) -> list[int]:
    names = [header_parts(text)[0] for text in headers]
    places = []
    for name in chosen:
        found = [at for at, text in enumerate(headers) if text.strip() == name.strip()] or \
                [at for at, own in enumerate(names) if own == name.strip()]
        if len(found) != 1:
            raise DataError(f"{'no column has' if not found else 'several columns have'} the name {name!r}; "
                            f"the columns are {', '.join(map(repr, names))}")
        places.append(found[0])
    return places


def counted(count: int, noun: str) -> str:
    return f"{count} {noun}" if count == 1 else f"{count} {noun}s"


# ---- cells of the results

def decimal_text(number: Fraction, digits: int | None) -> str:
    """A number as a decimal: exact if it has finitely many digits, otherwise as `1/3`; or rounded to DIGITS."""
    if digits is not None:
        return _fixed(round(number, digits), digits)
    bottom = number.denominator
    twos, fives = (bottom & -bottom).bit_length() - 1, 0
    bound = bottom >> twos
    while bound % 5 == 0:
        bound, fives = bound // 5, fives + 1
    return _fixed(number, max(twos, fives)) if bound == 1 else f"{number.numerator}/{bottom}"


def _fixed(number: Fraction, digits: int) -> str:
    above, below = number.as_integer_ratio()
    scaled = str(abs(above) * 10 ** digits // below).rjust(digits + 1, "0")
    text = scaled if digits == 0 else f"{scaled[:-digits]}.{scaled[-digits:]}"
    return f"-{text}" if above < 0 else text


def cells_of(line: str, name: str, digits: int | None) -> list[tuple[str, str, str]]:
    """The cells that a printed value fills: each with its column's name, its unit and its text."""
    found = printed.NUMBER.fullmatch(line)
    if found:
        return [(name, _unit_of(found["unit"]), _number_cell(found["number"], digits))]
    return _cells(printed.value(line, _kept), name, digits)


def _kept(found: re.Match[str]) -> dict[str, Any]:
    return {"number": found["number"], "unit": _unit_of(found["unit"]), "text": found[0]}


def _unit_of(written: str | None) -> str:
    return written or ""


def _number_cell(number: str, digits: int | None) -> str:
    return number if "r" not in number and digits is None else decimal_text(printed.fraction(number), digits)


def _cells(tree: Any, name: str, digits: int | None) -> list[tuple[str, str, str]]:
    if isinstance(tree, dict) and "fields" in tree:
        return [cell for field, part in tree["fields"].items() for cell in _cells(part, f"{name}.{field}", digits)]
    if isinstance(tree, dict):
        return [(name, tree["unit"], _number_cell(tree["number"], digits))]
    return [(name, "", value_text(tree))]


def value_text(tree: Any) -> str:
    """A value in one cell, as the program prints it."""
    if isinstance(tree, list):
        return f"[{'; '.join(map(value_text, tree))}]"
    if isinstance(tree, dict) and "fields" in tree:
        return "{ " + "; ".join(f"{name} = {value_text(part)}" for name, part in tree["fields"].items()) + " }"
    return str(tree["text"]) if isinstance(tree, dict) else str(tree).lower()


def items_of(line: str) -> list[str]:
    """The texts of the items of a printed list."""
    return [value_text(item) for item in printed.value(line, _kept)]
