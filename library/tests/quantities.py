"""Quantities with exact values and units, counted by themselves: no rule of this file is the program's.

A unit is a table from base units to powers; the unit None is one that is left open, which zero alone may have.
The table of the SI's derived units is that of the SI Brochure, 9th edition, table 4.
"""
import re
from dataclasses import dataclass
from fractions import Fraction
from typing import Any

Unit = dict[str, int] | None

DERIVED = {
    "rad": {}, "sr": {}, "Hz": {"s": -1}, "N": {"m": 1, "kg": 1, "s": -2}, "Pa": {"m": -1, "kg": 1, "s": -2},
    "J": {"m": 2, "kg": 1, "s": -2}, "W": {"m": 2, "kg": 1, "s": -3}, "C": {"s": 1, "A": 1},
    "V": {"m": 2, "kg": 1, "s": -3, "A": -1}, "F": {"m": -2, "kg": -1, "s": 4, "A": 2},
    "ohm": {"m": 2, "kg": 1, "s": -3, "A": -2}, "S": {"m": -2, "kg": -1, "s": 3, "A": 2},
    "Wb": {"m": 2, "kg": 1, "s": -2, "A": -1}, "T": {"kg": 1, "s": -2, "A": -1},
    "H": {"m": 2, "kg": 1, "s": -2, "A": -2}, "degC": {"K": 1}, "lm": {"cd": 1}, "lx": {"m": -2, "cd": 1},
    "Bq": {"s": -1}, "Gy": {"m": 2, "s": -2}, "Sv": {"m": 2, "s": -2}, "kat": {"s": -1, "mol": 1},
}


class UnitsDiffer(Exception):
    """A sum or a comparison of quantities with different units."""


def powers(factors: dict[str, int], by: int) -> dict[str, int]:
    """A unit to a power."""
    return {name: power * by for name, power in factors.items() if power * by}


def together(left: Unit, right: Unit, sign: int) -> Unit:
    """The product (sign 1) or quotient (sign -1) of two units."""
    if left is None or right is None:
        return None
    found = dict(left)
    for name, power in right.items():
        found[name] = found.get(name, 0) + sign * power
    return {name: power for name, power in found.items() if power}


def same(left: Unit, right: Unit) -> Unit:
    """The unit of both, of which one may be left open."""
    if left is None or right is None or left == right:
        return right if left is None else left
    raise UnitsDiffer(left, right)


@dataclass(frozen=True)
class Quantity:
    """A value and its unit."""

    value: Fraction
    unit: Unit

    def __add__(self, other: Any) -> "Quantity":
        other = quantity(other)
        return Quantity(self.value + other.value, same(self.unit, other.unit))

    def __neg__(self) -> "Quantity":
        return Quantity(-self.value, self.unit)

    def __sub__(self, other: Any) -> "Quantity":
        return self + -quantity(other)

    def __mul__(self, other: Any) -> "Quantity":
        other = quantity(other)
        return Quantity(self.value * other.value, together(self.unit, other.unit, 1))

    def __truediv__(self, other: Any) -> "Quantity":
        other = quantity(other)
        return Quantity(self.value / other.value, together(self.unit, other.unit, -1))

    def __pow__(self, power: int) -> "Quantity":
        return Quantity(self.value**power, None if self.unit is None else powers(self.unit, power))

    def __lt__(self, other: Any) -> bool:
        other = quantity(other)
        same(self.unit, other.unit)
        return self.value < other.value

    def __abs__(self) -> "Quantity":
        return Quantity(abs(self.value), self.unit)

    __radd__, __rmul__ = __add__, __mul__

    def __rsub__(self, other: Any) -> "Quantity":
        return quantity(other) - self

    def __rtruediv__(self, other: Any) -> "Quantity":
        return quantity(other) / self


def quantity(value: Any) -> Quantity:
    """A quantity as it is, and a number as one without a unit."""
    return value if isinstance(value, Quantity) else Quantity(Fraction(value), {})


def read_unit(text: str) -> Unit:
    """A unit of names, powers, spaces and at most one `/`, such as `kg m/s^2`."""
    if text == "_":
        return None
    found: Unit = {}
    for sign, side in zip((1, -1), text.split("/")):
        for name, power in re.findall(r"([A-Za-z_]+)(?:\^(\d+))?", side):
            found = together(found, powers(DERIVED.get(name, {name: 1}), int(power or 1)), sign)
    return found


def read_number(text: str) -> Fraction:
    """A number as the language writes it: 12, 1.5, 7r2, each with a sign or none."""
    return Fraction(text.replace("r", "/"))


def read(text: str) -> Any:
    """A value: a truth value, a number with its unit, a list, or a record as a table."""
    value, rest = read_value(text.strip())
    if rest.strip():
        raise ValueError(rest)
    return value


def read_value(text: str) -> tuple[Any, str]:
    """A value at the start of a text, and the rest."""
    if text.startswith("["):
        return read_items(text[1:].lstrip())
    if text.startswith("{"):
        return read_fields(text[1:].lstrip())
    for word in ("true", "false"):
        if text.startswith(word):
            return word == "true", text[len(word):]
    found = re.match(r"(-?[0-9.r]+)(?:<([^>]*)>)?", text)
    if not found:
        raise ValueError(text)
    unit = read_unit(found[2]) if found[2] else {}
    return Quantity(read_number(found[1]), unit), text[found.end():]


def read_items(text: str) -> tuple[list[Any], str]:
    """What stands after the `[` of a list."""
    items: list[Any] = []
    while not text.startswith("]"):
        item, text = read_value(text)
        items.append(item)
        text = text.lstrip().removeprefix(";").lstrip()
    for item in items[1:]:
        if isinstance(item, Quantity):
            same(items[0].unit, item.unit)
    return items, text[1:]


def read_fields(text: str) -> tuple[dict[str, Any], str]:
    """What stands after the `{` of a record."""
    fields: dict[str, Any] = {}
    while not text.startswith("}"):
        name, _, text = text.partition("=")
        fields[name.strip()], text = read_value(text.lstrip())
        text = text.lstrip().removeprefix(";").lstrip()
    return fields, text[1:]


def unit_text(unit: dict[str, int]) -> str:
    """A unit as the program prints it: names in the order of their bytes, negative powers after one `/`."""
    def side(sign: int) -> str:
        found = [(name, sign * power) for name, power in sorted(unit.items()) if sign * power > 0]
        return " ".join(name if power == 1 else f"{name}^{power}" for name, power in found)
    return side(1) + ("/" + side(-1) if side(-1) else "")


def printed(value: Any) -> str:
    """A value as the program prints it."""
    if isinstance(value, bool):
        return "true" if value else "false"
    if isinstance(value, list):
        return "[" + "; ".join(printed(item) for item in value) + "]"
    if isinstance(value, dict):
        return "{ " + "; ".join(f"{name} = {printed(field)}" for name, field in value.items()) + " }"
    value = quantity(value)
    number = str(value.value).replace("/", "r")
    if value.unit is None:
        return f"{number}<_>"
    return f"{number}<{unit_text(value.unit)}>" if value.unit else number


def largest_part(value: Any) -> int:
    """The largest numerator or denominator in a value."""
    if isinstance(value, (list, dict)):
        parts = value.values() if isinstance(value, dict) else value
        return max((largest_part(part) for part in parts), default=0)
    number = quantity(value).value
    return max(abs(number.numerator), number.denominator)
