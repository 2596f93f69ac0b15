"""Units, types and notes.

A unit is a map from atoms to powers other than 0. An atom is `(BASE, k)` or `(VAR, k)`. A type is `("bool",)`,
`("num", unit)`, `("list", type)` or `("rec", number, units)`. A note is a type whose units may be HOLE. A shape is a
note whose units were left out. Powers have no bound here; whoever needs one in range asks for it.
"""
from __future__ import annotations

from collections.abc import Callable

from lexer import HIGHEST_POWER

BASE, VAR = 0, 1
HOLE = None
Unit = dict
BOOL = ("bool",)


def atom(kind: int, number: int) -> Unit:
    """The unit that is one base unit or one variable."""
    return {(kind, number): 1}


def mul(left: Unit, right: Unit, times: int = 1) -> Unit:
    """The product of a unit and another to a power."""
    product = dict(left)
    for key, power in right.items():
        product[key] = product.get(key, 0) + times * power
    return {key: power for key, power in product.items() if power}


def over(left: Unit, right: Unit) -> Unit:
    """The quotient of two units."""
    return mul(left, right, -1)


def power_of(unit: Unit, power: int) -> Unit:
    """A unit to a power."""
    return mul({}, unit, power)


def put_unit(unit: Unit, units: Callable[[tuple], Unit | None]) -> Unit:
    """The unit with other units in the place of its atoms; an atom for which there is none stays."""
    product: Unit = {}
    for key, power in unit.items():
        other = units(key)
        product = mul(product, {key: 1} if other is None else other, power)
    return product


def fits(unit: Unit) -> bool:
    """Each power is in range."""
    return all(abs(power) <= HIGHEST_POWER for power in unit.values())


def is_closed(unit: Unit) -> bool:
    """The unit holds no variable."""
    return all(kind == BASE for kind, _ in unit)


def variables(unit: Unit) -> list[int]:
    """The variables of a unit by their numbers."""
    return sorted(number for kind, number in unit if kind == VAR)


def by_list(units: list[Unit]) -> Callable[[tuple], Unit | None]:
    """Puts the k-th unit in the place of variable k."""
    return lambda key: units[key[1]] if key[0] == VAR and key[1] < len(units) else None


def units_in(kind: tuple) -> list[Unit]:
    """The units of a type or of a note, from left to right."""
    if kind[0] == "num":
        return [kind[1]]
    if kind[0] == "list":
        return units_in(kind[1])
    return list(kind[2]) if kind[0] == "rec" else []


def map_units(kind: tuple, change: Callable) -> tuple:
    """The type with each unit changed, from left to right."""
    if kind[0] == "num":
        return ("num", change(kind[1]))
    if kind[0] == "list":
        return ("list", map_units(kind[1], change))
    return ("rec", kind[1], [change(unit) for unit in kind[2]]) if kind[0] == "rec" else kind


def put(kind: tuple, units: Callable[[tuple], Unit | None]) -> tuple:
    """The type with units in the place of its atoms."""
    return map_units(kind, lambda unit: put_unit(unit, units))


def type_fits(kind: tuple) -> bool:
    """Each power in the type is in range."""
    return all(fits(unit) for unit in units_in(kind))


def shape_of(kind: tuple) -> tuple:
    """The type or the note without its units."""
    if kind[0] == "list":
        return ("list", shape_of(kind[1]))
    return ("rec", kind[1]) if kind[0] == "rec" else (kind[0],)
