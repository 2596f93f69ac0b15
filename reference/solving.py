"""Solving equations of units one by one, and what a function is answered.

A. Kennedy, Programming Languages and Dimensions, 1996: unification in the free abelian group. In each turn the variable
with the least absolute power in the equation (of several the one with the greatest number) is changed, so that each
other power falls below its own.
"""
from __future__ import annotations

from collections.abc import Callable
from dataclasses import dataclass

from equations import Equations, Row, Scheme, equations_of
from notes import Function, Program
from units import BASE, VAR, Unit, atom, by_list, fits, mul, power_of, put, put_unit, type_fits, units_in, variables

MOST_SLOTS = 2000


class NoSolution(Exception):
    """No units satisfy the equation together with those before it."""


class PowerRange(Exception):
    """A power passes the range."""


def pivot(row: Unit) -> tuple[int, int] | None:
    """The variable with the least absolute power, of several the one with the greatest number."""
    found = [(abs(power), -number) for (kind, number), power in row.items() if kind == VAR]
    return (VAR, -min(found)[1]) if found else None


def quotients(row: Unit, turned: tuple) -> Unit:
    """What the turned variable is multiplied by: each other atom to its power over the variable's, down and negated."""
    return {key: -(power // row[turned]) for key, power in row.items() if key != turned and power // row[turned]}


def put_at(units: list[Unit], turned: tuple, by: Unit, bounded: bool) -> list[Unit]:
    """The units with another unit in the place of one variable."""
    changed = [put_unit(unit, lambda key: by if key == turned else None) if turned in unit else unit for unit in units]
    if bounded and not all(fits(unit) for unit, before in zip(changed, units) if unit is not before):
        raise PowerRange
    return changed


def eliminate(units: list[Unit], row: Unit, bounded: bool = True,
              turned: Callable[[int, Unit, bool], None] | None = None) -> list[Unit]:
    """The units of the slots after a row: those that solve it too, and are most general. `turned` hears each turn."""
    row = put_unit(row, by_list(units))
    if bounded and not fits(row):
        raise PowerRange
    while (key := pivot(row)) is not None:
        inverted = row[key] < 0
        row = power_of(row, -1) if inverted else row
        by = quotients(row, key)
        if turned:
            turned(key[1], by, inverted)
        new = mul({key: 1}, by)
        row = put_unit(row, lambda k: new if k == key else None)
        units = put_at(units, key, new, bounded)
        if bounded and not fits(row):
            raise PowerRange
        if variables(row) == [key[1]]:
            if any(kind == BASE for kind, _ in row):
                raise NoSolution
            return put_at(units, key, {}, False)
    if row:
        raise NoSolution
    return units


def own_variables(slots: int) -> list[Unit]:
    """Each slot as itself."""
    return [atom(VAR, number) for number in range(slots)]


def rigid_units(bases: int, parameters: int, slots: int) -> list[Unit]:
    """Each slot as itself, but each unit parameter as a base unit after the declared ones."""
    return [atom(BASE, bases + number) for number in range(parameters)] + own_variables(slots)[parameters:]


@dataclass
class Refusal(Exception):
    """Why a function has no scheme: `slots`, `range`, `units` or `general`, and where; `row` is the row's number."""

    kind: str
    at: int
    row: int = -1

    def __post_init__(self) -> None:
        super().__init__(self.kind, self.at, self.row)


def solve(rows: list[Row], units: list[Unit]) -> list[Unit]:
    """The units of the slots after all rows, or the Refusal of the first that has no solution or passes the range."""
    for number, row in enumerate(rows):
        try:
            units = eliminate(units, row.unit)
        except NoSolution:
            raise Refusal("units", row.at, number) from None
        except PowerRange:
            raise Refusal("range", row.at, number) from None
    return units


def solution_of(program: Program, function: Function, equations: Equations) -> list[Unit]:
    """The most general units of the slots, the unit parameters as units of their own; or a Refusal."""
    if equations.slots > MOST_SLOTS:
        raise Refusal("slots", function.at)
    past = equations.first_past()
    if past is not None:
        raise Refusal("range", past)
    rows = equations.rows()
    try:
        return solve(rows, rigid_units(len(program.bases), function.units, equations.slots))
    except Refusal as refusal:
        if refusal.kind == "units":
            solve(rows[:refusal.row + 1], own_variables(equations.slots))
            raise Refusal("general", refusal.at, refusal.row) from None
        raise


def generalised(program: Program, function: Function, slots: int, types: list[tuple]) -> list[tuple]:
    """The types with a variable after the slots in the place of each unit parameter."""
    bases = len(program.bases)
    place = lambda key: atom(VAR, slots + key[1] - bases) if key[0] == BASE and key[1] >= bases else None
    return [put(kind, place) for kind in types]


def numbering(types: list[tuple]) -> dict[int, int]:
    """New numbers of the variables, in the order of their first occurrence; within one unit by their old numbers."""
    order = dict.fromkeys(number for kind in types for unit in units_in(kind) for number in variables(unit))
    return {old: new for new, old in enumerate(order)}


def renumbered(types: list[tuple], numbers: dict[int, int]) -> list[tuple]:
    """The types with their variables renamed."""
    return [put(kind, lambda key: atom(VAR, numbers[key[1]]) if key[0] == VAR else None) for kind in types]


def scheme_by(program: Program, function: Function, equations: Equations, units: list[Unit]) -> Scheme:
    """The scheme that the units of the slots give."""
    types = [put(kind, by_list(units)) for kind in equations.params + [equations.result]]
    if not all(type_fits(kind) for kind in types):
        raise Refusal("range", function.at)
    types = generalised(program, function, equations.slots, types)
    numbers = numbering(types)
    types = renumbered(types, numbers)
    return Scheme(types[:-1], types[-1], len(numbers))


def scheme_of(program: Program, schemes: list[Scheme], function: Function) -> Scheme:
    """The scheme of a function, given those of the functions before it; or a Refusal."""
    equations = equations_of(program, schemes, function)
    return scheme_by(program, function, equations, solution_of(program, function, equations))


def infer(program: Program) -> tuple[list[Scheme], Refusal | None]:
    """The schemes of the functions up to the first that has none, and why it has none."""
    schemes: list[Scheme] = []
    for function in program.functions:
        try:
            schemes.append(scheme_of(program, schemes, function))
        except Refusal as refusal:
            return schemes, refusal
    return schemes, None
