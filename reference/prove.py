"""Certificates: the section of that name in docs/LANGUAGE.md.

Row after row a way back is kept beside the solution: what each variable goes back to over the slots, and for each slot
the product of rows (a unit over the rows' numbers) by which its unit goes back to it, up to a power, the divisor.
"""
from __future__ import annotations

from dataclasses import dataclass

from equations import Equations, equations_of
from front import Report, Source
from lexer import HIGHEST_POWER, WIDEST
from notes import Function, Program
from show import unit_text
from solving import NoSolution, eliminate, generalised, numbering, renumbered, rigid_units
from units import BASE, VAR, Unit, atom, by_list, mul, over, power_of, put, put_unit, variables


class Passed(Exception):
    """A number passes what a certificate can hold."""


def held(unit: Unit, most: int) -> Unit:
    """The unit, whose powers a certificate can hold."""
    for _, power in sorted(unit.items()):
        if abs(power) > most:
            raise Passed(power)
    return unit


@dataclass
class Refuted:
    """A product of rows whose slots have powers that are multiples of the modulus, and some base unit hasn't."""

    modulus: int
    parts: Unit


class Maker:
    """Keeps the way back while rows are solved."""

    def __init__(self, rows: list[Unit], bases: int, parameters: int, slots: int) -> None:
        self.rows, self.bases, self.parameters = rows, bases, parameters
        self.solution = rigid_units(bases, parameters, slots)
        self.back: dict[tuple, Unit] = {(BASE, bases + number): atom(VAR, number) for number in range(parameters)}
        self.divisor = 1
        self.parts: list[Unit] = [{} for _ in range(slots)]

    def way_back(self, unit: Unit) -> Unit:
        """What a unit goes back to."""
        return put_unit(unit, self.back.get)

    def row(self, number: int) -> Refuted | None:
        """Solves a row. The signs of its turns are those of the rows' powers."""
        row = self.rows[number]
        total = put_unit({key: power for key, power in row.items() if key[0] == VAR}, by_list(self.parts))
        self.total = mul(total, atom(VAR, number), self.divisor)
        self.left = put_unit(row, by_list(self.solution))
        self.turns: list[tuple[int, Unit]] = []
        try:
            eliminate(self.solution, row, False, self.turned)
        except NoSolution:
            return self.refuted()
        if self.turns and self.left:
            self.end(*next(iter(self.left.items())))
        return None

    def turned(self, variable: int, by: Unit, inverted: bool) -> None:
        """Follows one turn: the variable becomes itself times `by`."""
        key = (VAR, variable)
        self.turns.append((variable, by))
        if inverted:
            self.total, self.left = power_of(self.total, -1), power_of(self.left, -1)
        new = mul({key: 1}, by)
        self.left = held(put_unit(self.left, lambda k: new if k == key else None), HIGHEST_POWER)
        self.solution = [put_unit(unit, lambda k: new if k == key else None) if key in unit else unit
                         for unit in self.solution]
        for unit in self.solution:
            held(unit, HIGHEST_POWER)
        self.back[key] = held(over(self.back.get(key, {key: 1}), self.way_back(by)), HIGHEST_POWER)

    def end(self, key: tuple, power: int) -> None:
        """The turns left a variable to a power, and it becomes 1."""
        held(self.total, WIDEST)
        parts = []
        for part, unit in zip(self.parts, self.solution):
            parts.append(held(mul(power_of(part, power), self.total, -unit.get(key, 0)), WIDEST))
        self.parts = parts
        self.divisor *= power
        held({key: self.divisor}, WIDEST)
        self.solution = [put_unit(unit, lambda k: {} if k == key else None) for unit in self.solution]

    def refuted(self) -> Refuted:
        """The turns left what nothing makes 1."""
        found = variables(self.left)
        power = self.left[VAR, found[0]] if found else abs(self.left[min(self.left)]) + 1
        modulus = self.divisor * power
        held({(VAR, 0): modulus}, WIDEST)
        return Refuted(modulus, held(self.total, WIDEST))


def parts_text(parts: Unit) -> str:
    """Rows by their numbers, with their powers."""
    return " ".join(f"{number}*{power}" for (_, number), power in sorted(parts.items()))


class Certificates:
    """Makes the certificates of a program's functions."""

    def __init__(self, program: Program) -> None:
        self.program = program

    def solved(self, equations: Equations, parameters: int, count: int) -> tuple[Maker, Refuted | None]:
        """What is kept after the first rows, or what refutes one."""
        rows = [row.unit for row in equations.rows()][:count]
        maker = Maker(rows, len(self.program.bases), parameters, equations.slots)
        for number in range(len(rows)):
            refuted = maker.row(number)
            if refuted:
                return maker, refuted
        return maker, None

    def scheme(self, function: Function, equations: Equations) -> list[str]:
        """The lines of a scheme's certificate."""
        maker, _ = self.solved(equations, function.units, len(equations.rows()))
        for number, unit in enumerate(maker.solution):
            held(over(maker.way_back(unit), atom(VAR, number)), WIDEST)
        slots, bases = equations.slots, self.program.bases
        general = generalised(self.program, function, slots, [("num", unit) for unit in maker.solution])
        types = [put(kind, by_list(maker.solution)) for kind in equations.params + [equations.result]]
        types = generalised(self.program, function, slots, types)
        rest = sorted({number for _, unit in general for number in variables(unit)})
        numbers = numbering(types + [("num", atom(VAR, number)) for number in rest])
        back = {new: maker.way_back(atom(VAR, old) if old < slots else atom(BASE, len(bases) + old - slots))
                for old, new in numbers.items()}
        lines = [f"{function.name} yes {len(numbers)} {maker.divisor}"]
        lines += [f"  slot {j}: {unit_text(kind[1], bases)}" for j, kind in enumerate(renumbered(general, numbers))]
        lines += [f"  back {k}: {unit_text(back[k], bases)}" for k in sorted(back)]
        lines += [f"  rows {j}: {parts_text(parts)}" for j, parts in enumerate(maker.parts) if parts]
        return lines + self.rigid(function, maker.solution)

    def rigid(self, function: Function, solution: list[Unit]) -> list[str]:
        """The units of the slots in which each unit parameter is a unit of its own, and each variable is 1."""
        if not function.units:
            return []
        names = self.program.bases + [f"${number}" for number in range(function.units)]
        closed = [put_unit(unit, lambda key: {} if key[0] == VAR else None) for unit in solution]
        return [f"  rigid {number}: {unit_text(unit, names)}" for number, unit in enumerate(closed)]

    def refusal(self, function: Function, equations: Equations, row: int, general: bool) -> list[str]:
        """The lines of a refusal. At first unit parameters are units of their own, and otherwise slots."""
        _, refuted = self.solved(equations, function.units, row + 1)
        if not general and function.units:
            _, refuted = self.solved(equations, 0, row + 1)
        kind = "not general" if general else "no"
        return [f"{function.name} {kind} {row + 1} {refuted.modulus}", f"  rows: {parts_text(refuted.parts)}"]


def prove(source: Source) -> str:
    """A certificate of each function's scheme, up to the first that has none, and of that."""
    certificates, lines = Certificates(source.program), []
    count = len(source.schemes) + (source.refusal is not None)
    for number, function in enumerate(source.program.functions[:count]):
        equations = equations_of(source.program, source.schemes[:number], function)
        try:
            if number < len(source.schemes):
                lines += certificates.scheme(function, equations)
            else:
                refusal = source.refusal
                lines += certificates.refusal(function, equations, refusal.row, refusal.kind == "general")
        except Passed as passed:
            raise Report(21, f"certificate of {function.name}: number {passed.args[0]}") from None
    return "".join(line + "\n" for line in lines)
