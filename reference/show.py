"""Printed numbers, units, types, schemes and values."""
from __future__ import annotations

from collections.abc import Callable
from fractions import Fraction
from typing import Any

from equations import Scheme
from notes import Program
from units import BASE, Unit, by_list, is_closed, put

Naming = Callable[[tuple], tuple[tuple, str]]  # of an atom its order and its text
Printer = Callable[[Fraction, Unit, Program], str]


def number_text(value: Fraction) -> str:
    """A fraction in lowest terms."""
    return str(value.numerator) if value.denominator == 1 else f"{value.numerator}r{value.denominator}"


def letter(number: int) -> str:
    """The text of a variable: 'a to 'z, and then 'a1 and so on."""
    return "'" + "abcdefghijklmnopqrstuvwxyz"[number % 26] + (str(number // 26) if number >= 26 else "")


def naming(bases: list[str]) -> Naming:
    """The order and the text of an atom: base units in the byte order of their names, and then variables."""
    def named(key: tuple) -> tuple[tuple, str]:
        """The order and the text of one atom."""
        kind, number = key
        return ((BASE, bases[number].encode()), bases[number]) if kind == BASE else ((kind, number), letter(number))
    return named


def unit_text(unit: Unit, bases: list[str], named: Naming | None = None) -> str:
    """The atoms with their powers, the negative ones after one `/`."""
    named = named or naming(bases)
    parts = sorted((named(key) + (power,) for key, power in unit.items()), key=lambda part: part[0])
    texts = [(text + (f"^{abs(power)}" if abs(power) != 1 else ""), power) for _, text, power in parts]
    above = " ".join(text for text, power in texts if power > 0)
    below = " ".join(text for text, power in texts if power < 0)
    return (above + ("/" + below if below else "")) or "1"


def type_text(kind: tuple, program: Program, text: Callable[[Unit], str] | None = None) -> str:
    """A type. `text` prints a unit."""
    text = text or (lambda unit: unit_text(unit, program.bases))
    if kind[0] == "list":
        return type_text(kind[1], program, text) + " list"
    if kind[0] == "rec":
        units = ", ".join(text(unit) for unit in (kind[2] if len(kind) > 2 else []))
        return program.records[kind[1]].name + (f"<{units}>" if units else "")
    return f"num<{text(kind[1])}>" if kind[0] == "num" and len(kind) > 1 and kind[1] else kind[0]


def scheme_text(name: str, scheme: Scheme, program: Program) -> str:
    """The line of a function."""
    return f"{name} : " + " -> ".join(type_text(kind, program) for kind in scheme.types())


def field_types(program: Program, kind: tuple) -> list[tuple[str, tuple]]:
    """The fields of a record type with their types at its units. An image's record has no units."""
    return [(name, put(declared, by_list(kind[2]))) for name, declared in program.records[kind[1]].fields]


def suffix_text(unit: Unit, program: Program) -> str:
    """What stands after a number at a unit."""
    if not unit:
        return ""
    return f"<{unit_text(unit, program.bases)}>" if is_closed(unit) else "<_>"


def plain_number(value: Fraction, unit: Unit, program: Program) -> str:
    """A number with its unit."""
    return number_text(value) + suffix_text(unit, program)


def value_text(value: Any, kind: tuple, program: Program, number: Printer = plain_number) -> str:
    """A value at its type. A value is a truth value, a fraction, a list as (head, tail) or (), or a list of fields."""
    if kind[0] == "bool":
        return "true" if value else "false"
    if kind[0] == "num":
        return number(value, kind[1], program)
    if kind[0] == "list":
        items = []
        while value:
            items.append(value_text(value[0], kind[1], program, number))
            value = value[1]
        return "[" + "; ".join(items) + "]"
    fields = zip(field_types(program, kind), value)
    return "{ " + "; ".join(f"{name} = {value_text(part, of, program, number)}" for (name, of), part in fields) + " }"
