"""`show`: the answer of `run` with numbers in decimals and in units that one chooses."""
from __future__ import annotations

import re
from dataclasses import dataclass
from fractions import Fraction

import earley
from front import Report
from grammar import UNITS, Node, rules_of
from lexer import LexFault, in_range, tokens_of
from notes import NameFault, Program, Units
from show import Printer, plain_number, unit_text
from units import Unit, is_closed

PARTS = '''
part : unit => plain!0
part : Name "=" Number "<#" unit ">" => scaled!0
'''
GRAMMAR = earley.Grammar(rules_of(UNITS + PARTS))


@dataclass
class Chosen:
    """A unit in which numbers are shown: its text, its raw tree, and by what a number is divided."""

    text: str
    tree: Node
    divisor: Fraction
    unit: Unit | None = None


def chosen_part(part: str) -> Chosen:
    """A unit text, or `NAME=VALUE` with a positive value and a unit text."""
    if part != part.strip(" ") or "//" in part or re.search("[\t\r\n\ufeff]", part):
        raise Report(1, "usage")
    try:
        node = earley.read(GRAMMAR, "part", tokens_of(part))
    except (LexFault, earley.SyntaxFault):
        raise Report(1, "usage") from None
    if node.kind == "plain":
        return Chosen(re.sub(" +", " ", part), node.parts[0], Fraction(1))
    name, number, unit = node.parts
    if number.value == 0:
        raise Report(1, "usage")
    return Chosen(name.text, unit, number.value)


def chosen_units(word: str) -> list[Chosen]:
    """The parts of a word, or none for `-`."""
    return [] if word == "-" else [chosen_part(part) for part in word.split(",")]


def digits_of(word: str) -> int:
    """The number of decimals: one or two digits of value 0 to 18."""
    if not (word.isascii() and word.isdigit() and len(word) <= 2 and int(word) <= 18):
        raise Report(1, "usage")
    return int(word)


def look_up(program: Program, chosen: list[Chosen]) -> None:
    """The units of the parts, one after another: the names of a part, and then its range."""
    for part in chosen:
        try:
            part.unit = Units(program, []).read(part.tree)
        except NameFault as fault:
            raise Report(11, "power range of the units" if fault.kind == "range" else "no such unit") from None


def decimal_text(value: Fraction, digits: int) -> str:
    """The number rounded to so many decimals, of two nearest the even one; `~` in front if it isn't exact."""
    scaled = value * 10**digits
    rounded = round(scaled)
    text = str(abs(rounded)).rjust(digits + 1, "0")
    text = text[:len(text) - digits] + ("." + text[len(text) - digits:] if digits else "")
    return ("~" if rounded != scaled else "") + ("-" if rounded < 0 else "") + text


def shower(chosen: list[Chosen], digits: int) -> Printer:
    """Prints a number at its unit."""
    def number(value: Fraction, unit: Unit, program: Program) -> str:
        """A number as the first part with its unit shows it."""
        if not is_closed(unit):
            return plain_number(value, unit, program)
        divisor, text = Fraction(1), unit_text(unit, program.bases) if unit else ""
        for part in chosen:
            if part.unit == unit:
                if in_range(value / part.divisor):
                    divisor, text = part.divisor, part.text
                break
        return decimal_text(value / divisor, digits) + (f"<{text}>" if text else "")
    return number
