"""Other sizes of the base units: the section "Changing the size of a unit" of docs/LANGUAGE.md."""
from __future__ import annotations

from dataclasses import replace
from fractions import Fraction

from front import Report, Source
from lexer import is_name, number_end, number_value
from meaning import Stop, exact, whole_power
from notes import Expr, Program
from show import number_text
from units import HOLE, Unit


class Misfit(Exception):
    """A number doesn't fit in other sizes."""

    def __init__(self, at: int) -> None:
        super().__init__(at)
        self.at = at


def stated_number(text: str) -> Fraction | None:
    """The number that a text is, if it is above 0."""
    if not text[:1].isascii() or not text[:1].isdigit() or number_end(text, 0) != len(text):
        return None
    value = number_value(text)
    return value if value else None


def sizes_of(word: str) -> dict[str, Fraction]:
    """The sizes that a word states: NAME=NUMBER, and more of these after commas."""
    sizes: dict[str, Fraction] = {}
    for part in word.split(","):
        name, _, number = part.partition("=")
        value = stated_number(number)
        if not is_name(name) or value is None or name in sizes:
            raise Report(1, "usage")
        sizes[name] = value
    return sizes


def base_sizes(program: Program, sizes: dict[str, Fraction]) -> list[Fraction]:
    """The size of each base unit; one that isn't named keeps its size."""
    if any(name not in program.bases for name in sizes):
        raise Report(11, "no such base unit")
    return [sizes.get(name, Fraction(1)) for name in program.bases]


def factor_of(unit: Unit, sizes: list[Fraction]) -> Fraction:
    """The product of the sizes to the powers of the unit, in the order of the base units; each step must fit."""
    factor = Fraction(1)
    for (_, number), power in sorted(unit.items()):
        factor = exact(factor * whole_power(sizes[number], power))
    return factor


def rescaled(node: Expr, sizes: list[Fraction]) -> Expr:
    """The expression with its numbers in other sizes, or a Misfit of the first that doesn't fit."""
    if node.kind == "number" and node.note is not HOLE:
        try:
            return replace(node, data=exact(node.data * factor_of(node.note, sizes)))
        except Stop:
            raise Misfit(node.at) from None
    return replace(node, parts=[rescaled(part, sizes) for part in node.parts])


def rescaled_program(source: Source, sizes: list[Fraction]) -> Program:
    """The program with its numbers in other sizes."""
    try:
        functions = [replace(function, body=rescaled(function.body, sizes)) for function in source.program.functions]
    except Misfit as misfit:
        raise source.report(14, "literal", misfit.at) from None
    return replace(source.program, functions=functions)


def rescaled_inputs(inputs: list[Expr], sizes: list[Fraction]) -> list[Expr]:
    """The arguments in other sizes."""
    changed = []
    for number, node in enumerate(inputs, 1):
        try:
            changed.append(rescaled(node, sizes))
        except Misfit:
            raise Report(14, f"argument {number}") from None
    return changed


def literals(node: Expr) -> dict[int, Fraction]:
    """The numbers with a written unit by their places."""
    found = {node.at: node.data} if node.kind == "number" and node.note is not HOLE else {}
    for part in node.parts:
        found.update(literals(part))
    return found


def rescaled_text(source: Source, program: Program) -> str:
    """The text with the numbers of the rescaled program, if a unit stands directly after them."""
    numbers: dict[int, Fraction] = {}
    for function in program.functions:
        numbers.update(literals(function.body))
    pieces, end = [], 0
    for token, after in zip(source.tokens, source.tokens[1:]):
        if token.kind == "number" and after.text == "<" and after.glued and token.start in numbers:
            pieces += [source.text[end:token.start], number_text(numbers[token.start])]
            end = token.end
    return "".join(pieces) + source.text[end:]
