"""Holding a function to a signature: the section of that name in docs/LANGUAGE.md."""
from __future__ import annotations

import earley
from calls import named
from equations import Scheme
from front import GRAMMAR, Report
from lexer import LexFault, tokens_of
from names import signature_types
from notes import NameFault, Program
from solving import NoSolution, PowerRange, eliminate, own_variables
from units import BASE, VAR, atom, fits, map_units, over, put, units_in


def refused(kind: str, at: int) -> Report:
    """The line of a signature's text."""
    return Report(11, f"signature, {kind} at {at + 1}")


def read_signature(program: Program, text: str) -> list[tuple]:
    """The types of a signature: its tokens, its syntax and heights, its names, and the ranges of its units."""
    try:
        tokens = tokens_of(text)
        nodes = earley.read(GRAMMAR, "signature", tokens)
        return signature_types(program, nodes)[0]
    except LexFault as fault:
        raise refused("text", fault.at) from None
    except earley.SyntaxFault as fault:
        at = tokens[fault.number].start if fault.number < len(tokens) else len(text)
        raise refused(fault.kind, at) from None
    except NameFault as fault:
        raise refused("power range" if fault.kind == "range" else "name", fault.at) from None


def form(kind: tuple) -> tuple:
    """The type with the unit 1 in the place of each unit."""
    return map_units(kind, lambda unit: {})


def first_difference(types: list[tuple], signature: list[tuple]) -> int | None:
    """The first number at which one has a type and the other none, or the two differ in more than their units."""
    for number in range(max(len(types), len(signature))):
        if [form(kind) for kind in types[number:number + 1]] != [form(kind) for kind in signature[number:number + 1]]:
            return number
    return None


def match_types(program: Program, scheme: Scheme, signature: list[tuple], name: str) -> None:
    """The scheme's types can be the signature's, whose variables are units of their own; type by type."""
    bases = len(program.bases)
    rigid = lambda key: atom(BASE, bases + key[1]) if key[0] == VAR else None
    units = own_variables(scheme.vars)
    for number, (own, wanted) in enumerate(zip(scheme.types(), signature), 1):
        for unit, second in zip(units_in(own), units_in(put(wanted, rigid))):
            row = over(unit, second)
            try:
                if not fits(row):
                    raise PowerRange
                units = eliminate(units, row)
            except NoSolution:
                raise Report(20, f"units of {name}, type {number}") from None
            except PowerRange:
                raise Report(10, "power range of the signature") from None


def conform(program: Program, schemes: list[Scheme], name: str, text: str) -> str:
    """The line of a function that may be used at a signature, or why it may not."""
    scheme = schemes[named(program, name)]
    signature = read_signature(program, text)
    number = first_difference(scheme.types(), signature)
    if number is not None:
        raise Report(20, f"form of {name}, type {number + 1}")
    match_types(program, scheme, signature, name)
    return f"{name} conforms\n"
