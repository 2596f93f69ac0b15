"""Reads certificates, strictly: the one form that `prove` prints, and nothing else.

By the section "Certificates" of docs/LANGUAGE.md. A Fault names the line. What the lines say isn't looked at here.
"""
from __future__ import annotations

import re
from dataclasses import dataclass, field

from lexer import HIGHEST_POWER, WIDEST
from notes import Program
from show import unit_text
from units import BASE, VAR, Unit

WHOLE = r"0|[1-9][0-9]*"
SIGNED = r"0|-?[1-9][0-9]*"
VARIABLE = re.compile(r"'([a-z])([1-9][0-9]*)?")
FACTOR = re.compile(r"([^^]+)(?:\^([1-9][0-9]*))?")
HEAD = re.compile(rf"(\S+) (yes|no|not general) ({WHOLE}) ({SIGNED})")
UNIT_LINE = re.compile(rf"  (slot|back|rigid) ({WHOLE}): (.+)")
ROWS_LINE = re.compile(rf"  rows ({WHOLE}): (.+)")
PRODUCT_LINE = re.compile(r"  rows: (.+)")
PART = re.compile(rf"({WHOLE})\*({SIGNED})")


class Fault(Exception):
    """What is wrong with a certificate, and its line; 0 is the text as a whole."""

    def __init__(self, line: int, what: str) -> None:
        super().__init__(f"line {line}: {what}" if line else what)


@dataclass
class Certificate:
    """A function's certificate. `numbers` are the two of its heading, `units` those of its lines by their word."""

    line: int
    name: str
    kind: str
    numbers: tuple[int, int]
    units: dict[str, list[Unit]] = field(default_factory=lambda: {"slot": [], "back": [], "rigid": []})
    rows: dict[int, dict[int, int]] = field(default_factory=dict)
    product: dict[int, int] = field(default_factory=dict)
    places: dict[tuple[str, int], int] = field(default_factory=dict)

    def place(self, word: str, number: int = 0) -> int:
        """The line of what stands after a word and a number, or that of the heading."""
        return self.places.get((word, number), self.line)


def narrow(line: int, text: str, most: int = WIDEST) -> int:
    """A number that a certificate can hold."""
    if len(text) > 20 or abs(int(text)) > most:
        raise Fault(line, f"the number {text[:40]} is out of range")
    return int(text)


class Units:
    """Reads the texts of units over the base units of a program and so many unit parameters."""

    def __init__(self, program: Program, parameters: int) -> None:
        self.names = program.bases + [f"${number}" for number in range(parameters)]
        self.atoms = {name: (BASE, number) for number, name in enumerate(self.names)}

    def factor(self, line: int, text: str) -> tuple[tuple, int]:
        """The atom and the power of a factor."""
        found = FACTOR.fullmatch(text)
        variable = found and VARIABLE.fullmatch(found[1])
        if variable:
            number = ord(variable[1]) - ord("a") + 26 * narrow(line, variable[2] or "0")
            atom = (VAR, number)
        elif found and found[1] in self.atoms:
            atom = self.atoms[found[1]]
        else:
            raise Fault(line, f"'{text[:40]}' is no base unit of the program and no variable")
        return atom, narrow(line, found[2] or "1", HIGHEST_POWER)

    def read(self, line: int, text: str) -> Unit:
        """The unit of a text, which must be the text that is printed of the unit."""
        above, _, below = ("" if text == "1" else text).partition("/")
        unit: Unit = {}
        for side, sign in ((above, 1), (below, -1)):
            for factor in side.split(" ") if side else []:
                atom, power = self.factor(line, factor)
                unit[atom] = unit.get(atom, 0) + sign * power
        if 0 in unit.values() or unit_text(unit, self.names) != text:
            raise Fault(line, f"'{text[:80]}' isn't how a unit is printed")
        return unit


def product_of(line: int, text: str) -> dict[int, int]:
    """Rows with their powers: each row once, in order, no power 0."""
    product: dict[int, int] = {}
    for part in text.split(" "):
        found = PART.fullmatch(part)
        if not found or found[2] == "0":
            raise Fault(line, f"'{part[:40]}' is no row with a power other than 0")
        row = narrow(line, found[1])
        if product and row <= max(product):
            raise Fault(line, f"row {row} stands out of order")
        product[row] = narrow(line, found[2])
    return product


class Reader:
    """Reads the lines of all certificates one by one."""

    def __init__(self, program: Program, text: str) -> None:
        self.program, self.functions = program, {function.name: function for function in program.functions}
        self.lines = text.split("\n")
        if self.lines.pop():
            raise Fault(len(self.lines) + 1, "the last line isn't ended by a line feed")
        self.number = 0

    def line(self) -> str:
        """The next line; nothing at the end."""
        return self.lines[self.number] if self.number < len(self.lines) else ""

    def certificates(self) -> list[Certificate]:
        """All certificates."""
        found = []
        while self.number < len(self.lines):
            found.append(self.certificate())
        return found

    def certificate(self) -> Certificate:
        """The heading, and the lines of its kind."""
        head, line = HEAD.fullmatch(self.line()), self.number + 1
        if not head and self.line().startswith("error "):
            raise Fault(line, f"no certificate was printed, but {self.line()[:80]}")
        if not head:
            raise Fault(line, "no such line may stand here")
        if head[1] not in self.functions:
            raise Fault(line, f"the program has no function {head[1]}")
        certificate = Certificate(line, head[1], head[2], (narrow(line, head[3]), narrow(line, head[4])))
        self.number += 1
        if head[2] == "yes":
            self.lines_of_yes(certificate)
        else:
            found = PRODUCT_LINE.fullmatch(self.line())
            if not found:
                raise Fault(line + 1, "the line `rows:` of a refusal is missing")
            self.number += 1
            certificate.product = product_of(line + 1, found[1])
        return certificate

    def lines_of_yes(self, certificate: Certificate) -> None:
        """The slots, the ways back, the rows and the rigid units, in this order."""
        units = Units(self.program, 0)
        self.unit_lines(certificate, "slot", units)
        self.unit_lines(certificate, "back", units)
        last = -1
        while found := ROWS_LINE.fullmatch(self.line()):
            slot = narrow(self.number + 1, found[1])
            if slot <= last:
                raise Fault(self.number + 1, f"rows {slot} stands out of order")
            last = slot
            certificate.rows[slot] = product_of(self.number + 1, found[2])
            certificate.places["rows", slot] = self.number + 1
            self.number += 1
        self.unit_lines(certificate, "rigid", Units(self.program, self.functions[certificate.name].units))

    def unit_lines(self, certificate: Certificate, word: str, units: Units) -> None:
        """The lines of a word, numbered from 0."""
        while (found := UNIT_LINE.fullmatch(self.line())) and found[1] == word:
            number = len(certificate.units[word])
            if found[2] != str(number):
                raise Fault(self.number + 1, f"{word} {number} is missing")
            certificate.units[word].append(units.read(self.number + 1, found[3]))
            certificate.places[word, number] = self.number + 1
            self.number += 1
