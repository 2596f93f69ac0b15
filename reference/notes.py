"""What is declared, and the notes of types: unit texts and type texts read where names are known.

By the section "Names" of docs/LANGUAGE.md. A fault carries what `explain` tells of it.
"""
from __future__ import annotations

from dataclasses import dataclass, field
from typing import Any

from grammar import Node
from units import BASE, BOOL, HOLE, VAR, Unit, atom, fits, mul, over, power_of


class NameFault(Exception):
    """What is wrong with a name (or `range`: a unit text passes the range of powers), where, and more about it."""

    def __init__(self, kind: str, at: int, **about: Any) -> None:
        super().__init__(kind, at)
        self.kind, self.at, self.about = kind, at, about


@dataclass
class Expr:
    """An expression without brackets: its kind, place and parts, and what else belongs to the kind."""

    kind: str
    at: int
    parts: list["Expr"] = field(default_factory=list)
    data: object = None
    note: object = None


@dataclass
class Record:
    """A record: how many unit parameters it has, and its fields with their types over these."""

    name: str
    at: int
    units: int
    fields: list[tuple[str, tuple]]


@dataclass
class Function:
    """A function. `variables` are its unit variables, of which the first `units` are its unit parameters."""

    name: str
    at: int
    recursive: bool
    units: int = 0
    variables: list[str] = field(default_factory=list)
    params: list[tuple] = field(default_factory=list)
    binders: list[str | None] = field(default_factory=list)
    result: tuple | None = None
    body: Expr | None = None


@dataclass
class Program:
    """What is declared so far. `places` has the place of each name by its space."""

    bases: list[str] = field(default_factory=list)
    shorts: dict[str, Unit] = field(default_factory=dict)
    records: list[Record] = field(default_factory=list)
    functions: list[Function] = field(default_factory=list)
    places: dict[tuple[str, str], int] = field(default_factory=dict)

    def names(self, space: str) -> list[str]:
        """The names of a space in the order of their declaration."""
        return [name for kind, name in self.places if kind == space]

    def declare(self, space: str, name: str, at: int) -> None:
        """Takes a name, which must be new in its space."""
        taken_once(space, name, at, self.places)

    def measure(self, name: str) -> Unit | None:
        """The unit that a measure or an abbreviation stands for."""
        if name in self.bases:
            return atom(BASE, self.bases.index(name))
        return self.shorts.get(name)

    def measures(self) -> list[str]:
        """The measures and abbreviations in the order of their declaration."""
        return [name for name in self.names("type") if self.measure(name) is not None]

    def field_of(self, name: str) -> tuple[int, int] | None:
        """The record that has the field, and the field's number."""
        for number, record in enumerate(self.records):
            for place, (known, _) in enumerate(record.fields):
                if known == name:
                    return number, place
        return None


def taken_once(space: str, name: str, at: int, places: dict[tuple[str, str], int]) -> None:
    """Takes a name in a space of names."""
    if (space, name) in places:
        raise NameFault("declared twice", at, earlier=places[space, name])
    places[space, name] = at


# ---- units


def first_place(unit: Node) -> int:
    """The place of a unit text's first token."""
    if unit.kind in ("times", "over", "power", "root"):
        return first_place(unit.parts[0])
    return first_place(unit.parts[0][0]) if unit.kind == "side" else unit.at


def leaves(unit: Node) -> list[Node]:
    """The names and variables of a unit text, in order."""
    if unit.kind in ("measure", "variable", "one"):
        return [] if unit.kind == "one" else [unit]
    parts = unit.parts[0] if unit.kind == "side" else unit.parts
    return [leaf for part in parts if isinstance(part, Node) for leaf in leaves(part)]


class Units:
    """Reads unit texts where these names are known."""

    def __init__(self, program: Program, names: list[str], ranges: bool = True) -> None:
        self.program, self.names, self.ranges = program, names, ranges

    def known(self, unit: Node) -> None:
        """Each name and variable of the unit text is known."""
        for leaf in leaves(unit):
            name = leaf.parts[0].text
            if leaf.kind == "variable" and name not in self.names:
                raise NameFault("unknown name", leaf.at, name="'" + name, candidates=["'" + n for n in self.names])
            if leaf.kind == "measure" and self.program.measure(name) is None:
                raise NameFault("unknown name", leaf.at, name=name, candidates=self.program.measures())

    def in_range(self, unit: Unit) -> Unit:
        """The unit of a part; a unit text whose parts pass the range is refused."""
        if not fits(unit):
            raise OverflowError
        return unit

    def value(self, unit: Node) -> Unit:
        """The unit of a unit text whose names are known. Products go from left to right."""
        parts = [self.value(part) for part in unit.parts if isinstance(part, Node)]
        if unit.kind == "measure":
            return self.program.measure(unit.parts[0].text)
        if unit.kind == "variable":
            return atom(VAR, self.names.index(unit.parts[0].text))
        if unit.kind in ("power", "root"):
            power = int(unit.parts[1].text)
            return self.in_range(power_of(parts[0], power if unit.kind == "power" else -power))
        if unit.kind == "side":
            product: Unit = {}
            for part in unit.parts[0]:
                product = self.in_range(mul(product, self.value(part)))
            return product
        if unit.kind in ("times", "over"):
            return self.in_range((mul if unit.kind == "times" else over)(*parts))
        return power_of(parts[0], -1) if unit.kind == "inverse" else parts[0] if parts else {}

    def read(self, unit: Node) -> Unit:
        """The unit of a unit text: its names are looked at first, and then its range."""
        self.known(unit)
        try:
            return self.value(unit) if self.ranges else {}
        except OverflowError:
            raise NameFault("range", first_place(unit)) from None


# ---- types


class Types:
    """Reads type texts. `hole` says what is told of a hole where none may stand; nothing if one may."""

    def __init__(self, program: Program, names: list[str], hole: str | None, ranges: bool = True) -> None:
        self.program, self.units, self.hole = program, Units(program, names, ranges), hole

    def note(self, note: Node) -> Unit | None:
        """The unit of a note."""
        if note.kind == "note":
            return self.units.read(note.parts[0])
        if self.hole:
            raise NameFault("hole", note.at, hole=self.hole)
        return HOLE

    def record(self, node: Node) -> int:
        """The number of the record that is named, with as many units as it was declared with."""
        name, notes = node.parts[0].text, node.parts[1]
        known = [record.name for record in self.program.records]
        if name not in known:
            raise NameFault("unknown name", node.at, name=name, candidates=known)
        number = known.index(name)
        if self.program.records[number].units != len(notes):
            raise NameFault("wrong count", node.at, counts=(self.program.records[number].units, len(notes)))
        return number

    def read(self, node: Node) -> tuple:
        """The note of a type text."""
        if node.kind == "tbool":
            return BOOL
        if node.kind == "tnum":
            return ("num", self.note(node.parts[0]) if node.parts else {})
        if node.kind == "trecord":
            return ("rec", self.record(node), [self.note(note) for note in node.parts[1]])
        inner = self.read(node.parts[0])
        return ("list", inner) if node.kind == "tlist" else inner


def type_variables(node: Node) -> list[str]:
    """The unit variables of a type text, in order."""
    if node.kind in ("tlist", "tbracket"):
        return type_variables(node.parts[0])
    notes = node.parts if node.kind == "tnum" else node.parts[1] if node.kind == "trecord" else []
    return [leaf.parts[0].text for note in notes for unit in note.parts for leaf in leaves(unit)
            if leaf.kind == "variable"]


def expression_variables(node: object) -> list[str]:
    """The unit variables of the notes of empty lists in an expression, in order."""
    if isinstance(node, list):
        return [name for part in node for name in expression_variables(part)]
    if not isinstance(node, Node) or node.kind == "number":
        return []
    return type_variables(node.parts[0]) if node.kind == "nil" else expression_variables(node.parts)
