"""From bytes to a typed program, step by step: each step has the report lines of its refusals."""
from __future__ import annotations

from dataclasses import dataclass, field

import earley
from grammar import RULES, Node
from lexer import LexFault, Token, line_and_column, tokens_of
from names import program_of
from notes import NameFault, Program
from equations import Scheme
from shapes import ShapeFault, Shapes
from solving import Refusal, infer

MOST_TEXT = 1048576
GRAMMAR = earley.Grammar(RULES)
LIMITS = {"fields": 32, "functions": 2000, "parameters": 16, "unit parameters": 4, "nodes": 20000}


class Report(Exception):
    """A report line with its status. `cause` is what refused, `at` its place in the text."""

    def __init__(self, status: int, line: str, cause: Exception | None = None, at: int | None = None) -> None:
        super().__init__(status, line)
        self.status, self.line, self.cause, self.at = status, f"error {status}: {line}", cause, at


class LimitFault(Exception):
    """A limit of the grammar is passed."""

    def __init__(self, kind: str) -> None:
        super().__init__(kind)
        self.kind = kind


@dataclass
class Source:
    """A text and what was found of it so far."""

    text: str = ""
    tokens: list[Token] = field(default_factory=list)
    tree: Node | None = None
    program: Program | None = None
    shapes: Shapes | None = None
    schemes: list[Scheme] = field(default_factory=list)
    refusal: Refusal | None = None

    def report(self, status: int, line: str, at: int, cause: Exception | None = None) -> Report:
        """A report line that ends with a place."""
        return Report(status, f"{line} at {line_and_column(self.text, at)}", cause, at)

    def place(self, number: int) -> int:
        """The place of a token by its number, or the end of the text."""
        return self.tokens[number].start if number < len(self.tokens) else len(self.text)


def count_nodes(part: object) -> int:
    """The nodes of an expression, brackets included. Notes, binders and fields' names are none."""
    if isinstance(part, list):
        return sum(count_nodes(inner) for inner in part)
    if not isinstance(part, Node) or part.kind in ("hole", "note", "bound", "bar"):
        return 0
    if part.kind in ("number", "nil"):
        return 1
    return sum(count_nodes(inner) for inner in part.parts) + (part.kind != "part")


def first_limit(tree: Node) -> tuple[str, int] | None:
    """The first limit that a declaration passes, in the order of the text, and the place of its name."""
    functions = 0
    for node in tree.parts[0]:
        counts: dict[str, int] = {}
        if node.kind == "struct":
            counts = {"fields": len(node.parts[2]), "unit parameters": len(node.parts[1])}
        elif node.kind in ("fun", "noted", "rec"):
            functions += 1
            counts = {"functions": functions, "parameters": len(node.parts[2]), "unit parameters": len(node.parts[1]),
                      "nodes": count_nodes(node.parts[-1])}
        for kind, count in counts.items():
            if count > LIMITS[kind]:
                return kind, node.at
    return None


def read_text(source: Source, data: bytes) -> None:
    """The characters of the bytes."""
    if len(data) > MOST_TEXT:
        raise Report(2, "text too long")
    try:
        source.text = data.decode()
    except UnicodeDecodeError as fault:
        source.text = data[:fault.start].decode()
        raise source.report(3, "not UTF-8", len(source.text)) from None


def parse(source: Source) -> None:
    """The tokens and the raw tree, within the limits of the grammar."""
    try:
        source.tokens = tokens_of(source.text)
    except LexFault as fault:
        raise source.report(4, fault.kind, fault.at, fault) from None
    try:
        source.tree = earley.read(GRAMMAR, "program", source.tokens)
    except earley.SyntaxFault as fault:
        if fault.kind == "syntax":
            raise source.report(5, "syntax", source.place(fault.number), fault) from None
        raise source.report(6, "limit height", source.place(fault.number), LimitFault("height")) from None
    limit = first_limit(source.tree)
    if limit:
        raise source.report(6, f"limit {limit[0]}", limit[1], LimitFault(limit[0]))


def resolve(source: Source) -> None:
    """Names and shapes."""
    try:
        source.program = program_of(source.tree)
    except NameFault as fault:
        status, line = (10, "power range") if fault.kind == "range" else (7, fault.kind)
        raise source.report(status, line, fault.at, fault) from None
    try:
        source.shapes = Shapes(source.program)
    except ShapeFault as fault:
        if fault.deep:
            raise source.report(6, "limit depth", fault.at, LimitFault("depth")) from None
        raise source.report(8, "shape", fault.at, fault) from None


def refuse(source: Source) -> Report:
    """The report line of the first function without a scheme."""
    refusal, name = source.refusal, source.program.functions[len(source.schemes)].name
    if refusal.kind == "slots":
        return source.report(6, "limit slots", refusal.at, LimitFault("slots"))
    lines = {"range": (10, "power range of"), "units": (9, "units of"), "general": (19, "not general in")}
    status, line = lines[refusal.kind]
    return source.report(status, f"{line} {name}", refusal.at, refusal)


def typed(data: bytes, certified: bool = False) -> Source:
    """The program of the bytes with its schemes. `certified` lets refusals of units stand, for `prove`."""
    source = Source()
    typed_into(source, data, certified)
    return source


def typed_into(source: Source, data: bytes, certified: bool = False) -> None:
    """The steps of `types`, what is found kept in the source."""
    read_text(source, data)
    parse(source)
    resolve(source)
    source.schemes, source.refusal = infer(source.program)
    if source.refusal and not (certified and source.refusal.kind in ("units", "general")):
        raise refuse(source)
