"""Arguments, and calls by their words: the sections "Arguments" and "What is refused of a call" of docs/LANGUAGE.md."""
from __future__ import annotations

from dataclasses import dataclass
from typing import Any

import earley
from equations import Scheme
from front import Report
from grammar import UNITS, Node, Rule, rules_of
from lexer import LexFault, tokens_of
from meaning import listed
from notes import Expr, Function, NameFault, Program, Types
from show import field_types, value_text
from solving import Refusal, scheme_of
from units import BOOL, HOLE, shape_of, type_fits

VALUES = '''
bool : "true" => true
bool : "false" => false
num : Number => number!0
num : Number "<#" unote ">" => number!0
num : "-" @Number => negated!0
num : "-" @Number "<#" unote ">" => negated!0
'''


class ShapeGrammar:
    """The grammar of the value texts of a shape. A record's fields are tokens of their names."""

    def __init__(self, program: Program, shape: tuple) -> None:
        self.program = program
        self.rules = rules_of(UNITS + VALUES)
        self.known: dict[tuple, str] = {("bool",): "bool", ("num",): "num"}
        self.start = self.symbol(shape)

    def symbol(self, shape: tuple) -> str:
        """The symbol of a shape."""
        if shape not in self.known:
            name = self.known[shape] = f"value {len(self.known)}"
            if shape[0] == "list":
                self.list_rules(name, self.symbol(shape[1]))
            else:
                self.record_rule(name, shape)
        return self.known[shape]

    def list_rules(self, name: str, item: str) -> None:
        """Items between brackets."""
        self.rules += [Rule(name, ['"["', '"]"'], "items~", 0), Rule(name, ['"["', name + "s", '"]"'], "items~", 0),
                       Rule(name + "s", [item], "list", 0), Rule(name + "s", [name + "s", '";"', item], "more", 0)]

    def record_rule(self, name: str, shape: tuple) -> None:
        """All fields in the order of declaration."""
        symbols: list[str] = ['"{"']
        for number, (field, kind) in enumerate(self.program.records[shape[1]].fields):
            symbols += ['";"'] * (number > 0) + ["Name:" + field, '"="', self.symbol(shape_of(kind))]
        self.rules.append(Rule(name, symbols + ['"}"'], "record~", 0))


class ArgumentFault(Exception):
    """What is wrong with the text of an argument: text, shape, name or power range, and where."""

    def __init__(self, kind: str, at: int) -> None:
        super().__init__(kind, at)
        self.kind, self.at = kind, at


def value_tree(program: Program, shape: tuple, text: str) -> Node:
    """The raw tree of an argument, or an ArgumentFault."""
    try:
        tokens = tokens_of(text)
    except LexFault as fault:
        raise ArgumentFault("text", fault.at) from None
    grammar = ShapeGrammar(program, shape)
    try:
        return earley.read(earley.Grammar(grammar.rules), grammar.start, tokens)
    except earley.SyntaxFault as fault:
        at = tokens[fault.number].start if fault.number < len(tokens) else len(text)
        raise ArgumentFault("shape", at) from None


class Inputs:
    """Reads raw arguments as expressions; the ranges of units are left out of account at first."""

    def __init__(self, program: Program, ranges: bool) -> None:
        self.program, self.types = program, Types(program, [], None, ranges)

    def read(self, node: Node, shape: tuple) -> Expr:
        """The expression that an argument of a shape stands for."""
        if node.kind in ("true", "false"):
            return Expr(node.kind, 0)
        if node.kind in ("number", "negated"):
            return self.number(node)
        if node.kind == "items":
            if not node.parts:
                return Expr("nil", 0, [], None, open_note(self.program, shape))
            return Expr("items", 0, [self.read(part, shape[1]) for part in node.parts[0]])
        parts = [part for part in node.parts if isinstance(part, Node)]
        fields = self.program.records[shape[1]].fields
        return Expr("record", 0, [self.read(part, shape_of(kind)) for part, (_, kind) in zip(parts, fields)], shape[1])

    def number(self, node: Node) -> Expr:
        """A number with its sign and its unit. Zero alone may leave its unit open."""
        value, note = node.parts[0].value, {}
        if len(node.parts) > 1:
            if node.parts[1].kind == "hole" and value != 0:
                raise NameFault("hole", node.at)
            note = self.types.note(node.parts[1])
        return Expr("number", node.at, [], -value if node.kind == "negated" else value, note)


def open_note(program: Program, shape: tuple) -> tuple:
    """The note of a shape with each unit left open."""
    if shape[0] == "list":
        return ("list", open_note(program, shape[1]))
    if shape[0] == "rec":
        return ("rec", shape[1], [HOLE] * program.records[shape[1]].units)
    return ("num", HOLE) if shape[0] == "num" else BOOL


def read_argument(program: Program, shape: tuple, text: str) -> Expr:
    """An argument: its tokens, its shape, its names, and then the ranges of its units."""
    tree = value_tree(program, shape, text)
    try:
        Inputs(program, False).read(tree, shape)
        return Inputs(program, True).read(tree, shape)
    except NameFault as fault:
        raise ArgumentFault("power range" if fault.kind == "range" else "name", fault.at) from None


def input_value(node: Expr) -> Any:
    """The value of an argument."""
    if node.kind == "number":
        return node.data
    if node.kind in ("true", "false"):
        return node.kind == "true"
    parts = [input_value(part) for part in node.parts]
    return parts if node.kind == "record" else listed(parts)


@dataclass
class Call:
    """A call of a function: its number, its arguments as expressions, and its type."""

    function: int
    inputs: list[Expr]
    type: tuple

    def values(self) -> list:
        """The values of the arguments."""
        return [input_value(node) for node in self.inputs]


def read_arguments(program: Program, shapes: list[tuple], texts: list[str]) -> list[Expr]:
    """The arguments in order, as many as there are parameters."""
    if len(shapes) != len(texts):
        raise Report(11, "wrong number of arguments")
    inputs = []
    for number, (shape, text) in enumerate(zip(shapes, texts), 1):
        try:
            inputs.append(read_argument(program, shape, text))
        except ArgumentFault as fault:
            raise Report(11, f"argument {number}, {fault.kind} at {fault.at + 1}") from None
    return inputs


def type_of_call(program: Program, schemes: list[Scheme], function: int, inputs: list[Expr]) -> tuple:
    """The type of a call, which is judged like the body of one more function."""
    body = Expr("call", 0, inputs, function)
    try:
        return scheme_of(program, schemes, Function("", 0, False, body=body)).result
    except Refusal as refusal:
        lines = {"slots": (6, "limit slots in the call"), "range": (10, "power range of the call"),
                 "units": (11, "units of the arguments")}
        raise Report(*lines[refusal.kind]) from None


def named(program: Program, name: str) -> int:
    """The number of a function by its name."""
    for number, function in enumerate(program.functions):
        if function.name == name:
            return number
    raise Report(11, "no such function")


def read_call(program: Program, schemes: list[Scheme], name: str, texts: list[str]) -> Call:
    """The call that the words name, or the report line of the first thing that is wrong with it."""
    number = named(program, name)
    inputs = read_arguments(program, [shape_of(note) for note in program.functions[number].params], texts)
    return Call(number, inputs, type_of_call(program, schemes, number, inputs))


def value_fits(program: Program, value: Any, kind: tuple) -> bool:
    """The types of the parts of a value have their powers in range."""
    while kind[0] == "list" and value:
        if not value_fits(program, value[0], kind[1]):
            return False
        value = value[1]
    if kind[0] != "rec":
        return True
    fields = field_types(program, kind)
    return all(type_fits(of) and value_fits(program, part, of) for (_, of), part in zip(fields, value))


def shown_value(program: Program, value: Any, kind: tuple, **how: Any) -> str:
    """The text of a value at the type of its call."""
    if not value_fits(program, value, kind):
        raise Report(10, "power range of the call")
    return value_text(value, kind, program, **how)
