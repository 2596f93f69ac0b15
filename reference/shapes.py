"""Shapes: types without their units, each node after its parts, and the first fault.

By the section "Shapes" of docs/LANGUAGE.md. A ShapeFault says what is asked for and what is there, for `explain`.
"""
from __future__ import annotations

from grammar import HIGHEST
from notes import Expr, Function, Program, Record
from units import shape_of

NUM, TRUTH = ("num",), ("bool",)
LIST = "list"


class ShapeFault(Exception):
    """A node without a shape, or (`deep`) one whose shape is too high. `told` is a line, and two words with shapes."""

    def __init__(self, at: int, told: tuple | None = None, deep: bool = False) -> None:
        super().__init__(at, told)
        self.at, self.told, self.deep = at, told, deep


class Shapes:
    """The shapes of a program's records and functions, found in the order of the text."""

    def __init__(self, program: Program) -> None:
        self.program = program
        self.heights: list[int] = []
        self.fields: list[list[tuple]] = []
        self.functions: list[tuple[list[tuple], tuple]] = []
        for record in program.records:
            self.add_record(record)
        for function in program.functions:
            self.functions.append(self.function(function))

    def height(self, shape: tuple) -> int:
        """The height of a shape, through the fields of records."""
        if shape[0] == "list":
            return self.height(shape[1]) + 1
        return self.heights[shape[1]] if shape[0] == "rec" else 1

    def add_record(self, record: Record) -> None:
        """A record is one higher than its highest field."""
        shapes = [shape_of(kind) for _, kind in record.fields]
        height = max(self.height(shape) for shape in shapes) + 1
        if height > HIGHEST:
            raise ShapeFault(record.at, deep=True)
        self.heights.append(height)
        self.fields.append(shapes)

    def function(self, function: Function) -> tuple[list[tuple], tuple]:
        """The shapes of the parameters and of the result: the parameters first, then the body, then the result."""
        params = [shape_of(note) for note in function.params]
        if max((self.height(shape) for shape in params), default=0) > HIGHEST:
            raise ShapeFault(function.at, deep=True)
        noted = shape_of(function.result) if function.result else None
        own = [(params, noted)] if function.recursive else []
        body = Body(self, self.functions + own).find(function.body, params)
        if noted not in (None, body):
            line = f"the body of {function.name} must have the type of its result"
            raise ShapeFault(function.at, (line, "body", body, "result", noted))
        return params, body


class Body:
    """Finds the shapes of the nodes of a body, where these functions may be called."""

    def __init__(self, shapes: Shapes, callable: list[tuple[list[tuple], tuple]]) -> None:
        self.shapes, self.callable = shapes, callable

    def find(self, node: Expr, scope: list[tuple]) -> tuple:
        """The shape of an expression, where the variables have these."""
        if node.kind in ("let", "match"):
            shape = self.find_let(node, scope) if node.kind == "let" else self.find_match(node, scope)
        else:
            parts = [self.find(part, scope) for part in node.parts]
            shape = self.rule(node, parts, scope)
        if self.shapes.height(shape) > HIGHEST:
            raise ShapeFault(node.at, deep=True)
        return shape

    def find_let(self, node: Expr, scope: list[tuple]) -> tuple:
        """A local definition has the shape of its second part."""
        value = self.find(node.parts[0], scope)
        return self.find(node.parts[1], scope + [value])

    def find_match(self, node: Expr, scope: list[tuple]) -> tuple:
        """Both arms have one shape. A first part that is no list is a fault before the arms are looked at."""
        value = self.find(node.parts[0], scope)
        self.kind(node, [value], LIST, "a list must stand here")
        empty = self.find(node.parts[1], scope)
        full = self.find(node.parts[2], scope + [value[1], value])
        self.same(node, "the arms of this match must have the same type", "empty", empty, "full", full)
        return empty

    def rule(self, node: Expr, parts: list[tuple], scope: list[tuple]) -> tuple:
        """The shape that the rule of a node gives."""
        kind = node.kind
        if kind == "local":
            return scope[node.data]
        if kind in ("+", "-", "*", "/", "negate", "pown", "<", "<=", "=", "<>", ">", ">="):
            self.kind(node, parts, "num", "this operation takes numbers")
            return NUM if kind in ("+", "-", "*", "/", "negate", "pown") else TRUTH
        if kind in ("&&", "||", "not"):
            self.kind(node, parts, "bool", "this operation takes truth values")
        if kind in ("&&", "||", "not", "true", "false"):
            return TRUTH
        return NUM if kind == "number" else getattr(self, "rule_" + {"::": "cons"}.get(kind, kind))(node, parts)

    def kind(self, node: Expr, parts: list[tuple], wanted: str, line: str) -> None:
        """Each of these parts is of a kind."""
        for part in parts:
            if part[0] != wanted:
                raise ShapeFault(node.at, (line, "expected", wanted, "found", part))

    def same(self, node: Expr, line: str, left: str, one: tuple, right: str, other: tuple) -> None:
        """Two parts have one shape."""
        if one != other:
            raise ShapeFault(node.at, (line, left, one, right, other))

    def rule_if(self, node: Expr, parts: list[tuple]) -> tuple:
        """The condition is a truth value, and the branches have one shape."""
        self.kind(node, parts[:1], "bool", "this operation takes truth values")
        self.same(node, "the branches of this if must have the same type", "then", parts[1], "else", parts[2])
        return parts[1]

    def rule_nil(self, node: Expr, parts: list[tuple]) -> tuple:
        """The written type is that of a list."""
        self.kind(node, [shape_of(node.note)], LIST, "the type of the empty list must be a list")
        return shape_of(node.note)

    def rule_items(self, node: Expr, parts: list[tuple]) -> tuple:
        """The items have the shape of the first."""
        for number, part in enumerate(parts[1:], 2):
            line = "the items of this list must have the same type"
            self.same(node, line, "item 1", parts[0], f"item {number}", part)
        return ("list", parts[0])

    def rule_cons(self, node: Expr, parts: list[tuple]) -> tuple:
        """The tail is a list of such heads."""
        self.kind(node, parts[1:], LIST, "a list must stand here")
        line = "the head of this list must have the type of the tail's items"
        self.same(node, line, "head", parts[0], "items", parts[1][1])
        return parts[1]

    def rule_call(self, node: Expr, parts: list[tuple]) -> tuple:
        """The arguments have the shapes of the parameters."""
        params, result = self.callable[node.data]
        name = self.shapes.program.functions[node.data].name
        for number, (param, part) in enumerate(zip(params, parts), 1):
            line = f"argument {number} of {name} must have the type of its parameter"
            self.same(node, line, "parameter", param, "argument", part)
        return result

    def rule_record(self, node: Expr, parts: list[tuple]) -> tuple:
        """The parts have the shapes of the fields."""
        names = [name for name, _ in self.shapes.program.records[node.data].fields]
        for name, declared, part in zip(names, self.shapes.fields[node.data], parts):
            line = f"field {name} of this record must have its declared type"
            self.same(node, line, "declared", declared, "part", part)
        return ("rec", node.data)

    def rule_field(self, node: Expr, parts: list[tuple]) -> tuple:
        """The part is the record that has the field."""
        record, number = node.data
        if parts[0] != ("rec", record):
            name = self.shapes.program.records[record].name
            raise ShapeFault(node.at, (f"this field belongs to {name}", "expected", name, "found", parts[0]))
        return self.shapes.fields[record][number]
