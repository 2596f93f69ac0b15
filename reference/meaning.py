"""What a program means: the value of an expression by recursion on its tree, with a budget of calls.

By the section "Evaluation" of docs/LANGUAGE.md. A value is a truth value, a fraction, a list as `(head, tail)` or `()`,
or the list of a record's fields.
"""
from __future__ import annotations

import operator
from fractions import Fraction
from typing import Any

from lexer import in_range
from notes import Expr, Program


class Stop(Exception):
    """The run ends without a value: `overflow`, `division by zero` or `budget`. The operands are those of a trap."""

    def __init__(self, kind: str, operands: tuple = ()) -> None:
        super().__init__(kind)
        self.kind, self.operands = kind, operands


def exact(value: Fraction, *operands: Fraction) -> Fraction:
    """The value, if both of its parts fit into 64 bits."""
    if not in_range(value):
        raise Stop("overflow", operands)
    return value


def whole_power(base: Fraction, power: int) -> Fraction:
    """A whole power. Each number to the power 0 is 1. No power past 64 of a number other than 0, 1 and -1 fits."""
    if base == 0 and power < 0:
        raise Stop("division by zero", (base,))
    if base in (0, 1, -1):
        return base ** (abs(power) % 2 + 2) if power else Fraction(1)
    if abs(power) > 64:
        raise Stop("overflow", (base,))
    return exact(base**power, base)


def arithmetic(sign: str, left: Fraction, right: Fraction) -> Fraction:
    """A sum, a difference, a product or a quotient."""
    if sign == "/" and right == 0:
        raise Stop("division by zero", (left, right))
    if sign in "+-":
        return exact(left + right if sign == "+" else left - right, left, right)
    return exact(left * right if sign == "*" else left / right, left, right)


COMPARISONS = {"<": operator.lt, "<=": operator.le, "=": operator.eq, "<>": operator.ne, ">": operator.gt,
               ">=": operator.ge}


def comparison(sign: str, left: Fraction, right: Fraction) -> bool:
    """The six comparisons."""
    return COMPARISONS[sign](left, right)


class Meaning:
    """The meaning of a program's expressions, with what is left of a budget.

    `open` has the calls whose bodies are being evaluated: the function and the node of the call. `stopped` is the node
    whose operation stopped the run.
    """

    def __init__(self, program: Program, budget: int) -> None:
        self.program, self.budget = program, budget
        self.open: list[tuple[int, Expr | None]] = []
        self.stopped: Expr | None = None

    def call(self, number: int, values: list, node: Expr | None = None) -> Any:
        """A call of a function, which costs one of the budget."""
        if self.budget == 0:
            self.stopped = node
            raise Stop("budget")
        self.budget -= 1
        self.open.append((number, node))
        value = self.value(self.program.functions[number].body, values)
        self.open.pop()
        return value

    def value(self, node: Expr, scope: list) -> Any:
        """The value of an expression, where the variables have these."""
        kind = node.kind
        if kind in ("if", "&&", "||"):
            return self.choice(node, scope)
        if kind == "let":
            return self.value(node.parts[1], scope + [self.value(node.parts[0], scope)])
        if kind == "match":
            items = self.value(node.parts[0], scope)
            return self.value(node.parts[2], scope + list(items)) if items else self.value(node.parts[1], scope)
        if kind == "local":
            return scope[node.data]
        parts = []
        for part in node.parts:
            parts.append(self.value(part, scope))
        if kind == "call":
            return self.call(node.data, parts, node)
        try:
            return operation(node, parts)
        except Stop:
            self.stopped = node
            raise

    def choice(self, node: Expr, scope: list) -> Any:
        """The parts that are evaluated as the first one decides."""
        first = self.value(node.parts[0], scope)
        if node.kind == "if":
            return self.value(node.parts[1 if first else 2], scope)
        return self.value(node.parts[1], scope) if first == (node.kind == "&&") else first


def listed(items: list) -> tuple:
    """The list of these items."""
    value: tuple = ()
    for item in reversed(items):
        value = (item, value)
    return value


def operation(node: Expr, parts: list) -> Any:
    """What a node gives for the values of its parts."""
    kind = node.kind
    if kind in ("+", "-", "*", "/"):
        return arithmetic(kind, *parts)
    if kind in COMPARISONS:
        return comparison(kind, *parts)
    if kind == "number":
        return node.data
    if kind == "negate":
        return -parts[0]
    if kind == "pown":
        return whole_power(parts[0], node.data)
    if kind == "::":
        return (parts[0], parts[1])
    if kind == "field":
        return parts[0][node.data[1]]
    if kind == "record":
        return parts
    if kind in ("items", "nil"):
        return listed(parts)
    return not parts[0] if kind == "not" else kind == "true"
