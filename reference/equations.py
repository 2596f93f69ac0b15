"""The equations of a function: what its typing rules ask of units, over one slot for each unit that is left open.

By the section "Units" of docs/LANGUAGE.md. The slots of the unit parameters are the first. The others follow in the
order of the text, a node before its parts: each hole, the units of each record text, the variables of an earlier
function's scheme at each use, and each other named variable at its first occurrence, within one unit by its number.
"""
from __future__ import annotations

from dataclasses import dataclass, field

from notes import Expr, Function, Program
from units import BOOL, HOLE, VAR, Unit, atom, by_list, fits, map_units, mul, over, power_of, put, put_unit, type_fits
from units import units_in, variables


@dataclass(eq=False)
class Agreement:
    """Two types that a rule asks to be equal: the line that says so, and the word before each."""

    at: int
    line: str
    left: str
    one: tuple
    right: str
    other: tuple


@dataclass
class Row:
    """An equation: the unit is 1. Its place is that of the node whose rule asks for it."""

    at: int
    unit: Unit
    agreement: Agreement | None = None


@dataclass
class Formed:
    """The type that was formed for a node, or (without a node) in the head of the function."""

    at: int
    type: tuple
    node: Expr | None = None


@dataclass
class Scheme:
    """A function's most general type: the types of its parameters and its result, over numbered variables."""

    params: list[tuple]
    result: tuple
    vars: int

    def types(self) -> list[tuple]:
        """The parameters and the result."""
        return self.params + [self.result]


@dataclass
class Equations:
    """The types of the parameters and the body over slots, and the rows and node types in the order of forming."""

    slots: int = 0
    params: list[tuple] = field(default_factory=list)
    result: tuple = BOOL
    steps: list = field(default_factory=list)
    named: dict[int, int] = field(default_factory=dict)

    def rows(self) -> list[Row]:
        """The rows alone."""
        return [step for step in self.steps if isinstance(step, Row)]

    def first_past(self) -> int | None:
        """The place of the first row or type with a power out of range."""
        for step in self.steps:
            if not (fits(step.unit) if isinstance(step, Row) else type_fits(step.type)):
                return step.at
        return None


SUMS = {"+": "sum", "-": "difference"}
COMPARISONS = ("<", "<=", "=", "<>", ">", ">=")


class Former:
    """Forms the equations of one function, given the schemes of those before it."""

    def __init__(self, program: Program, schemes: list[Scheme], function: Function) -> None:
        self.program, self.schemes, self.function = program, schemes, function
        self.equations = Equations()

    # ---- slots

    def slot(self) -> Unit:
        """A new slot."""
        self.equations.slots += 1
        return atom(VAR, self.equations.slots - 1)

    def written(self, unit: Unit) -> Unit:
        """A written unit, its named variables as slots."""
        named = self.equations.named
        for number in variables(unit):
            if number not in named:
                named[number] = self.equations.slots
                self.slot()
        return put_unit(unit, lambda key: atom(VAR, named[key[1]]) if key[0] == VAR else None)

    def noted(self, note: tuple) -> tuple:
        """The type of a note."""
        return map_units(note, lambda unit: self.slot() if unit is HOLE else self.written(unit))

    # ---- rows

    def agree(self, at: int, line: str, left: str, one: tuple, right: str, other: tuple) -> None:
        """The rows of two types that must be equal: the first unit over the second, unit by unit."""
        agreement = Agreement(at, line, left, one, right, other)
        for unit, second in zip(units_in(one), units_in(other)):
            self.equations.steps.append(Row(at, over(unit, second), agreement))

    def form(self) -> Equations:
        """The equations of the function."""
        function, equations = self.function, self.equations
        for number in range(function.units):
            self.written(atom(VAR, number))
        equations.params = [self.noted(note) for note in function.params]
        result = self.noted(function.result) if function.result else None
        equations.steps = [Formed(function.at, kind) for kind in equations.params + ([result] if result else [])]
        self.own = (equations.params, result)
        equations.result = self.type(function.body, list(equations.params))
        if result:
            line = f"the body of {function.name} must have the type of its result"
            self.agree(function.at, line, "body", equations.result, "result", result)
        return equations

    # ---- nodes

    def type(self, node: Expr, scope: list[tuple]) -> tuple:
        """The type of an expression, where the variables have these; its rows are formed after those of its parts."""
        special = getattr(self, "type_" + {"::": "cons"}.get(node.kind, node.kind), None)
        if special:
            kind = special(node, scope)
        else:
            kind = self.plain(node, [self.type(part, scope) for part in node.parts])
        self.equations.steps.append(Formed(node.at, kind, node))
        return kind

    def plain(self, node: Expr, parts: list[tuple]) -> tuple:
        """The type of a node whose rule needs nothing but the types of its parts."""
        if node.kind in SUMS:
            line = f"the two sides of this {SUMS[node.kind]} must have the same type"
            self.agree(node.at, line, "left", parts[0], "right", parts[1])
            return parts[0]
        if node.kind in COMPARISONS:
            line = "the two sides of this comparison must have the same type"
            self.agree(node.at, line, "left", parts[0], "right", parts[1])
            return BOOL
        if node.kind in ("*", "/"):
            return ("num", (mul if node.kind == "*" else over)(parts[0][1], parts[1][1]))
        if node.kind == "pown":
            return ("num", power_of(parts[0][1], node.data))
        return parts[0] if node.kind == "negate" else BOOL

    def type_number(self, node: Expr, scope: list) -> tuple:
        """A number has its unit, or an open one."""
        return ("num", self.slot() if node.note is HOLE else node.note)

    def type_local(self, node: Expr, scope: list) -> tuple:
        """A variable has its type."""
        return scope[node.data]

    def type_nil(self, node: Expr, scope: list) -> tuple:
        """The empty list has its written type."""
        return self.noted(node.note)

    def type_let(self, node: Expr, scope: list) -> tuple:
        """A local definition isn't generalised."""
        value = self.type(node.parts[0], scope)
        return self.type(node.parts[1], scope + [value])

    def type_if(self, node: Expr, scope: list) -> tuple:
        """The first branch against the second."""
        _, one, other = [self.type(part, scope) for part in node.parts]
        self.agree(node.at, "the branches of this if must have the same type", "then", one, "else", other)
        return one

    def type_match(self, node: Expr, scope: list) -> tuple:
        """The empty arm against the full one."""
        value = self.type(node.parts[0], scope)
        empty = self.type(node.parts[1], scope)
        full = self.type(node.parts[2], scope + [value[1], value])
        self.agree(node.at, "the arms of this match must have the same type", "empty", empty, "full", full)
        return empty

    def type_items(self, node: Expr, scope: list) -> tuple:
        """The first item against each other."""
        first, *others = [self.type(part, scope) for part in node.parts]
        for number, other in enumerate(others, 2):
            line = "the items of this list must have the same type"
            self.agree(node.at, line, "item 1", first, f"item {number}", other)
        return ("list", first)

    def type_cons(self, node: Expr, scope: list) -> tuple:
        """The head against the tail's items."""
        head, tail = [self.type(part, scope) for part in node.parts]
        line = "the head of this list must have the type of the tail's items"
        self.agree(node.at, line, "head", head, "items", tail[1])
        return tail

    def type_call(self, node: Expr, scope: list) -> tuple:
        """Parameter against argument. The function itself is used at its own units, an earlier one at new ones."""
        if node.data < len(self.schemes):
            scheme = self.schemes[node.data]
            units = by_list([self.slot() for _ in range(scheme.vars)])
            params, result = [put(kind, units) for kind in scheme.params], put(scheme.result, units)
        else:
            params, result = self.own
        parts = [self.type(part, scope) for part in node.parts]
        name = self.program.functions[node.data].name
        for number, (param, part) in enumerate(zip(params, parts), 1):
            line = f"argument {number} of {name} must have the type of its parameter"
            self.agree(node.at, line, "parameter", param, "argument", part)
        return result

    def type_record(self, node: Expr, scope: list) -> tuple:
        """The declared types of the fields, at units that are left open, against the parts."""
        record = self.program.records[node.data]
        units = [self.slot() for _ in range(record.units)]
        parts = [self.type(part, scope) for part in node.parts]
        for (name, declared), part in zip(record.fields, parts):
            line = f"field {name} of this record must have its declared type"
            self.agree(node.at, line, "declared", put(declared, by_list(units)), "part", part)
        return ("rec", node.data, units)

    def type_field(self, node: Expr, scope: list) -> tuple:
        """The declared type at the record's units."""
        record, number = node.data
        part = self.type(node.parts[0], scope)
        return put(self.program.records[record].fields[number][1], by_list(part[2]))


def equations_of(program: Program, schemes: list[Scheme], function: Function) -> Equations:
    """The equations of a function, given the schemes of the functions before it."""
    return Former(program, schemes, function).form()
