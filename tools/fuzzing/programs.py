"""Generated programs, well typed around an intended typing: each expression is made for a type that is wanted.

A type is `bool`, `("num", unit)`, `("list", type)` or `("rec", name, units)`; a unit is a map from names to powers, in
which a name with a quote is a unit variable.
"""
from __future__ import annotations

import random
from collections.abc import Sequence
from dataclasses import dataclass, field

Unit = dict
Kind = str | tuple  # a type
NAMES = "x y z w k len sum rest item".split()


@dataclass
class Function:
    """A function: its name and the intended types of its parameters and its result."""

    name: str
    params: list[Kind]
    result: Kind
    text: str = ""


@dataclass
class Program:
    """Declarations, and what a call needs to know of them."""

    bases: list[str] = field(default_factory=list)
    shorts: dict[str, Unit] = field(default_factory=dict)
    records: dict[str, tuple[list[str], list[tuple[str, Kind]]]] = field(default_factory=dict)
    functions: list[Function] = field(default_factory=list)
    lines: list[str] = field(default_factory=list)

    @property
    def text(self) -> str:
        """The program's text."""
        return "\n".join(self.lines) + "\n"


def mul(left: Unit, right: Unit, times: int = 1) -> Unit:
    """A unit times another to a power."""
    product = dict(left)
    for name, power in right.items():
        product[name] = product.get(name, 0) + times * power
    return {name: power for name, power in product.items() if power}


def put_unit(unit: Unit, units: dict[str, Unit]) -> Unit:
    """The unit with units in the place of variables."""
    product: Unit = {}
    for name, power in unit.items():
        product = mul(product, units.get(name, {name: 1}), power)
    return product


def put(kind: Kind, units: dict[str, Unit]) -> Kind:
    """The type with units in the place of variables."""
    if kind == "bool":
        return kind
    if kind[0] == "num":
        return ("num", put_unit(kind[1], units))
    if kind[0] == "list":
        return ("list", put(kind[1], units))
    return ("rec", kind[1], [put_unit(unit, units) for unit in kind[2]])


class Maker:
    """Makes one program."""

    def __init__(self, rng: random.Random) -> None:
        self.rng, self.program, self.fresh = rng, Program(), 0

    def chance(self, part: float) -> bool:
        """True in this part of the cases."""
        return self.rng.random() < part

    # ---- units and types

    def unit(self, variables: Sequence[str] = ()) -> Unit:
        """A small unit."""
        unit: Unit = {}
        for _ in range(self.rng.choice([0, 1, 1, 1, 2, 2, 3])):
            name = self.rng.choice(self.program.bases + list(variables))
            unit = mul(unit, {name: self.rng.choice([1, 1, 1, -1, 2, -2, 3])})
        return unit

    def unit_text(self, unit: Unit) -> str:
        """A text of a unit, in one of many spellings."""
        if not unit:
            return "1"
        names = list(unit)
        self.rng.shuffle(names)
        power = lambda name, value: name + (f"^{value}" if value != 1 else self.rng.choice(["", "", "^1"]))
        if self.chance(0.3):
            return self.rng.choice([" ", "*"]).join(power(name, unit[name]) for name in names)
        above = [power(name, unit[name]) for name in names if unit[name] > 0]
        below = ["/" + power(name, -unit[name]) for name in names if unit[name] < 0]
        text = " ".join(above) + "".join(below)
        return f"({text})" if self.chance(0.05) else text

    def short(self, unit: Unit) -> str:
        """The text of a unit, with an abbreviation if there is one."""
        for name, known in self.program.shorts.items():
            if known == unit and self.chance(0.7):
                return name
            if self.chance(0.1):
                return name + " " + self.unit_text(mul(unit, known, -1)).replace("/", "*1/")
        return self.unit_text(unit)

    def note(self, unit: Unit, open_part: float) -> str:
        """A unit in angle brackets, or left open, or nothing."""
        if self.chance(open_part):
            return "<_>"
        return "" if not unit and self.chance(0.8) else f"<{self.short(unit)}>"

    def type_text(self, kind: Kind, open_part: float) -> str:
        """The text of a type, in which some units are left open."""
        if kind == "bool":
            return "bool"
        if kind[0] == "num":
            return "num" + self.note(kind[1], open_part)
        if kind[0] == "list":
            inner = self.type_text(kind[1], open_part)
            return (f"({inner})" if self.chance(0.1) else inner) + " list"
        units = ["_" if self.chance(open_part) else self.short(unit) for unit in kind[2]]
        return kind[1] + (f"<{', '.join(units)}>" if units else "")

    def type(self, variables: list[str], depth: int = 2) -> Kind:
        """A small type."""
        choice = self.rng.random()
        if choice < 0.65 or depth == 0:
            return ("num", self.unit(variables))
        if choice < 0.72:
            return "bool"
        if choice < 0.88 or not self.program.records:
            return ("list", self.type(variables, depth - 1))
        name = self.rng.choice(list(self.program.records))
        return ("rec", name, [self.unit(variables) for _ in self.program.records[name][0]])

    # ---- declarations

    def declare(self) -> Program:
        """The whole program."""
        program = self.program
        program.bases = self.rng.sample(["m", "s", "kg", "A", "ft"], self.rng.choice([1, 2, 2, 3]))
        program.lines += [f"[<Measure>] type {name}" for name in program.bases]
        for name in self.rng.sample(["N", "J", "hour"], self.rng.choice([0, 0, 1, 2])):
            unit = self.unit()
            program.lines.append(f"[<Measure>] type {name} = {self.unit_text(unit)}")
            program.shorts[name] = unit
        for name in self.rng.sample(["V", "Body"], self.rng.choice([0, 0, 1, 2])):
            self.record(name)
        for number in range(self.rng.choice([1, 1, 2, 2, 3, 4])):
            self.function(f"f{number}" if self.chance(0.8) else f"{self.rng.choice(NAMES)}_{number}")
        return program

    def record(self, name: str) -> None:
        """A record."""
        variables = self.rng.sample(["'u", "'v"], self.rng.choice([0, 1, 1, 2]))
        fields = [(f"{name.lower()}{number}", self.type(variables, 1)) for number in range(self.rng.choice([1, 2, 3]))]
        params = ", ".join(f"[<Measure>] {variable}" for variable in variables)
        parts = "; ".join(f"{part}: {self.type_text(kind, 0)}" for part, kind in fields)
        self.program.lines.append(f"type {name}{f'<{params}>' if params else ''} = {{ {parts} }}")
        self.program.records[name] = (variables, fields)

    def function(self, name: str) -> None:
        """A function of one of several forms."""
        variables = self.rng.choice([[], [], ["'u"], ["'u", "'v"]])
        declared = [variable for variable in variables if self.chance(0.3)]
        open_part = 0 if declared else self.rng.choice([0, 0, 0.3, 0.6, 1])
        params = [self.type(variables) for _ in range(self.rng.choice([0, 1, 1, 2, 2, 3]))]
        result = self.type(variables)
        scope = list(zip(self.rng.sample(NAMES, len(params)), params))
        recursive = self.chance(0.25)
        depth = self.rng.choice([1, 2, 3, 4])
        body = self.recursion(name, scope, result) if recursive else self.expr(result, scope, depth)
        heads = [f"({binder if self.chance(0.95) or binder in body else '_'}: {self.type_text(kind, open_part)})"
                 for binder, kind in scope]
        units = ", ".join(f"[<Measure>] {variable}" for variable in declared)
        noted = f" : {self.type_text(result, open_part)}" if recursive or self.chance(0.3) else ""
        text = f"let {'rec ' if recursive else ''}{name}{f'<{units}>' if units else ''}"
        self.program.lines.append(" ".join([text, *heads]) + f"{noted} = {body}")
        self.program.functions.append(Function(name, params, result))

    def recursion(self, name: str, scope: list, result: Kind) -> str:
        """A body that calls its own function, on the rest of a list or after a condition."""
        own = lambda change: " ".join([name] + [self.atom(change(binder)) for binder, _ in scope])
        lists = [(binder, kind) for binder, kind in scope if kind != "bool" and kind[0] == "list"]
        base = self.expr(result, scope, 1)
        if lists and scope:
            binder, kind = self.rng.choice(lists)
            inner = scope + [("h", kind[1]), ("t", kind)]
            call = own(lambda other: "t" if other == binder else other)
            step = self.joined(result, call, inner)
            return f"match {binder} with [] -> {base} | h :: t -> {step}"
        counters = [binder for binder, kind in scope if kind == ("num", {})]
        if counters:
            binder = counters[0]
            call = own(lambda other: f"({other} - 1)" if other == binder else other)
            return f"if {binder} < 1 then {base} else {self.joined(result, call, scope)}"
        return base if not scope else f"if {self.expr('bool', scope, 1)} then {base} else {own(lambda other: other)}"

    def joined(self, result: Kind, call: str, scope: list) -> str:
        """What is made of a recursive call."""
        if result != "bool" and result[0] == "num" and self.chance(0.7):
            return f"{self.atom(self.expr(result, scope, 1))} {self.rng.choice('+-')} {call}"
        if result != "bool" and result[0] == "list" and self.chance(0.7):
            return f"{self.atom(self.expr(result[1], scope, 1))} :: {call}"
        return call

    # ---- expressions

    def atom(self, text: str) -> str:
        """The text as an atom."""
        simple = text.replace("_", "").replace("'", "").isalnum() and text not in ("let", "if", "match")
        return text if simple and not self.chance(0.03) else f"({text})"

    def expr(self, kind: Kind, scope: list, depth: int) -> str:
        """An expression of a type."""
        if depth <= 0 or self.chance(0.15):
            return self.leaf(kind, scope)
        choice = self.rng.random()
        if choice < 0.1:
            parts = [self.expr(part, scope, depth - 1) for part in ("bool", kind, kind)]
            return "if {} then {} else {}".format(*parts)
        if choice < 0.2:
            other = self.type([], 1)
            name = self.rng.choice(NAMES + ["a", "b"])
            body = self.expr(kind, scope + [(name, other)], depth - 1)
            return f"let {name} = {self.expr(other, scope, depth - 1)} in {body}"
        if choice < 0.27:
            other = self.type([], 1)
            items = self.expr(("list", other), scope, depth - 1)
            body = self.expr(kind, scope + [("h", other), ("t", ("list", other))], depth - 1)
            return f"match {items} with [] -> {self.expr(kind, scope, depth - 1)} | h :: t -> {body}"
        if choice < 0.45:
            return self.call(kind, scope, depth) or self.leaf(kind, scope)
        if kind == "bool":
            return self.truth(scope, depth)
        return {"num": self.number, "list": self.items, "rec": self.value}[kind[0]](kind, scope, depth)

    def leaf(self, kind: Kind, scope: list) -> str:
        """A variable of the type, or a text without parts."""
        known = {name: other for name, other in scope}
        names = [name for name, other in known.items() if other == kind]
        if names and self.chance(0.8):
            return self.rng.choice(names)
        if kind == "bool":
            return self.rng.choice(["true", "false"])
        if kind[0] == "num":
            if any(name.startswith("'") for name in kind[1]) or self.chance(0.1):
                return "0<_>"
            return self.literal() + self.note(kind[1], 0)
        if kind[0] == "list":
            return f"([] : {self.type_text(kind, 0.3)})" if self.chance(0.5) else f"[{self.leaf(kind[1], scope)}]"
        return self.value(kind, scope, 0)

    def literal(self) -> str:
        """The text of a number."""
        small = str(self.rng.randint(0, 12))
        others = ["2.50", "1r3", "0.1", "7r2", "9223372036854775807", "1r3037000500"]
        return self.rng.choice([small] * 3 + others)

    def truth(self, scope: list, depth: int) -> str:
        """A truth value."""
        choice = self.rng.random()
        if choice < 0.6:
            kind = ("num", self.rng.choice([self.unit(), {}]))
            return self.between(kind, self.rng.choice(["<", "<=", "=", "<>", ">", ">="]), kind, scope, depth)
        if choice < 0.8:
            return f"not {self.atom(self.expr('bool', scope, depth - 1))}"
        return self.between("bool", self.rng.choice(["&&", "||"]), "bool", scope, depth)

    def between(self, left: Kind, sign: str, right: Kind, scope: list, depth: int) -> str:
        """A sign between two operands of these types."""
        return f"{self.atom(self.expr(left, scope, depth - 1))} {sign} {self.atom(self.expr(right, scope, depth - 1))}"

    def number(self, kind: Kind, scope: list, depth: int) -> str:
        """A number at a unit: a sum, a product of two units, a power, a negation, a field."""
        unit, choice = kind[1], self.rng.random()
        part = lambda other: self.atom(self.expr(("num", other), scope, depth - 1))
        if choice < 0.4:
            return f"{part(unit)} {self.rng.choice('+-')} {part(unit)}"
        if choice < 0.75:
            known = [other[1] for _, other in scope if other != "bool" and other[0] == "num"]
            other = self.rng.choice(known + [self.unit(), {}])
            if self.chance(0.5):
                return f"{part(other)} * {part(mul(unit, other, -1))}"
            return f"{part(mul(unit, other))} / {part(other)}"
        if choice < 0.85:
            power = self.rng.choice([2, 2, 3, -1, -2, 0, 1])
            if power and all(value % power == 0 for value in unit.values()):
                base = {name: value // power for name, value in unit.items()}
                return f"pown {part(base)} {power if power >= 0 else f'({power})'}"
        if choice < 0.92:
            return f"-{part(unit)}"
        return self.field(kind, scope, depth) or part(unit)

    def field(self, kind: Kind, scope: list, depth: int) -> str | None:
        """A field of the type, of a record in the scope."""
        for name, other in scope:
            if other != "bool" and other[0] == "rec":
                variables, fields = self.program.records[other[1]]
                for part, declared in fields:
                    if put(declared, dict(zip(variables, other[2]))) == kind:
                        return f"{name}.{part}"
        return None

    def items(self, kind: Kind, scope: list, depth: int) -> str:
        """A list."""
        if self.chance(0.4):
            return self.between(kind[1], "::", kind, scope, depth)
        count = self.rng.choice([1, 1, 2, 3])
        return "[" + "; ".join(self.expr(kind[1], scope, depth - 1) for _ in range(count)) + "]"

    def value(self, kind: Kind, scope: list, depth: int) -> str:
        """A record text."""
        variables, fields = self.program.records[kind[1]]
        units = dict(zip(variables, kind[2]))
        parts = [f"{name} = {self.expr(put(declared, units), scope, depth - 1)}" for name, declared in fields]
        return "{ " + "; ".join(parts) + " }"

    def call(self, kind: Kind, scope: list, depth: int) -> str | None:
        """A call of an earlier function whose intended result is the type at some units."""
        for function in self.rng.sample(self.program.functions, len(self.program.functions)):
            units = {"'u": self.unit(), "'v": self.unit()}
            if kind != "bool" and kind[0] == "num" and function.result != "bool" and function.result[0] == "num":
                rest = [name for name, power in function.result[1].items() if name in units and abs(power) == 1]
                if rest:
                    name = rest[0]
                    others = put_unit({n: p for n, p in function.result[1].items() if n != name}, units)
                    units[name] = mul({}, mul(kind[1], others, -1), function.result[1][name])
            if put(function.result, units) == kind:
                parts = [self.atom(self.expr(put(param, units), scope, depth - 2)) for param in function.params]
                return " ".join([function.name] + parts)
        return None


def program(rng: random.Random) -> Program:
    """A generated program."""
    return Maker(rng).declare()
