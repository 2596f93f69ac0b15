"""Names: from the raw tree of a program to records and functions whose names are numbers.

By the section "Names" of docs/LANGUAGE.md: what is known at a place is what stands before, and the first fault in the
order of the text is answered.
"""
from __future__ import annotations

from grammar import Node
from notes import Expr, Function, NameFault, Program, Record, Types, Units, expression_variables, taken_once
from notes import type_variables


class Expressions:
    """Reads the expressions of a function's body."""

    def __init__(self, program: Program, function: Function) -> None:
        self.program, self.function = program, function
        self.callable = program.functions + ([function] if function.recursive else [])

    def read(self, node: Node, scope: list[str | None]) -> Expr:
        """The expression of a raw one, where these variables are known."""
        special = getattr(self, "read_" + node.kind, None)
        if special:
            return special(node, scope)
        return Expr(node.kind, node.at, [self.read(part, scope) for part in node.parts])

    def read_bracket(self, node: Node, scope: list) -> Expr:
        """Brackets leave nothing."""
        return self.read(node.parts[0], scope)

    def read_number(self, node: Node, scope: list) -> Expr:
        """A number. Its unit holds no variable, and zero alone may leave it open."""
        value, note = node.parts[0].value, {}
        if len(node.parts) > 1:
            if node.parts[1].kind == "hole" and value != 0:
                raise NameFault("hole", node.at, hole="only 0 has every unit")
            note = Types(self.program, [], None).note(node.parts[1])
        return Expr("number", node.at, [], value, note)

    def unknown(self, name: str, at: int, scope: list) -> NameFault:
        """The name is neither a variable nor a function."""
        candidates = [known for known in dict.fromkeys(scope) if known is not None]
        candidates += [function.name for function in self.callable if function.name not in candidates]
        return NameFault("unknown name", at, name=name, candidates=candidates, own=name == self.function.name)

    def read_call(self, node: Node, scope: list) -> Expr:
        """A call, or a variable or a function without arguments."""
        name, arguments = node.parts[0].text, node.parts[1] if len(node.parts) > 1 else []
        if name in scope:
            if arguments:
                raise NameFault("wrong count", node.at, counts=(0, len(arguments)))
            return Expr("local", node.at, [], len(scope) - 1 - scope[::-1].index(name), name)
        for number, function in enumerate(self.callable):
            if function.name == name:
                if len(function.params) != len(arguments):
                    raise NameFault("wrong count", node.at, counts=(len(function.params), len(arguments)))
                return Expr("call", node.at, [self.read(part, scope) for part in arguments], number)
        raise self.unknown(name, node.at, scope)

    read_name = read_call

    def read_pown(self, node: Node, scope: list) -> Expr:
        """A whole power; `rootn` is one with a `-`."""
        power = int(node.parts[1].text)
        return Expr("pown", node.at, [self.read(node.parts[0], scope)], power if node.kind == "pown" else -power)

    read_rootn = read_pown

    def read_let(self, node: Node, scope: list) -> Expr:
        """A local definition."""
        value = self.read(node.parts[1], scope)
        return Expr("let", node.at, [value, self.read(node.parts[2], scope + [bound(node.parts[0])])])

    def read_match(self, node: Node, scope: list) -> Expr:
        """The two arms of a list. The names of the second arm are looked at after the first arm."""
        value, _, empty, head, tail, full = node.parts
        parts = [self.read(value, scope), self.read(empty, scope)]
        if bound(head) is not None and bound(head) == bound(tail):
            raise NameFault("declared twice", tail.at, earlier=head.at)
        return Expr("match", node.at, parts + [self.read(full, scope + [bound(head), bound(tail)])])

    def read_nil(self, node: Node, scope: list) -> Expr:
        """The empty list of a written type."""
        note = Types(self.program, self.function.variables, None).read(node.parts[0])
        return Expr("nil", node.at, [], None, note)

    def read_items(self, node: Node, scope: list) -> Expr:
        """A list with its items."""
        return Expr("items", node.at, [self.read(part, scope) for part in node.parts[0]])

    def read_record(self, node: Node, scope: list) -> Expr:
        """A record text: all its names are known, and are those of one record in order."""
        names = [part.parts[0].text for part in node.parts[0]]
        for part in node.parts[0]:
            self.field(part.parts[0].text, part.at)
        number = self.program.field_of(names[0])[0]
        fields = [name for name, _ in self.program.records[number].fields]
        if fields != names:
            raise NameFault("wrong count", node.at, fields=(fields, names))
        return Expr("record", node.at, [self.read(part.parts[1], scope) for part in node.parts[0]], number)

    def field(self, name: str, at: int) -> tuple[int, int]:
        """The record and the number of a field."""
        found = self.program.field_of(name)
        if found is None:
            raise NameFault("unknown name", at, name=name, candidates=self.program.names("field"))
        return found

    def read_field(self, node: Node, scope: list) -> Expr:
        """A field of a record."""
        part = self.read(node.parts[0], scope)
        return Expr("field", node.at, [part], self.field(node.parts[1].text, node.parts[1].start))


def bound(binder: Node) -> str | None:
    """The name that is bound; nothing for `_`."""
    return binder.parts[0].text if binder.parts else None


# ---- declarations


def unit_parameters(nodes: list[Node]) -> list[str]:
    """The names of unit parameters, each once."""
    places: dict[tuple[str, str], int] = {}
    for node in nodes:
        taken_once("unit parameter", node.parts[-1].text, node.at, places)
    return [name for _, name in places]


def read_struct(program: Program, node: Node) -> None:
    """A record. A field's name is taken before its type is read, and no type has a hole."""
    name, params, fields = node.parts
    program.declare("type", name.text, node.at)
    names = unit_parameters(params)
    record = Record(name.text, node.at, len(names), [])
    types = Types(program, names, "a field's type has no hole")
    for part in fields:
        program.declare("field", part.parts[0].text, part.at)
        record.fields.append((part.parts[0].text, types.read(part.parts[1])))
    program.records.append(record)


def read_function(program: Program, node: Node) -> None:
    """A function: its name, its unit parameters, its parameters in order, its result and its body."""
    name, units, params, *others = node.parts
    program.declare("function", name.text, node.at)
    function = Function(name.text, node.at, node.kind == "rec")
    names = unit_parameters(units)
    written = [text for param in params for text in type_variables(param.parts[1])]
    written += [text for text in (type_variables(others[0]) if len(others) > 1 else [])]
    function.units = len(names)
    function.variables = list(dict.fromkeys(names + written + expression_variables(others[-1])))
    types = Types(program, function.variables, None)
    places: dict[tuple[str, str], int] = {}
    for param in params:
        binder = bound(param.parts[0])
        if binder is not None:
            taken_once("parameter", binder, param.parts[0].at, places)
        function.params.append(types.read(param.parts[1]))
        function.binders.append(binder)
    if len(others) > 1:
        function.result = types.read(others[0])
    function.body = Expressions(program, function).read(others[-1], list(function.binders))
    program.functions.append(function)


def program_of(tree: Node) -> Program:
    """The program of a raw tree, or its first NameFault."""
    program = Program()
    for node in tree.parts[0]:
        name = node.parts[1].text if node.kind in ("base", "short") else None
        if node.kind == "base":
            program.declare("type", name, node.at)
            program.bases.append(name)
        elif node.kind == "short":
            program.declare("type", name, node.at)
            program.shorts[name] = Units(program, []).read(node.parts[2])
        elif node.kind == "struct":
            read_struct(program, node)
        else:
            read_function(program, node)
    return program


def signature_types(program: Program, nodes: list[Node]) -> tuple[list[tuple], int]:
    """The types of a signature text and the number of its unit variables. Names come before ranges."""
    names = list(dict.fromkeys(name for node in nodes for name in type_variables(node)))
    for ranges in (False, True):
        types = Types(program, names, "a signature has no hole", ranges)
        read = [types.read(node) for node in nodes]
    return read, len(names)
