"""`annot`: the answer of `types`, and after each function the type of each node of its body."""
from __future__ import annotations

from equations import Formed, equations_of
from front import Source
from lexer import line_and_column
from notes import Expr, Function
from show import scheme_text, type_text
from solving import Refusal, generalised, numbering, renumbered, solution_of
from units import by_list, put, type_fits

BINARY = ("+", "-", "*", "/", "<", "<=", "=", "<>", ">", ">=", "&&", "||", "::")


def in_order(node: Expr) -> list[Expr]:
    """The nodes in the order of their places: a sign stands between its parts, a field after its part."""
    parts = [in_order(part) for part in node.parts]
    if node.kind in BINARY:
        return parts[0] + [node] + parts[1]
    rest = [inner for part in parts for inner in part]
    return rest + [node] if node.kind == "field" else [node] + rest


def node_lines(source: Source, number: int, function: Function) -> list[str]:
    """The lines of a function's nodes. All types of the function are numbered together."""
    equations = equations_of(source.program, source.schemes[:number], function)
    units = solution_of(source.program, function, equations)
    formed = {id(step.node): step.type for step in equations.steps if isinstance(step, Formed) and step.node}
    nodes = in_order(function.body)
    types = [put(kind, by_list(units)) for kind in equations.params + [equations.result]]
    for node in nodes:
        types.append(put(formed[id(node)], by_list(units)))
        if not type_fits(types[-1]):
            raise source.report(10, f"power range of {function.name}", node.at, Refusal("range", node.at))
    types = generalised(source.program, function, equations.slots, types)
    types = renumbered(types, numbering(types))[len(equations.params) + 1:]
    return [f"  {line_and_column(source.text, node.at)} {type_text(kind, source.program)}"
            for node, kind in zip(nodes, types)]


def annotated(source: Source) -> str:
    """Each function's line, and the lines of its nodes."""
    lines = []
    for number, (function, scheme) in enumerate(zip(source.program.functions, source.schemes)):
        lines.append(scheme_text(function.name, scheme, source.program))
        lines += node_lines(source, number, function)
    return "".join(line + "\n" for line in lines)
