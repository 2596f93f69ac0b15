"""`trace`: the answer of `run`, and where and how a run without a value stopped."""
from __future__ import annotations

from calls import read_call, shown_value
from explain import excerpt
from front import Source
from lexer import line_and_column
from meaning import Meaning, Stop
from show import number_text

MOST_CALLS = 10


def open_calls(source: Source, meaning: Meaning) -> list[str]:
    """The calls that were open, the innermost first. The command's own call is none of them."""
    functions = source.program.functions
    lines = []
    for (caller, _), (_, node) in reversed(list(zip(meaning.open, meaning.open[1:]))):
        lines.append(f"called from {functions[caller].name} at {line_and_column(source.text, node.at)}")
    rest = len(lines) - MOST_CALLS
    return lines[:MOST_CALLS] + ([f"and {rest} more"] if rest > 0 else [])


def traced(budget: int, name: str, texts: list[str], source: Source) -> str:
    """The value of a call, or the place at which its run stopped."""
    call = read_call(source.program, source.schemes, name, texts)
    meaning = Meaning(source.program, budget)
    try:
        return shown_value(source.program, meaning.call(call.function, call.values()), call.type) + "\n"
    except Stop as stop:
        line = "error 13: budget" if stop.kind == "budget" else f"error 12: {stop.kind}"
        if meaning.stopped is None:
            return line + "\n"
        at, inside = meaning.stopped.at, source.program.functions[meaning.open[-1][0]].name
        words = ["base"] if len(stop.operands) == 1 else ["left", "right"]
        lines = [f"{line} in {inside} at {line_and_column(source.text, at)}"] + excerpt(source, at)
        lines += [f"  {word}: {number_text(value)}" for word, value in zip(words, stop.operands)]
        return "".join(line + "\n" for line in lines + open_calls(source, meaning))
