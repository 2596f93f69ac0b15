"""The commands: words and bytes to an answer and a status."""
from __future__ import annotations

import os
import sys
from collections.abc import Callable
from typing import Any

from annot import annotated
from batch import answered
from big import big_text
from calls import input_value, read_call, shown_value
from conform import conform
from explain import explained
from front import MOST_TEXT, Report, Source, parse, read_text, typed
from image import execute
from image_form import image_of
from layout import layout
from machine import Machine, compiled, listing
from meaning import Meaning, Stop
from prove import prove
from scale import base_sizes, rescaled_inputs, rescaled_program, rescaled_text, sizes_of
from show import scheme_text
from showing import chosen_units, digits_of, look_up, shower
from tidy import tidied
from tracing import traced

Reader = Callable[[], bytes]


def answer_types(source: Source) -> str:
    """A line for each function."""
    lines = zip(source.program.functions, source.schemes)
    return "".join(scheme_text(function.name, scheme, source.program) + "\n" for function, scheme in lines)


def parsed(data: bytes) -> Source:
    """The raw tree of the bytes."""
    source = Source()
    read_text(source, data)
    parse(source)
    return source


def budget_of(word: str) -> int:
    """A budget: one to eight digits, at most 10,000,000."""
    if not (word.isascii() and word.isdigit() and len(word) <= 8 and int(word) <= 10_000_000):
        raise Report(1, "usage")
    return int(word)


def stopped(stop: Stop) -> Report:
    """The report line of a run without a value."""
    return Report(13, "budget") if stop.kind == "budget" else Report(12, stop.kind)


def answer_call(command: str, budget: int, name: str, texts: list[str], source: Source, **how: Any) -> str:
    """The value of a call: `eval` by the tree, all others by the code."""
    program = source.program
    call = read_call(program, source.schemes, name, texts)
    code = compiled(program)
    machine = Machine(code.code, code.entries, budget)
    runner = Meaning(program, budget).call if command == "eval" else machine.run
    try:
        value = runner(call.function, call.values())
    except Stop as stop:
        raise stopped(stop) from None
    steps = f"steps {machine.steps}\n" if command == "steps" else ""
    return shown_value(program, value, call.type, **how) + "\n" + steps


def answer_rescale(sizes: dict, source: Source) -> str:
    """The text with its numbers in other sizes."""
    return rescaled_text(source, rescaled_program(source, base_sizes(source.program, sizes)))


def answer_twin(budget: int, sizes: dict, name: str, texts: list[str], source: Source) -> str:
    """The value of a call, and that of the same call in other sizes."""
    bases = base_sizes(source.program, sizes)
    call = read_call(source.program, source.schemes, name, texts)
    other = rescaled_program(source, bases)
    inputs = [input_value(node) for node in rescaled_inputs(call.inputs, bases)]
    values = []
    for run, program, arguments in (("first", source.program, call.values()), ("second", other, inputs)):
        try:
            code = compiled(program)
            values.append(Machine(code.code, code.entries, budget).run(call.function, arguments))
        except Stop as stop:
            raise Report(13, "budget") if stop.kind == "budget" else Report(12, f"{run} run: {stop.kind}") from None
    return "".join(shown_value(source.program, value, call.type) + "\n" for value in values)


def answer_show(digits: int, word: str, budget: int, name: str, texts: list[str], read: Reader) -> str:
    """The value of a call with its numbers in decimals and in chosen units."""
    chosen = chosen_units(word)
    source = typed(read())
    look_up(source.program, chosen)
    return answer_call("run", budget, name, texts, source, number=shower(chosen, digits))


def answer_big(count: int) -> str:
    """Four lines on a generated program."""
    source = typed(big_text(count).encode())
    lines = answer_types(source).splitlines()
    run = answer_call("run", 10_000_000, f"g{count - 1}", ["1<m>", "1<s>"], source)
    different = len({line.partition(" : ")[2] for line in lines})
    return f"functions {count}\nschemes {different}\nlast {lines[-1]}\nrun {run}"


def count_of(word: str) -> int:
    """The number of functions of a generated program: one to four digits of value 1 to 2,000."""
    if not (word.isascii() and word.isdigit() and len(word) <= 4 and 1 <= int(word) <= 2000):
        raise Report(1, "usage")
    return int(word)


def answer_text(words: list[str], read: Reader) -> str | bytes | None:
    """The answer to a command of one word."""
    match words:
        case ["types"]:
            return answer_types(typed(read()))
        case ["fmt"]:
            return layout(parsed(read()).tree)
        case ["code"]:
            return listing(typed(read()).program)
        case ["prove"]:
            return prove(typed(read(), True))
        case ["image"]:
            return image_of(typed(read()))
        case ["explain"]:
            return explained(read(), answer_types)
        case ["annot"]:
            return annotated(typed(read()))
        case ["tidy"]:
            return tidied(parsed(read()))
    return None


def answer_words(words: list[str], read: Reader) -> str | bytes | None:
    """The answer to a command with words of its own. What the words alone decide is looked at before the text."""
    match words:
        case [("run" | "steps" | "eval") as command, budget, name, *texts]:
            limit = budget_of(budget)
            return answer_call(command, limit, name, texts, typed(read()))
        case ["exec", budget, name, *texts]:
            limit = budget_of(budget)
            return execute(read(), limit, name, texts)
        case ["trace", budget, name, *texts]:
            limit = budget_of(budget)
            return traced(limit, name, texts, typed(read()))
        case ["calls", budget]:
            limit = budget_of(budget)
            return answered(read(), lambda words, source: answer_call("run", limit, words[0], words[1:], source))
        case ["show", digits, word, budget, name, *texts]:
            return answer_show(digits_of(digits), word, budget_of(budget), name, texts, read)
        case ["conform", name, text]:
            source = typed(read())
            return conform(source.program, source.schemes, name, text)
        case ["rescale", word]:
            sizes = sizes_of(word)
            return answer_rescale(sizes, typed(read()))
        case ["twin", budget, word, name, *texts]:
            limit, sizes = budget_of(budget), sizes_of(word)
            return answer_twin(limit, sizes, name, texts, typed(read()))
        case ["big", number]:
            return answer_big(count_of(number))
    return None


def answer(words: list[str], read: Reader) -> str | bytes:
    """The answer to the words, or a Report."""
    if any(len(word.encode()) > MOST_TEXT for word in words):
        raise Report(1, "usage")
    text = answer_text(words, read)
    text = answer_words(words, read) if text is None else text
    if text is None:
        raise Report(1, "usage")
    return text


def main() -> None:
    """Answers the command line."""
    sys.setrecursionlimit(10**9)
    words = [os.fsencode(word) for word in sys.argv[1:]]
    try:
        text, status = answer([word.decode() for word in words], sys.stdin.buffer.read), 0
    except UnicodeDecodeError:
        text, status = "error 1: usage\n", 1
    except Report as report:
        text, status = report.line + "\n", report.status
    data = text if isinstance(text, bytes) else text.encode()
    try:
        sys.stdout.buffer.write(data)
        sys.stdout.buffer.flush()
    except OSError:
        os._exit(16)
    sys.exit(status)
