"""The commands that make one call: run, eval, steps, trace, show, twin and exec."""
import argparse
import re
from typing import Any

from umc import places, printed, reports
from umc.arguments import Argument, arguments, line_of_calls, source_of_calls
from umc.errors import UsageError, WordsTooLong
from umc.front import Front, unknown_words
from umc.limits import Limits
from umc.program import Answer, Program
from umc.reports import Report
from umc.similar import similar
from umc.texts import Text, gather, read
from umc.why import no_base_units, no_units, why, wrong_word

NO_UNITS = "-"
STOPPED = (12, 13)
TRACED = {**dict.fromkeys(("run", "eval", "steps"), "um trace with the same words says where"),
          "show": "um trace of the same call says where"}
IN_ARGUMENT = re.compile(r" at [0-9]+$")


def limits_of(args: argparse.Namespace) -> Limits:
    """The limits that the words name."""
    return Limits(args.limit_time, args.limit_memory, args.limit_output)


def words_before(args: argparse.Namespace) -> list[str]:
    """The words between the command and the function's name."""
    if args.command == "show":
        return [args.digits, ",".join(args.unit) or NO_UNITS, args.budget]
    if args.command == "twin":
        return [args.budget, args.sizes]
    return [args.budget]


def run(args: argparse.Namespace, front: Front) -> int:
    """Makes one call and tells its answer."""
    if args.command == "show":
        check_show(args)
    given = arguments(args.arguments, [*args.before, args.file])
    program = front.program
    text = Text([read(args.file)]) if args.command == "exec" else gather(args.file, args.before, program)
    words = [args.command, *words_before(args), args.function, *(part.text for part in given)]
    answer = ask(program, words, text, limits_of(args))
    if answer.status != 0:
        return _refuse(args, front, text, words, given, answer)
    output = answer.output.decode()
    if front.json:
        front.emit({"status": 0, "file": text.name, "function": args.function, **PARTS[args.command](output, text)})
    elif args.command == "trace":
        front.write(places.traced(output, text).encode())
    else:
        front.write(answer.output)
    return 0


def ask(program: Program, words: list[str], text: Text, limits: Limits) -> Answer:
    """The answer to a call. Where the system doesn't take the words, a line of `calls` does."""
    try:
        return program.ask(words, text.data, limits)
    except WordsTooLong as fault:
        if words[0] != "run":
            raise WordsTooLong(f"{fault.message}; um run takes longer ones") from fault
        if not program.has("calls"):
            raise WordsTooLong(f"{fault.message}, and this umc has no command 'calls', which would") from fault
    answer = program.ask(["calls", words[1]], source_of_calls(text.data, [line_of_calls(words[2:])]), limits)
    if answer.status != 0:
        alone = program.ask(["types"], text.data)
        return alone if alone.status != 0 else answer
    report = reports.parse(answer.output.decode("utf-8", "replace"))
    return Answer(report.status if report else 0, answer.output)


# ---- refusals of a call

def _refuse(args: argparse.Namespace, front: Front, text: Text, words: list[str], given: list[Argument],
            answer: Answer) -> int:
    report = answered = reports.of_answer(answer.status, answer.output)
    if report.status == 1:
        front.program.need(args.command)
        return front.refuse(text, report, notes=unknown_words(words))
    notes, place = wrong_word(words) if report.status == 2 else [], None
    if report.argument is not None:
        number, at = report.argument
        part = given[number - 1]
        if at is not None:
            place, notes = part.place(at), part.excerpt(at)
        if place is not None:
            report = Report(report.status, IN_ARGUMENT.sub("", report.message))
    if report.status == 11 and args.command != "exec":
        notes += _why(args, front.program, text, answered, given)
    if report.status in STOPPED and args.command in TRACED and front.program.has("trace"):
        notes.append(TRACED[args.command])
    return front.refuse(text, report, place, notes)


def _why(args: argparse.Namespace, program: Program, text: Text, report: Report, given: list[Argument]) -> list[str]:
    """Why a call is refused, and the type of its function."""
    if report.message == "no such base unit":
        return no_base_units(program.ask, text.data, args.sizes)
    if report.message in ("no such unit", "power range of the units"):
        return no_units(program.ask, text.data, args.unit)
    words = [args.function, *(part.text for part in given)]
    return [*why(program.ask, text.data, report, words), *about_function(program, text, args.function)]


def about_function(program: Program, text: Text, name: str) -> list[str]:
    """The scheme of a function, or the names of functions that are like an unknown one."""
    answer = program.ask(["types"], text.data)
    lines = answer.output.decode().splitlines() if answer.status == 0 else []
    schemes = dict((line.partition(" : ")[0], line) for line in lines)
    if name in schemes:
        return [schemes[name]]
    found = similar(name, list(schemes))
    return [f"similar: {' '.join(found)}"] if found else []


# ---- answers by their parts

def _value(output: str, text: Text) -> dict[str, Any]:
    line = output.removesuffix("\n")
    return {"value": printed.value(line), "text": line}


def _steps(output: str, text: Text) -> dict[str, Any]:
    line, steps = output.splitlines()
    return {**_value(line, text), "steps": int(steps.removeprefix("steps "))}


def _twin(output: str, text: Text) -> dict[str, Any]:
    first, second = output.splitlines()
    return {"first": _value(first, text), "second": _value(second, text)}


def _show(output: str, text: Text) -> dict[str, Any]:
    line = output.removesuffix("\n")
    return {"value": printed.value(line, printed.decimal), "text": line}


def _trace(output: str, text: Text) -> dict[str, Any]:
    first, *lines = output.removesuffix("\n").split("\n")
    report = reports.parse(first)
    if report is None:
        return _value(output, text)
    tree: dict[str, Any] = {"kind": report.kind, "message": report.message}
    if report.line is None or report.column is None:
        return tree
    place = text.place(report.line, report.column)
    return {**tree, "in": report.function, "place": {"file": place.file, "line": place.line, "column": place.column},
            "explanation": places.explanation(lines, text, place)}


PARTS = {"run": _value, "eval": _value, "exec": _value, "steps": _steps, "twin": _twin, "show": _show,
         "trace": _trace}


def check_show(args: argparse.Namespace) -> None:
    """Raises UsageError for a unit that can't be one of several."""
    for part in args.unit:
        if part in ("", NO_UNITS):
            raise UsageError("--unit takes a unit, as J, or a size with a name, as 'ft=0.3048<m>'")
