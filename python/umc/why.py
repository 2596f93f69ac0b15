"""Why a call is refused: the program is asked to explain a function that makes this call."""
import os
import re
from collections.abc import Callable, Sequence

from umc import printed, reports
from umc.program import Answer
from umc.reports import Report
from umc.unseen import unseen_sign

Ask = Callable[[Sequence[str], bytes], Answer]  # puts words and a text to the program
MOST_OF_WORD = 1 << 20  # bytes
UNKNOWN_NAME = "unknown name"
EXCERPT = 2  # how many lines of an explanation show the place
SINCE = "since"  # the line before other places, which are places of a text that nobody wrote
# What is wrong with a call, and the statuses of a function that is refused for the same cause.
CAUSES = {"text": (4,), "shape": (7, 8), "name": (7,), "power range": (10,), "units of the arguments": (9,),
          "wrong number of arguments": (7,)}
WRONG = re.compile(r"(?:argument [0-9]+, |signature, )?([a-z ]+?)(?: at [0-9]+)?")
FORMS = {"num": "a number, as 2, 0.5<kg> or -7r2<m/s>", "bool": "true or false", "list": "a list, as [1<m>; 2<m>]",
         "record": "a record with all its fields in order, as { x = 1<m>; y = 2 }"}
FIELDS = "expected: "  # before the fields of a record
SIGNATURE_FORM = "a signature has the types of the parameters and of the result, as num<m> -> num<s> -> num<m/s>"


def why(ask: Ask, text: bytes, report: Report, words: Sequence[str]) -> list[str]:
    """What is known of the cause of a refused call. The words are the function and its arguments.

    An argument may be wrong and yet be an expression, such as `1/3`. Then it is told how an argument is written.
    """
    wrong = WRONG.fullmatch(report.message)
    if report.status != 11 or wrong is None or wrong[1] not in CAUSES:
        return []
    pieces = [f"{words[0]}\n", *(f"({word}\n)\n" for word in words[1:])]  # a comment in an argument ends with its line
    refused, lines = _explained(ask, text, pieces)
    if refused and refused.status in CAUSES[wrong[1]] and _is_there(refused, pieces, report.argument):
        if wrong[1] != "shape" or refused.status == 8 or lines[:1] and lines[0].startswith(FIELDS):
            return [*_told(refused, lines), *(_sign(report, words) if wrong[1] == "text" else [])]
    return _form(ask, text, report, words[0]) if wrong[1] == "shape" else []


def why_signature(ask: Ask, text: bytes, report: Report, types: str) -> list[str]:
    """What is known of the cause of a refused signature: its types are explained as those of empty lists."""
    wrong = WRONG.fullmatch(report.message)
    if wrong and wrong[1] == "syntax":
        return [SIGNATURE_FORM]
    pieces = [f"let _ = ([] : ({part}\n) list) in\n" for part in types.split("->")]
    refused, lines = _explained(ask, text, [*pieces, "0"])
    if wrong is None or refused is None or refused.status not in CAUSES.get(wrong[1], ()):
        return []
    return _told(refused, lines)


def wrong_word(words: Sequence[str]) -> list[str]:
    """What is said of a word that the program takes in no place: one that is too long, or no UTF-8."""
    for word in map(os.fsencode, words):
        if len(word) > MOST_OF_WORD:
            return [f"an argument has at most {MOST_OF_WORD:,} bytes, and this one has {len(word):,}"]
        try:
            word.decode("utf-8")
        except UnicodeDecodeError:
            return ["an argument isn't UTF-8"]
    return []


def no_units(ask: Ask, text: bytes, units: Sequence[str]) -> list[str]:
    """Which of the units that `show` was given is refused, and why."""
    for unit in units:
        refused, lines = _explained(ask, text, [unit.partition("=")[2] or f"1<{unit}>"])
        if refused:
            return [f"{unit}: {refused.message}", *lines]
    return []


def no_base_units(ask: Ask, text: bytes, sizes: str) -> list[str]:
    """Which names of sizes are no base units, and why."""
    told = []
    for name in [part.partition("=")[0] for part in sizes.split(",")]:
        if ask(["rescale", f"{name}=1"], text).status == 11:
            refused, lines = _explained(ask, text, [f"1<{name}>"])
            told += [f"{name}: {refused.message}", *lines] if refused else [
                f"{name} stands for other units, and has no size of its own"]
    return told


def _told(refused: Report, lines: list[str]) -> list[str]:
    """What is told of a cause. Of an unknown name `explain` has nothing to say unless there are similar ones."""
    return [UNKNOWN_NAME, *lines] if refused.message == UNKNOWN_NAME else lines


def _sign(report: Report, words: Sequence[str]) -> list[str]:
    """What is told of the character at the place in an argument that a report names."""
    number, at = report.argument or (0, None)
    return unseen_sign(words[number][at - 1:at]) if at is not None and number < len(words) else []


def _explained(ask: Ask, text: bytes, pieces: Sequence[str]) -> tuple[Report | None, list[str]]:
    """How one more function, whose body is these pieces, is refused, and what `explain` says of the cause.

    The line of the report is counted in the body, from 1.
    """
    before = text if text.endswith(b"\n") else text + b"\n"
    body = os.fsencode("".join(pieces))
    name = b"call"
    while name in before or name in body:
        name += b"_"
    answer = ask(["explain"], before + b"let " + name + b" =\n" + body + b"\n")
    first, *lines = answer.output.decode("utf-8", "replace").removesuffix("\n").split("\n")
    refused = reports.parse(first)
    if refused is None or refused.line is None:
        return None, []
    line = refused.line - before.count(b"\n") - 1
    told = lines[EXCERPT:lines.index(SINCE) if SINCE in lines else None]
    return Report(refused.status, refused.message, line, refused.column), told


def _is_there(refused: Report, pieces: Sequence[str], argument: tuple[int, int | None] | None) -> bool:
    """Whether a refusal is that of the call itself, or stands in this argument, if there is one."""
    line = refused.line or 0
    if argument is None:
        return line >= 1
    if line == 1:
        return refused.status == 8  # the shape of an argument is looked at where it is called
    start = sum(piece.count("\n") for piece in pieces[:argument[0]])
    return start < line <= start + pieces[argument[0]].count("\n")


def _form(ask: Ask, text: bytes, report: Report, function: str) -> list[str]:
    """How an argument is written that the parameter takes."""
    answer = ask(["types"], text)
    schemes = printed.schemes(answer.output.decode()) if answer.status == 0 else []
    number = report.argument[0] if report.argument else 0
    for scheme in schemes:
        if scheme["function"] == function and 1 <= number <= len(scheme["parameters"]):
            return [f"argument {number} is {FORMS[scheme['parameters'][number - 1]['type']]}"]
    return []
