"""The command conform: holds functions to signatures."""
import argparse
import re

from umc import reports
from umc.errors import InputError, UsageError
from umc.front import Front, unknown_words
from umc.program import Answer
from umc.reports import Report
from umc.call_commands import about_function
from umc.arguments import Argument
from umc.texts import MOST, STANDARD_INPUT, Place, Source, Text, gather, read
from umc.why import why_signature

PLACE = re.compile(r" at [0-9]+$")
COMMENT, SIGN = "#", " : "


def run(args: argparse.Namespace, front: Front) -> int:
    """`conform FILE NAME TYPE` asks about one function, `conform FILE SIGFILE` about each line of a file."""
    if len(args.signature) > 2:
        raise UsageError("conform takes a function and its type in one word each, or one file of signatures")
    names = [*args.before, args.file, *(args.signature if len(args.signature) == 1 else [])]
    if names.count(STANDARD_INPUT) > 1:
        raise UsageError("standard input can be read once, and '-' stands twice")
    text = gather(args.file, args.before, front.program)
    if len(args.signature) == 2:
        name, type_text = args.signature
        return _one(front, text, name, type_text, None)
    return _file(front, text, read(args.signature[0]))


def _file(front: Front, text: Text, signatures: Source) -> int:
    checked = front.program.ask(["types"], text.data)
    if checked.status != 0:
        return front.refuse_answer(text, ["types"], checked)
    first = 0
    for number, line in enumerate(_lines(signatures), 1):
        if not line.strip() or line.startswith(COMMENT):
            continue
        name, sign, type_text = line.partition(SIGN)
        if not sign:
            raise InputError("a line of a file of signatures is NAME : TYPE", f"{signatures.name}:{number}")
        status = _one(front, text, name.strip(), type_text, Place(signatures.name, number, len(name) + len(sign) + 1))
        first = first or status
    return first


def _lines(signatures: Source) -> list[str]:
    if len(signatures.data) > MOST:
        raise InputError("the file is too long", signatures.name)
    try:
        return [line.removesuffix("\r") for line in signatures.data.decode("utf-8-sig").split("\n")]
    except UnicodeDecodeError as fault:
        number = signatures.data[:fault.start].count(b"\n") + 1
        raise InputError("not UTF-8", f"{signatures.name}:{number}") from fault


def _one(front: Front, text: Text, name: str, type_text: str, place: Place | None) -> int:
    """Asks about one function. The place is that of the type in a file of signatures."""
    words = ["conform", name, type_text]
    answer = front.program.ask(words, text.data)
    if answer.status == 0 and front.json:
        front.emit({"status": 0, "file": text.name, "function": name, "signature": type_text, "conforms": True})
    elif answer.status == 0:
        front.write(answer.output)
    else:
        return _refuse(front, text, words, place, answer)
    return 0


def _refuse(front: Front, text: Text, words: list[str], place: Place | None, answer: Answer) -> int:
    report = reports.of_answer(answer.status, answer.output)
    if report.line is not None or report.status not in (10, 11, 20):
        return front.refuse(text, report, notes=unknown_words(words) if report.status == 1 else [])
    notes = about_function(front.program, text, words[1])
    at = report.signature
    if at is not None:
        notes = [*Argument(words[2]).excerpt(at), *why_signature(front.program.ask, text.data, report, words[2])]
        if place is not None:
            place = Place(place.file, place.line, place.column + at - 1)
            report = Report(report.status, PLACE.sub("", report.message))
    return front.refuse(text, report, place, notes)
