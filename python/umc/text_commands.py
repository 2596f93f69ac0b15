"""The commands that ask about texts: types, fmt, code, annot, prove, image, rescale and tidy."""
import argparse
import re
import sys
from collections.abc import Callable
from typing import Any

from umc import places, printed
from umc.errors import Exit, UmError, UsageError
from umc.files import save
from umc.front import Front
from umc.texts import STANDARD_INPUT, Text, check_once, gather, read
from umc.why import no_base_units

# The first line of what is said of a function: a name stands at its start.
FUNCTION = re.compile(rb"^[^\s0-9]", re.MULTILINE)
Parts = Callable[[str, Text], dict[str, Any]]


def words_of(args: argparse.Namespace) -> list[str]:
    """The words that the program is asked with."""
    return [args.command, args.sizes] if args.command == "rescale" else [args.command]


def run(args: argparse.Namespace, front: Front) -> int:
    """Asks about each file in turn. The status is that of the first which is refused."""
    files = args.files if isinstance(args.files, list) else [args.files]
    check_once([*args.before, *files])
    _check_output(args)
    answers: list[bytes] = []
    first = 0
    for name in files:
        try:
            status = _one(args, front, name, answers)
        except UmError as error:
            status = front.complain(error)
        first = first or status
    if args.output and first == 0:
        save(args.output, b"".join(answers))
        if front.json:
            front.emit({"status": 0, "output": args.output})
    return first


def _check_output(args: argparse.Namespace) -> None:
    if args.command == "image" and not args.output and sys.stdout is not None and sys.stdout.isatty():
        raise UsageError("an image is bytes and none for a terminal: name a file with -o")


def _one(args: argparse.Namespace, front: Front, name: str, answers: list[bytes]) -> int:
    text = gather(name, args.before, front.program, follows=args.command != "fmt")
    words = words_of(args)
    answer = front.program.ask(words, text.data)
    if answer.status != 0:
        notes = no_base_units(front.program.ask, text.data, args.sizes) if answer.status == 11 else []
        return front.refuse_answer(text, words, answer, notes)
    output = _own(front, text, answer.output) if getattr(args, "own", False) else answer.output
    if front.json and not args.output:
        parts = PARTS.get(args.command, _text)
        front.emit({"status": 0, "file": text.name, **parts(output.decode(), text)})
        return 0
    if args.command == "annot":
        output = places.annotated(output.decode(), text).encode()
    if args.output:
        answers.append(output)
    else:
        front.write(output)
    return 0


def _own(front: Front, text: Text, output: bytes) -> bytes:
    """The part of an answer that is about the functions of the file itself: what follows those before it."""
    before = front.program.ask(["types"], text.before)
    count = before.output.count(b"\n") if before.status == 0 else 0
    found = list(FUNCTION.finditer(output))
    if count >= len(found):
        return b"" if count else output
    return output[found[count].start():]


# ---- answers by their parts

def _text(output: str, text: Text) -> dict[str, Any]:
    return {"text": output}


def _types(output: str, text: Text) -> dict[str, Any]:
    return {"functions": printed.schemes(output)}


def _code(output: str, text: Text) -> dict[str, Any]:
    functions: list[dict[str, Any]] = []
    for line in output.splitlines():
        first, _, rest = line.partition(" ")
        if first.isdigit():
            functions[-1]["instructions"].append(rest)
        else:
            functions.append({"function": first, "parameters": int(rest), "instructions": []})
    return {"functions": functions}


def _annot(output: str, text: Text) -> dict[str, Any]:
    functions: list[dict[str, Any]] = []
    for line in output.splitlines():
        if line.startswith("  "):
            functions[-1]["nodes"].append(_node(line, text))
        else:
            functions.append({**printed.scheme(line), "nodes": []})
    return {"functions": functions}


def _node(line: str, text: Text) -> dict[str, Any]:
    where, _, type_text = line[2:].partition(" ")
    place = text.place(*map(int, where.split(":")))
    return {"file": place.file, "line": place.line, "column": place.column, "type": printed.type_tree(type_text),
            "text": type_text}


PARTS: dict[str, Parts] = {"types": _types, "code": _code, "annot": _annot}


# ---- tidy

def tidy(args: argparse.Namespace, front: Front) -> int:
    """Lays each file out: on standard output, in place, or as a question whether it is laid out so."""
    check_once(args.files)
    if args.write and STANDARD_INPUT in args.files:
        raise UsageError("standard input can't be written in place")
    first = 0
    for name in args.files:
        try:
            status = _tidy_one(args, front, name)
        except UmError as error:
            status = front.complain(error)
        first = first or status
    return first


def _tidy_one(args: argparse.Namespace, front: Front, name: str) -> int:
    text = Text([read(name)])
    answer = front.program.ask(["tidy"], text.data)
    if answer.status != 0:
        return front.refuse_answer(text, ["tidy"], answer)
    is_tidy = answer.output == text.data
    if args.write and not is_tidy:
        save(name, answer.output)
    if front.json:
        changed = {} if args.write or args.check else {"text": answer.output.decode()}
        front.emit({"status": 0, "file": text.name, "tidy": is_tidy, **changed})
    elif args.check and not is_tidy:
        front.terminal.say(f"{text.name}: isn't tidy; um tidy -w lays it out")
    elif not args.write and not args.check:
        front.write(answer.output)
    return Exit.NOT_TIDY if args.check and not is_tidy else 0
