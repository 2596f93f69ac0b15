"""What docs/LIBRARY.md and examples/problems/README.md say of functions and calls, for tools/library."""
import re
import shlex
import textwrap
from dataclasses import dataclass
from pathlib import Path

from library_files import LIBRARY, Call, Fault, calls, declarations, is_helper

WIDTH = 120
COMMAND = re.compile(r"\$ tools/library --text ([^|]+) \| \./umc (.*)")


@dataclass(frozen=True)
class Command:
    """A command in a document: the files that are read, the words, the lines below it, the place."""

    files: tuple[str, ...]
    words: tuple[str, ...]
    answer: list[str]
    place: str


def shown_commands(path: Path) -> list[Command]:
    """The commands in the blocks of a document, each with the lines below it up to the next one or the block's end."""
    found: list[Command] = []
    inside, last = False, None
    for number, line in enumerate(path.read_text(encoding="utf-8").splitlines(), 1):
        shown = COMMAND.fullmatch(line)
        if line.startswith("```"):
            inside, last = not inside, None
        elif inside and shown:
            place = f"{path.parent.name}/{path.name}:{number}"
            last = Command(tuple(shown[1].split()), tuple(shlex.split(shown[2])), [], place)
            found.append(last)
        elif inside and line.startswith("$ "):
            raise Fault(f"{path}:{number}: no command of the form `$ tools/library --text FILE.. | ./umc WORD..`")
        elif last:
            last.answer.append(line)
    return found


def wrapped(text: str) -> list[str]:
    """A text as lines of an item, which are indented."""
    return textwrap.wrap(text, WIDTH, initial_indent="  ", subsequent_indent="  ", break_long_words=False,
                         break_on_hyphens=False)


def call_lines(call: Call) -> list[str]:
    """A call and its answer, on one line or two."""
    line = f"  `{call.text}` gives `{call.answer}`."
    return [line] if len(line) <= WIDTH else [f"  `{call.text}`", f"  gives `{call.answer}`."]


def function_lines(stem: str, schemes: list[str]) -> list[str]:
    """The lines on the functions of a file: of each its scheme, parameters, comment and first call."""
    declared = declarations(LIBRARY / f"{stem}.um")
    first: dict[str, Call] = {}
    for call in calls(LIBRARY / f"{stem}.calls"):
        first.setdefault(call.words[0], call)
    lines: list[str] = []
    for scheme in schemes:
        name = scheme.split(" : ")[0]
        if not is_helper(name, stem):
            parameters, comment = declared[name]
            lines += [f"- `{scheme}`" + (f" of {', '.join(parameters)}" if parameters else ""), *wrapped(comment)]
            lines += call_lines(first[name]) if name in first else []
    return lines


def written_document(old: str, schemes: dict[str, list[str]]) -> str:
    """The document with the lines between `<!-- functions of STEM -->` and `<!-- end -->` renewed."""
    for stem, own in schemes.items():
        begin, end = f"<!-- functions of {stem} -->\n", "<!-- end -->\n"
        before, found, rest = old.partition(begin)
        if not found or end not in rest:
            raise Fault(f"docs/LIBRARY.md: no part between {begin.strip()} and {end.strip()}")
        after = rest[rest.index(end):]
        old = before + begin + "\n".join(["", *function_lines(stem, own), "", ""]) + after
    return old
