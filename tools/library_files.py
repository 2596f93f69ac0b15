"""The files of library/ and of examples/problems/: their texts, signatures, calls, and what documents say of them.

Used by tools/library and by the tests in library/tests.
"""
import re
import shlex
from dataclasses import dataclass
from pathlib import Path

HOME = Path(__file__).resolve().parent.parent
LIBRARY = HOME / "library"
PROBLEMS = HOME / "examples" / "problems"
STEMS = ("si", "num", "list", "stat", "money", "mechanics", "electricity", "chemistry")
FIRST = "// with:"
DECLARED = re.compile(r"let (?:rec )?(\w+)")
PARAMETER = re.compile(r"\((\w+):")
CALLS_OF = re.compile(r"(.*) in (\d+) calls?")


class Fault(Exception):
    """A file that can't be used: what is wrong, and where."""


@dataclass(frozen=True)
class Call:
    """A line of a .calls file: the words of the call, the answer, the exact budget where one is told, the place."""

    words: tuple[str, ...]
    text: str
    answer: str
    budget: int | None
    place: str


@dataclass(frozen=True)
class Signature:
    """A line of a .sig file: a function and a type at which it may be used."""

    name: str
    type: str
    place: str


def needs(path: Path) -> list[str]:
    """The names after `// with:` in the first line of a file; none if it has no such line."""
    with path.open(encoding="utf-8-sig") as text:
        first = text.readline()
    return first[len(FIRST):].split() if first.startswith(FIRST) else []


def in_order(path: Path, above: tuple[Path, ...] = ()) -> list[Path]:
    """The files that stand before this one, as the first lines say, and this one; each once."""
    if path in above:
        raise Fault(f"{path.name}: needs itself, by {' '.join(p.stem for p in above)}")
    found: list[Path] = []
    for stem in needs(path):
        needed = LIBRARY / f"{stem}.um"
        if not needed.is_file():
            raise Fault(f"{path}:1: there is no library/{stem}.um")
        found += [p for p in in_order(needed, (*above, path)) if p not in found]
    return [*found, path]


def all_in_order(paths: list[Path]) -> list[Path]:
    """Several files, each after those that it needs; each once."""
    return list(dict.fromkeys(each for path in paths for each in in_order(path)))


def joined(paths: list[Path]) -> str:
    """The texts of the files in order, each ended by a line feed."""
    texts = [path.read_text(encoding="utf-8-sig") for path in paths]
    return "".join(text if text.endswith("\n") else text + "\n" for text in texts)


def lines_of(path: Path) -> list[tuple[str, str]]:
    """The lines of a .sig or .calls file that are neither empty nor a comment, each with its place."""
    numbered = enumerate(path.read_text(encoding="utf-8").splitlines(), 1)
    return [(f"{path.parent.name}/{path.name}:{n}", line) for n, line in numbered if line and not line.startswith("#")]


def signatures(path: Path) -> list[Signature]:
    """The lines `NAME : TYPE` of a .sig file."""
    found = []
    for place, line in lines_of(path):
        name, colon, type_text = line.partition(" : ")
        if not colon:
            raise Fault(f"{place}: no ' : ' in {line!r}")
        found.append(Signature(name, type_text, place))
    return found


def calls(path: Path) -> list[Call]:
    """The lines `CALL => ANSWER` of a .calls file."""
    found = []
    for place, line in lines_of(path):
        text, arrow, answer = line.partition(" => ")
        if not arrow:
            raise Fault(f"{place}: no ' => ' in {line!r}")
        exact = CALLS_OF.fullmatch(answer)
        budget = int(exact[2]) if exact else None
        found.append(Call(tuple(shlex.split(text)), text, exact[1] if exact else answer, budget, place))
    return found


def is_helper(name: str, stem: str) -> bool:
    """Whether a function's name says that it is a helper of its file."""
    return name.startswith(stem + "_")


def declarations(path: Path) -> dict[str, tuple[list[str], str]]:
    """The parameters of each function of a file, and the comment that stands directly above it, as one line."""
    found: dict[str, tuple[list[str], str]] = {}
    block: list[str] = []
    lines = path.read_text(encoding="utf-8").splitlines()
    for number, line in enumerate(lines):
        declared = DECLARED.match(line)
        if declared:
            head = " ".join(lines[number:number + 2]).partition(" = ")[0]
            found[declared[1]] = PARAMETER.findall(head), " ".join(block)
        block = [*block, line[2:].strip()] if line.startswith("//") else []
    return found
