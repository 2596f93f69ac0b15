"""What docs/LANGUAGE.md says without a command: programs with what is printed of them, and its tables of words."""
import re
import shlex
import subprocess
import sys
from collections.abc import Iterator
from dataclasses import dataclass
from pathlib import Path

import pytest

from conftest import HOME, answer, need

DOCUMENT = HOME / "docs/LANGUAGE.md"
# The commands that say something of a program alone; a block after a program is what one of them answers.
COMMANDS = ("types", "explain", "fmt", "tidy", "annot", "prove")
ABOUT = re.compile(r"On `(examples/\w+\.um)`")


@dataclass(frozen=True)
class Block:
    """A block of the document, or a line outside of one."""

    number: int
    text: str
    is_block: bool

    @property
    def is_program(self) -> bool:
        return self.is_block and re.match(r"\[<|let\s|type\s", self.text) is not None

    @property
    def parts(self) -> bool:
        """Whether what is before it has nothing to do with what comes after it."""
        return self.text.startswith(("#", "|"))


def blocks() -> Iterator[Block]:
    """The document's blocks, and the lines between them that aren't empty."""
    lines: list[str] = []
    inside = False
    for number, line in enumerate(DOCUMENT.read_text(encoding="utf-8").splitlines(), 1):
        if line.startswith("```"):
            if inside:
                yield Block(number - len(lines) - 1, "".join(f"{line}\n" for line in lines), True)
            inside, lines = not inside, []
        elif inside:
            lines.append(line)
        elif line:
            yield Block(number, line, False)


def after_programs() -> Iterator[tuple[int, str, str]]:
    """Each program with the block after it, unless that is a command, or another program after some words."""
    program: Block | None = None
    words = False
    for block in blocks():
        if block.parts:
            program = None
        elif not block.is_block:
            words = True
        else:
            if program and not block.text.startswith(("$", "./")) and not (block.is_program and words):
                yield block.number, program.text, block.text
            program, words = (block if block.is_program else None), False


def rows(head: str) -> Iterator[tuple[int, str, list[str]]]:
    """The rows of the tables with this head: the line, the program that was spoken of last, the cells."""
    program, inside = "", False
    for block in blocks():
        about = ABOUT.search(block.text)
        if block.is_program:
            program = block.text
        elif about and not block.is_block:
            program = (HOME / about[1]).read_text(encoding="utf-8")
        inside = block.text == head or (inside and block.text.startswith("|"))
        if inside and block.text != head and not block.text.startswith("|---"):
            cells = re.split(r"(?<!\\)\|", block.text)[1:-1]
            yield block.number, program, [cell.strip().replace("\\|", "|") for cell in cells]


def codes(cell: str) -> list[str]:
    """The texts in backticks of a cell."""
    return re.findall(r"`([^`]*)`", cell)


@pytest.mark.parametrize("number, program, shown", after_programs())
def test_a_program_has_the_answer_below_it(number: int, program: str, shown: str) -> None:
    for command in COMMANDS:
        need(command)
        if answer([command], program)[1] == shown:
            return
    pytest.fail(f"{DOCUMENT.name}:{number}: no command answers this")


@pytest.mark.parametrize("number, program, cells", rows("| words | answer |"))
def test_words_have_the_answer_beside_them(number: int, program: str, cells: list[str]) -> None:
    words = shlex.split(codes(cells[0])[0])
    need(words[0])
    assert answer(words, program)[1] == codes(cells[1])[0] + "\n"


@pytest.mark.parametrize("number, before, cells", rows("| text | answer | cause |"))
def test_a_text_is_refused_for_the_cause_beside_it(number: int, before: str, cells: list[str]) -> None:
    text = codes(cells[0])[0]
    assert answer(["types"], text)[1] == codes(cells[1])[0] + "\n"
    need("explain")
    causes = answer(["explain"], text)[1].splitlines()[3:]
    assert [line.strip() for line in causes] == codes(cells[2])


def test_the_document_has_programs_and_words() -> None:
    assert len(list(after_programs())) > 30
    assert len(list(rows("| words | answer |"))) > 40
    assert len(list(rows("| text | answer | cause |"))) > 5


def shown() -> set[str]:
    """The document's blocks."""
    return {block.text for block in blocks() if block.is_block}


def printed(*words: str | Path, stdin: str = "") -> str:
    """What a tool prints, which ends well."""
    done = subprocess.run(words, cwd=HOME, capture_output=True, text=True, input=stdin)
    assert (done.returncode, done.stderr) == (0, "")
    return done.stdout


def test_a_library_is_held_to_its_signatures() -> None:
    assert printed(HOME / "examples/hold", "examples/mechanics") in shown()


def test_certificates_are_checked() -> None:
    mean = HOME / "examples/mean.um"
    certificates = answer(["prove"], mean.read_text(encoding="utf-8"))[1]
    check = (sys.executable, HOME / "tools/check_certificate.py")
    assert printed(*check, mean, "-", stdin=certificates) in shown()
    equations = printed(*check, "--equations", mean, "-", stdin=certificates)
    assert equations[equations.index("mean 3 0\n"):] in shown()
