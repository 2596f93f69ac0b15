"""Several files: texts before a text, with places in their own files."""
import os
import shutil
import subprocess
import sys
from pathlib import Path

import pytest

from conftest import HOME, Um, Write, answer

MEASURES = "[<Measure>] type m\n[<Measure>] type s"
SPEED = "let speed (way: num<m>) (time: num<s>) = way / time\n"


@pytest.fixture
def files(program: Write) -> tuple[Path, ...]:
    """A file of measures, one of functions, and a third."""
    return program(MEASURES, "si.um"), program(SPEED, "speed.um"), program("let k = speed 1<m> 2<s>\n", "main.um")


def test_texts_stand_before_a_text(um: Um, files: tuple[Path, ...]) -> None:
    measures, speed, main = files
    found = um("types", "--with", measures, "--with", speed, main)
    assert (found.status, found.out, found.err) == (0, "speed : num<m> -> num<s> -> num<m/s>\nk : num<m/s>\n", "")
    assert um("run", main, "k", "--with", measures, "--with", speed).out == "1r2<m/s>\n"
    whole = f"{MEASURES}\n{SPEED}{main.read_text()}"
    for command in ("fmt", "code", "prove"):
        assert um(command, "--with", measures, "--with", speed, main).out == answer([command], whole)[1]


def test_a_file_that_is_named_twice_is_taken_once(um: Um, files: tuple[Path, ...], tmp_path: Path) -> None:
    measures, speed, main = files
    (tmp_path / "link.um").symlink_to(measures)
    found = um("types", "--with", measures, "--with", f"{tmp_path}/../{tmp_path.name}/si.um",
               "--with", tmp_path / "link.um", "--with", speed, speed)
    assert (found.status, found.out) == (0, "speed : num<m> -> num<s> -> num<m/s>\n")


def test_a_place_is_told_in_its_own_file_and_line(um: Um, files: tuple[Path, ...], program: Write) -> None:
    measures, speed, main = files
    wrong = program("\nlet fast = 1<q>\n", "wrong.um")
    found = um("types", "--with", measures, "--with", wrong, main)
    assert (found.status, found.err.splitlines()[0]) == (7, f"{wrong}:2:14: error 7: unknown name")
    found = um("types", "--with", measures, "--with", speed, wrong)
    assert found.err.splitlines()[0] == f"{wrong}:2:14: error 7: unknown name"
    found = um("types", "--with", program("let", "open.um"), main)
    assert (found.status, found.err.splitlines()[0]) == (5, f"{main}:1:1: error 5: syntax")


def test_a_mark_in_front_of_a_file_is_no_part_of_the_whole(um: Um, files: tuple[Path, ...], program: Write) -> None:
    measures, _, _ = files
    marked = program("\ufefflet k = 1<m>\nlet j = x", "marked.um")
    found = um("types", "--with", measures, marked)
    assert (found.status, found.err.splitlines()[0]) == (7, f"{marked}:2:9: error 7: unknown name")
    assert um("types", "--with", measures, program("\ufefflet k = 1<m>\n", "good.um")).out == "k : num<m>\n"
    for name, text in (("alone", "\ufefflet j = x"), ("both", "\ufefflet j = x")):
        file = program(text, f"{name}.um")
        words = ["types", file, *(["--with", measures] if name == "both" else [])]
        assert um(*words).err.splitlines()[0] == f"{file}:1:10: error 7: unknown name"


def test_bytes_of_a_file_that_are_no_text_are_told_in_it(um: Um, files: tuple[Path, ...], program: Write) -> None:
    _, _, main = files
    broken = program(b"// \xc3", "broken.um")
    found = um("types", "--with", broken, main)
    assert (found.status, found.err.splitlines()[0]) == (3, f"{broken}:1:4: error 3: not UTF-8")


@pytest.mark.needs("explain")
def test_an_explanation_names_other_files(um: Um, files: tuple[Path, ...], program: Write) -> None:
    measures, speed, _ = files
    twice = program("\n[<Measure>] type s\n", "twice.um")
    assert um("types", "--with", measures, twice).err.splitlines() == [
        f"{twice}:2:18: error 7: declared twice", "2 | [<Measure>] type s", "  |                  ^",
        f"declared before at {measures}:2:18"]
    again = program("let k = 1\n\nlet k = 2\n", "again.um")
    assert um("types", "--with", measures, "--with", speed, again).err.splitlines() == [
        f"{again}:3:5: error 7: declared twice", "3 | let k = 2", "  |     ^", "declared before at 1:5"]


@pytest.mark.needs("explain")
def test_an_explanation_of_units_has_the_lines_of_the_file(um: Um, files: tuple[Path, ...], program: Write) -> None:
    measures, _, _ = files
    wrong = program("let f (x: num<_>) (y: num<_>) =\n  let a = x + 1<m> in\n  let b = y + 1<s> in\n  x + y\n",
                    "wrong.um")
    lines = um("types", "--with", measures, wrong).err.splitlines()
    assert lines[:3] == [f"{wrong}:4:5: error 9: units of f", "4 |   x + y", "  |     ^"]
    assert "  2:13 the two sides of this sum must have the same type" in lines


@pytest.mark.needs("explain")
def test_the_let_without_in_is_told_in_its_file(um: Um, files: tuple[Path, ...], program: Write) -> None:
    measures, _, _ = files
    wrong = program("let f =\n  let x = 1\nlet g = 2", "open.um")
    assert um("types", "--with", measures, wrong).err.splitlines()[-1] == "the let at 2:3 has no in"


@pytest.mark.needs("trace")
def test_a_trace_names_other_files(um: Um, program: Write) -> None:
    below = program("// a\nlet part (x: num) = 1 / x\n", "below.um")
    above = program("let whole (x: num) =\n  part x + 1\n", "above.um")
    found = um("trace", "--with", below, above, "whole", "0")
    assert found.status == 0
    assert found.out.splitlines() == [
        f"error 12: division by zero in part at {below}:2:23", "2 | let part (x: num) = 1 / x",
        "  |                       ^", "  left: 1", "  right: 0", f"called from whole at {above}:2:3"]
    (tree,) = um("trace", "--json", "--with", below, above, "whole", "0").objects
    assert tree["place"] == {"file": str(below), "line": 2, "column": 23}


@pytest.mark.needs("annot")
def test_parts_of_other_files_are_named(um: Um, files: tuple[Path, ...]) -> None:
    measures, speed, main = files
    found = um("annot", "--with", measures, "--with", speed, main)
    assert found.out.splitlines() == [
        "speed : num<m> -> num<s> -> num<m/s>", f"  {speed}:1:42 num<m>", f"  {speed}:1:46 num<m/s>",
        f"  {speed}:1:48 num<s>", "k : num<m/s>", "  1:9 num<m/s>", "  1:15 num<m>", "  1:20 num<s>"]


def test_a_file_of_the_library_is_found_by_its_name(um: Um, files: tuple[Path, ...], tmp_path: Path) -> None:
    _, _, main = files
    (tmp_path / "lib").mkdir()
    (tmp_path / "lib/motion.um").write_text(f"{MEASURES}\n{SPEED}")
    found = um("types", "--with", "motion", main, UM_PATH=f"/nowhere:{tmp_path}/lib")
    assert found.out == "speed : num<m> -> num<s> -> num<m/s>\nk : num<m/s>\n"
    found = um("types", "--with", "motion", main)
    assert (found.status, found.out) == (66, "")
    names = sorted(path.stem for path in (HOME / "library").glob("*.um"))
    assert found.err == (f"um: motion: no file of the library has this name; there are {' '.join(names)}; "
                         "a file of your own is --with ./motion.um\n")
    assert um("types", "--with", "mony", main).err.startswith(
        "um: mony: no file of the library has this name; similar: money; ")


def test_the_library_beside_the_program_goes_first(
    um: Um, files: tuple[Path, ...], tmp_path: Path, script: Write
) -> None:
    _, _, main = files
    for folder in ("library", "path"):
        (tmp_path / folder).mkdir()
        (tmp_path / folder / "motion.um").write_text(folder)
    stub = script("cat; echo")
    assert um("fmt", "--with", "motion", main, UMC=str(stub), UM_PATH=f"{tmp_path}/path").out.startswith("library\n")


def test_the_library_beside_an_installed_module_is_found(files: tuple[Path, ...], tmp_path: Path) -> None:
    """Wherever it is installed, and whatever program UMC names. UM_PATH goes before it."""
    _, _, main = files
    shutil.copytree(HOME / "python/umc", tmp_path / "share/umc/python/umc")
    for folder in ("share/umc/library", "path"):
        (tmp_path / folder).mkdir()
        (tmp_path / folder / "motion.um").write_text(f"let {folder[-4:]} = 1\n{MEASURES}\n{SPEED}")
    for more, first in [({}, "rary : num"), ({"UM_PATH": f"{tmp_path}/path"}, "path : num")]:
        done = subprocess.run([sys.executable, "-m", "umc", "types", "--with", "motion", main], text=True,
                              env={**os.environ, "PYTHONPATH": f"{tmp_path}/share/umc/python", **more},
                              cwd=tmp_path, capture_output=True)
        assert (done.stdout.splitlines()[0], done.stderr) == (first, "")


def test_standard_input_may_stand_before(um: Um, files: tuple[Path, ...]) -> None:
    _, speed, main = files
    found = um("types", "--with", "-", "--with", speed, main, stdin=MEASURES)
    assert found.out == "speed : num<m> -> num<s> -> num<m/s>\nk : num<m/s>\n"
    assert um("types", "--with", "-", "-", stdin=MEASURES).status == 64


def test_many_files_are_one_text_of_the_programs_length(um: Um, program: Write) -> None:
    half = program("//" + "x" * 600000, "half.um")
    other = program("//" + "y" * 600000, "other.um")
    found = um("types", "--with", half, other)
    assert (found.status, found.err) == (2, f"{other}: error 2: text too long\n")


def test_an_empty_file_before_is_nothing(um: Um, program: Write) -> None:
    file = program("let k = x", "k.um")
    found = um("types", "--with", program("", "empty.um"), file)
    assert found.err.splitlines()[0] == f"{file}:1:9: error 7: unknown name"
    assert um("types", "--with", file, program("", "last.um")).err.splitlines()[0] == (
        f"{file}:1:9: error 7: unknown name")


# ---- files that ask for others in their first line

@pytest.fixture
def library(tmp_path: Path) -> Path:
    """A library of three files, in which c asks for b and a, and b for a."""
    folder = tmp_path / "lib"
    folder.mkdir()
    (folder / "a.um").write_text("let a = 1\n")
    (folder / "b.um").write_text("// with: a\nlet b = a + 1\n")
    (folder / "c.um").write_text("// with: b a\nlet c = a + b")
    return folder


def test_a_file_stands_after_those_that_its_first_line_asks_for(um: Um, library: Path, program: Write) -> None:
    file = program("// with: c\nlet d = c + 1\n", "d.um")
    found = um("types", file, UM_PATH=str(library))
    assert (found.status, found.out, found.err) == (0, "a : num\nb : num\nc : num\nd : num\n", "")
    assert um("run", file, "d", UM_PATH=str(library)).out == "4\n"
    assert um("types", "--with", "b", file, UM_PATH=str(library)).out == found.out
    marked = program("\ufeff// with: b\nlet d = b\n", "marked.um")
    assert um("types", marked, UM_PATH=str(library)).out == "a : num\nb : num\nd : num\n"
    assert um("types", "-", stdin="// with: a\nlet d = a", UM_PATH=str(library)).out == "a : num\nd : num\n"
    for text in ("let d = 1\n// with: c\n", " // with: c\nlet d = 1", "//with: c\nlet d = 1", "// with:\nlet d = 1"):
        assert um("types", program(text, "no.um"), UM_PATH=str(library)).out == "d : num\n"


def test_a_place_after_such_files_is_told_in_its_own(um: Um, library: Path, program: Write) -> None:
    file = program("// with: c\nlet d = c + 1\nlet e = x", "d.um")
    assert um("types", file, UM_PATH=str(library)).err.splitlines()[0] == f"{file}:3:9: error 7: unknown name"
    (library / "b.um").write_text("// with: a\nlet b = a +\n")
    found = um("types", file, UM_PATH=str(library))
    assert found.err.splitlines()[0] == f"{library}/c.um:2:1: error 5: syntax"


def test_a_file_that_is_asked_for_and_not_there_is_told(um: Um, library: Path, program: Write) -> None:
    file = program("// with: si, list\nlet d = 1\n", "d.um")
    found = um("types", file, UM_PATH=str(library))
    assert (found.status, found.out) == (66, "")
    assert found.err == f"um: {file}: the first line asks for si,: no file of the library has this name; similar: si\n"


def test_files_that_ask_for_each_other_are_told(um: Um, library: Path, program: Write) -> None:
    (library / "a.um").write_text("// with: c\nlet a = 1\n")
    found = um("types", "--with", "b", program("let d = 1"), UM_PATH=str(library))
    assert (found.status, found.out) == (66, "")
    assert found.err == f"um: {library}/c.um: the first line asks for {library}/b.um, which asks for this file\n"


def test_the_functions_of_other_files_can_be_left_out(um: Um, library: Path, program: Write) -> None:
    file = program("// with: c\nlet d = c + 1\nlet e (x: num) = if x < 1 then d else 2\n", "d.um")
    own = um("types", "--own", file, UM_PATH=str(library))
    assert (own.status, own.out) == (0, "d : num\ne : num -> num\n")
    whole = um("code", file, UM_PATH=str(library)).out
    assert um("code", "--own", file, UM_PATH=str(library)).out == whole[whole.index("d 0\n"):]
    whole = um("prove", file, UM_PATH=str(library)).out
    assert um("prove", "--own", file, UM_PATH=str(library)).out == whole[whole.index("d yes"):]
    (tree,) = um("types", "--json", "--own", file, UM_PATH=str(library)).objects
    assert [function["function"] for function in tree["functions"]] == ["d", "e"]
    alone = um("types", "--own", "examples/area.um")
    assert alone.out == "area : num<m> -> num<m> -> num<m^2>\n"
    none = program("// with: c\n[<Measure>] type m\n", "none.um")
    assert um("types", "--own", none, UM_PATH=str(library)).out == ""


@pytest.mark.needs("annot")
def test_the_parts_of_other_files_can_be_left_out(um: Um, library: Path, program: Write) -> None:
    file = program("// with: b\nlet d = b + 1\n", "d.um")
    assert um("annot", "--own", file, UM_PATH=str(library)).out == "d : num\n  2:9 num\n  2:11 num\n  2:13 num\n"


def test_fmt_prints_the_file_alone(um: Um, library: Path, program: Write) -> None:
    file = program("// with: c\nlet  d=c\n", "d.um")
    assert um("fmt", file, UM_PATH=str(library)).out == "let d = c\n"
