"""Answers: standard output has what the program answers, and the status is its status."""
from pathlib import Path
from typing import Any

import pytest

from conftest import HOME, Um, Write, answer, lacks, need

CALLS = [
    ("examples/vehicle.um", "mean", ["[1<m>; 2<m>; 6<m>]"]),
    ("examples/vehicle.um", "move", ["{ pos = 1<m>; vel = 2<m/s> }", "3<s>"]),
    ("examples/vehicle.um", "metres", ["-10<ft>"]),
    ("examples/vehicle.um", "total", ["[]"]),
    ("examples/beam.um", "reynolds", ["1000<kg/m^3>", "1.5<m/s>", "0.05<m>", "0.001<Pa s>"]),
]
REFUSED = [
    ("examples/vehicle.um", "median", ["1"], 11),
    ("examples/vehicle.um", "mean", ["[1<m>; 2"], 11),
    ("examples/vehicle.um", "mean", ["[1<m>; 2<s>]"], 11),
    ("examples/vehicle.um", "mean", ["[]"], 12),
    ("examples/refusals/units.um", "total", ["1", "2"], 9),
]


def text(name: str) -> bytes:
    return (HOME / name).read_bytes()


@pytest.mark.parametrize("command", ["types", "fmt", "code", "prove"])
@pytest.mark.parametrize("name", ["area", "beam", "bill", "mechanics", "refusals/units", "refusals/form"])
def test_a_text_is_answered_as_by_the_program(um: Um, command: str, name: str) -> None:
    file = f"examples/{name}.um"
    status, output = answer([command], text(file))
    found = um(command, file)
    assert found.status == status
    assert found.out == (output if status == 0 else "")
    assert bool(found.err) == (status != 0)


@pytest.mark.parametrize("command", ["annot", "tidy"])
@pytest.mark.parametrize("name", ["area", "beam", "refusals/names"])
def test_a_text_is_answered_as_by_the_program_with_later_commands(um: Um, command: str, name: str) -> None:
    need(command)
    file = f"examples/{name}.um"
    status, output = answer([command], text(file))
    assert (um(command, file).status, um(command, file).out) == (status, output if status == 0 else "")


@pytest.mark.parametrize("command", ["run", "eval", "steps"])
@pytest.mark.parametrize("file, name, words", CALLS)
def test_a_call_is_answered_as_by_the_program(um: Um, command: str, file: str, name: str, words: list[str]) -> None:
    status, output = answer([command, "10000000", name, *words], text(file))
    assert status == 0
    assert um(command, file, name, *words).out == output


@pytest.mark.parametrize("file, name, words, status", REFUSED)
def test_a_refused_call_has_the_status_of_the_program(
    um: Um, file: str, name: str, words: list[str], status: int
) -> None:
    found = um("run", file, name, *words)
    assert (found.status, found.out) == (status, "")
    assert f"error {status}: " in found.err.splitlines()[0]


def test_the_budget_is_ten_million_unless_it_is_said(um: Um) -> None:
    words = ["run", "examples/vehicle.um", "mean", "[1<m>; 2<m>; 6<m>]"]
    assert um(*words).out == "3<m>\n"
    assert um(*words, "--budget", "9").out == "3<m>\n"
    found = um(*words, "--budget", "8")
    assert (found.status, found.out) == (13, "")
    assert found.err.splitlines()[0] == "examples/vehicle.um: error 13: budget"
    assert found.err.splitlines()[1:] == ([] if lacks("trace") else ["um trace with the same words says where"])


def test_a_budget_that_is_none_is_the_programs_refusal(um: Um) -> None:
    found = um("run", "examples/vehicle.um", "mean", "[1]", "--budget", "many")
    assert found.status == 1
    assert found.err.splitlines() == ["examples/vehicle.um: error 1: usage",
                                      "umc takes no such words: run many mean [1]",
                                      "um run --help says which it takes"]


@pytest.mark.parametrize("words", [
    ["--budget", "2", "examples/fall.um", "fall", "3<s>"], ["examples/fall.um", "--budget", "2", "fall", "3<s>"],
    ["examples/fall.um", "fall", "--budget=2", "3<s>"], ["examples/fall.um", "fall", "3<s>", "--budget", "2"],
    ["examples/fall.um", "--budget", "2", "--", "fall", "3<s>"]])
def test_options_may_stand_anywhere(um: Um, words: list[str]) -> None:
    assert um("run", *words).out == "441r10<m>\n"


@pytest.mark.parametrize("word", ["-4", "-4.5", "-1r3", "- 4", "-4<m>", "-0.25<m/s^2>"])
def test_an_argument_may_begin_with_minus(um: Um, program: Write, word: str) -> None:
    file = program("[<Measure>] type m\n[<Measure>] type s\nlet same (x: num<_>) = x")
    status, output = answer(["run", "9", "same", word], file.read_bytes())
    assert status == 0
    assert um("run", file, "same", word).out == output
    assert um("run", file, "same", "--", word).out == output


def test_an_argument_is_handed_on_as_it_is(um: Um, program: Write) -> None:
    file = program("let same (x: num list) = x")
    for word in ("[1;\n2]", "[1; // one\n2]", "[ 1;\t2 ]", "\ufeff[1; 2]"):
        assert um("run", file, "same", word).out == "[1; 2]\n"


def test_standard_input_is_a_text_an_argument_or_an_image(um: Um, tmp_path: Path) -> None:
    assert um("types", "-", stdin=text("examples/area.um")).out == "area : num<m> -> num<m> -> num<m^2>\n"
    assert um("run", "examples/vehicle.um", "mean", "@-", stdin="[1; 2; 6]\n").out == "3\n"
    assert um("exec", "-", "mean", "[1; 2; 6]", stdin=text("examples/mean.umi")).out == "3\n"
    found = um("run", "-", "mean", "@-", stdin="[1; 2; 6]")
    assert (found.status, found.out) == (64, "")
    assert "'-' stands twice" in found.err


def test_an_argument_comes_from_a_file(um: Um, tmp_path: Path) -> None:
    (tmp_path / "list").write_text("[1<m>;\n 2<m>; 6<m>]\n")
    assert um("run", "examples/vehicle.um", "mean", f"@{tmp_path}/list").out == "3<m>\n"
    (tmp_path / "list").write_text("[1<m>;\n 2<q>]\n")
    found = um("run", "examples/vehicle.um", "mean", f"@{tmp_path}/list")
    assert found.status == 11
    assert found.err.splitlines()[:3] == [f"{tmp_path}/list:2:4: error 11: argument 1, name", "  |  2<q>]", "  |    ^"]


def test_several_files_are_answered_in_turn(um: Um) -> None:
    found = um("types", "examples/area.um", "examples/refusals/names.um", "examples/missing.um", "examples/mean.um")
    assert found.out == answer(["types"], text("examples/area.um"))[1] + answer(["types"], text("examples/mean.um"))[1]
    assert found.status == 7
    assert "examples/refusals/names.um:2:36: error 7: unknown name\n" in found.err
    assert "um: examples/missing.um: No such file or directory\n" in found.err


def test_an_image_is_written_to_a_file_or_to_standard_output(um: Um, tmp_path: Path) -> None:
    found = um("image", "examples/mean.um", "-o", tmp_path / "mean.umi")
    assert (found.status, found.out, found.err) == (0, "", "")
    assert (tmp_path / "mean.umi").read_bytes() == text("examples/mean.umi")
    assert um("image", "examples/mean.um").out.encode("utf-8", "surrogateescape") == text("examples/mean.umi")
    assert um("exec", tmp_path / "mean.umi", "mean", "[1; 2; 6]").out == "3\n"


def test_an_output_file_stays_as_it_is_where_the_text_is_refused(um: Um, tmp_path: Path) -> None:
    kept = tmp_path / "types"
    kept.write_text("before\n")
    assert um("types", "examples/area.um", "examples/refusals/names.um", "-o", kept).status == 7
    assert kept.read_text() == "before\n"
    assert um("types", "examples/area.um", "-o", kept).status == 0
    assert kept.read_text() == "area : num<m> -> num<m> -> num<m^2>\n"
    assert list(tmp_path.iterdir()) == [kept]


def test_sizes_are_changed(um: Um) -> None:
    sizes = "m=100,s=1000"
    assert um("rescale", "examples/fall.um", sizes).out == answer(["rescale", sizes], text("examples/fall.um"))[1]
    assert um("twin", "examples/fall.um", sizes, "fall", "3<s>").out == "441r10<m>\n4410<m>\n"
    found = um("rescale", "examples/bill.um", "cent=9223372036854775807")
    assert found.status == 14
    assert found.err.startswith("examples/bill.um:4:13: error 14: literal\n")


def test_a_function_is_held_to_a_type(um: Um) -> None:
    found = um("conform", "examples/vehicle.um", "kinetic", "num<kg> -> num<m> -> num<J>")
    assert (found.status, found.out) == (20, "")
    assert found.err.splitlines() == ["examples/vehicle.um: error 20: units of kinetic, type 2",
                                      "kinetic : num<kg> -> num<m/s> -> num<kg m^2/s^2>"]
    found = um("conform", "examples/vehicle.um", "kinetic", "num<kg> -> -> num")
    assert found.err.splitlines() == ["examples/vehicle.um: error 11: signature, syntax at 12",
                                      "  | num<kg> -> -> num", "  |            ^",
                                      "a signature has the types of the parameters and of the result, "
                                      "as num<m> -> num<s> -> num<m/s>"]


@pytest.mark.needs("explain")
@pytest.mark.parametrize("signature, lines", [
    ("num<kgs> -> num<J>", ["unknown name", "similar: kg"]), ("num<kg> -> num<_>", []),
    ("num<kg> // to\n-> num<q>", ["unknown name"]), ("num<kg> @", ["no token begins with this character"]),
    ("num<m^2147483647 m>", ["powers go from -2147483647 to 2147483647"])])
def test_it_is_told_why_a_signature_is_refused(um: Um, signature: str, lines: list[Any]) -> None:
    found = um("conform", "examples/vehicle.um", "kinetic", signature)
    assert found.status == 11
    assert found.err.splitlines()[3:] == lines


def test_a_library_is_held_to_a_file_of_signatures(um: Um, tmp_path: Path) -> None:
    signatures = tmp_path / "a.sig"
    signatures.write_text("# what is promised\n\nkinetic : num<kg> -> num<m/s> -> num<J>\n"
                          "mean : num<m> list -> num<q>\nmetres : num<ft> -> num<s>\nnone : num\n")
    found = um("conform", "examples/vehicle.um", signatures)
    assert (found.status, found.out) == (11, "kinetic conforms\n")
    assert [line for line in found.err.splitlines() if "error" in line] == [
        f"{signatures}:4:27: error 11: signature, name", f"{signatures}:5:10: error 20: units of metres, type 2",
        f"{signatures}:6:8: error 11: no such function"]
    signatures.write_text("kinetic\n")
    found = um("conform", "examples/vehicle.um", signatures)
    assert (found.status, found.err) == (66, f"um: {signatures}:1: a line of a file of signatures is NAME : TYPE\n")
