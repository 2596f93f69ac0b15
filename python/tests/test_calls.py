"""calls: the calls of a file, one a line."""
from pathlib import Path
from typing import Any

import pytest

from conftest import HOME, Um, Write, answer

VEHICLE = "examples/vehicle.um"
CALLS = "kinetic\t2<kg>\t3<m/s>\nmean\t[1<m>; 2<m>]\n\nmean\t[]\nmean\t[1; true]\nnothing\n"
ANSWERS = ("9<kg m^2/s^2>\n3r2<m>\n\nerror 12: division by zero\nerror 11: argument 1, shape at 5\n"
           "error 11: no such function\n")

pytestmark = pytest.mark.needs("calls")


def source(calls: str | bytes, file: str = VEHICLE) -> bytes:
    return (HOME / file).read_bytes() + b"---\n" + (calls.encode() if isinstance(calls, str) else calls)


def test_the_answers_are_those_of_the_program(um: Um, tmp_path: Path) -> None:
    file = tmp_path / "calls.txt"
    file.write_text(CALLS)
    found = um("calls", VEHICLE, file)
    assert (found.status, found.out, found.err) == (0, ANSWERS, "")
    assert answer(["calls", "10000000"], source(CALLS)) == (0, ANSWERS)
    assert um("calls", VEHICLE, "-", stdin=CALLS).out == ANSWERS
    assert um("calls", "-", file, stdin=(HOME / VEHICLE).read_bytes()).out == ANSWERS


def test_each_line_is_that_of_run(um: Um) -> None:
    lines = [line for line in CALLS.splitlines() if line]
    found = [answer(["run", "9", *line.split("\t")], (HOME / VEHICLE).read_bytes())[1] for line in lines]
    assert um("calls", VEHICLE, "-", "--budget", "9", stdin="\n".join(lines)).out == "".join(found)


@pytest.mark.parametrize("calls, answers", [
    ("", ""), ("\n", "\n"), ("\n\n", "\n\n"), ("mean\t[1]", "1\n"), ("mean\t[1]\r\n\r\nmean\t[2]\r\n", "1\n\n2\n"),
    ("mean\t[1]\t\n", "error 11: wrong number of arguments\n"), ("mean[1]\n", "error 11: no such function\n"),
    ("---\nmean\t[3]\n", "error 11: no such function\n3\n"), (b"mean\t[\xff]\nmean\t[4]\n", "error 1: usage\n4\n")])
def test_lines_are_handed_on_as_they_are(um: Um, calls: Any, answers: str) -> None:
    found = um("calls", VEHICLE, "-", stdin=calls)
    assert (found.status, found.out, found.err) == (0, answers, "")
    assert answer(["calls", "10000000"], source(calls)) == (0, answers)


def test_spaces_between_words_are_told_once(um: Um) -> None:
    calls = "mean\t[1]\n a \nmean [1]\nmean [2]\n"
    for more in ([], ["--check"]):
        found = um("calls", VEHICLE, "-", *more, stdin=calls)
        assert found.out == "1\n" + 3 * "error 11: no such function\n"
        assert [line for line in found.err.splitlines() if line.startswith("um: ")] == [
            "um: <stdin>:3: a tab stands between a function and its arguments, and this line has spaces alone"]


def test_check_tells_the_refused_calls_and_ends_with_the_status_of_the_first(um: Um, tmp_path: Path) -> None:
    file = tmp_path / "calls.txt"
    file.write_text(CALLS)
    found = um("calls", VEHICLE, file, "--check")
    assert (found.status, found.out) == (12, ANSWERS)
    assert found.err.splitlines() == [f"{file}:4: error 12: division by zero",
                                      f"{file}:5: error 11: argument 1, shape at 5",
                                      f"{file}:6: error 11: no such function"]
    found = um("calls", VEHICLE, "-", "--check", stdin="mean\t[1]\n")
    assert (found.status, found.out, found.err) == (0, "1\n", "")


def test_lines_of_json(um: Um) -> None:
    found = um("calls", "--json", VEHICLE, "-", stdin=CALLS)
    assert (found.status, found.err) == (0, "")
    assert [(tree["status"], tree["line"]) for tree in found.objects] == [(0, 1), (0, 2), (12, 4), (11, 5), (11, 6)]
    assert found.objects[1] == {"status": 0, "file": "<stdin>", "line": 2, "function": "mean",
                                "value": {"number": "3/2", "unit": {"m": 1}}, "text": "3r2<m>"}
    assert found.objects[2] == {"status": 12, "kind": "trap", "file": "<stdin>", "line": 4,
                                "message": "division by zero"}
    checked = um("calls", "--json", "--check", VEHICLE, "-", stdin=CALLS)
    assert (checked.status, checked.objects) == (12, found.objects)


def test_a_text_that_is_refused_has_no_answers(um: Um) -> None:
    found = um("calls", "examples/refusals/units.um", "-", stdin="total\n")
    assert (found.status, found.out) == (9, "")
    assert found.err.splitlines()[0] == "examples/refusals/units.um:3:49: error 9: units of total"


def test_a_text_with_a_line_of_three_signs(um: Um, program: Write) -> None:
    file = program("let f (x: num) = x\n---\n1\n")
    assert um("calls", file, "-", stdin="f\t3\n").out == "2\n"


def test_files_before_the_program(um: Um, program: Write) -> None:
    below, file = program("let two = 2\n", "below.um"), program("let f (x: num) = two * x\n")
    assert um("calls", file, "-", "--with", below, stdin="f\t3\ntwo\n").out == "6\n2\n"


def test_an_argument_longer_than_the_system_takes(um: Um) -> None:
    items = "; ".join(["1<m>"] * 60_000)
    found = um("calls", VEHICLE, "-", stdin=f"mean\t[{items}]\n")
    assert (found.status, found.out) == (0, "1<m>\n")


def test_a_file_longer_than_one_run_takes(um: Um, tmp_path: Path, script: Write) -> None:
    """The lines go to the program in pieces of about 4 MiB, each after the program's text."""
    standing = script('[ "$1" = types ] || [ "$2" = 1 ] && exit\n'
                      "sed '1,/^---$/d' | awk '{ print substr($0, 1, 3) }'; echo >> \"$RUNS\"")
    runs, file = tmp_path / "runs", tmp_path / "calls.txt"
    with file.open("w") as lines:
        for number in range(300):
            lines.write(f"{number:03}{'x' * 99_990}\n")
    found = um("calls", VEHICLE, file, UMC=str(standing), RUNS=str(runs))
    assert (found.status, found.err) == (0, "")
    assert found.out == "".join(f"{number:03}\n" for number in range(300))
    assert runs.read_text().count("\n") == 8


def test_a_line_that_is_too_long_ends_the_calls(um: Um, tmp_path: Path) -> None:
    file = tmp_path / "calls.txt"
    file.write_text("mean\t[1]\n" + "x" * (16 << 20) + "\nmean\t[2]\n")
    found = um("calls", VEHICLE, file)
    assert (found.status, found.out, found.err) == (2, "1\n", f"{file}:2: error 2: text too long\n")


@pytest.mark.parametrize("words, status, why", [
    (["calls", VEHICLE], 64, "um: the following arguments are required: CALLS"),
    (["calls", VEHICLE, "/nowhere"], 66, "um: /nowhere: No such file or directory"),
    (["calls", VEHICLE, "/"], 66, "um: /: Is a directory"),
    (["calls", "-", "-"], 64, "um: standard input can be read once, and '-' stands twice"),
    (["calls", VEHICLE, "/dev/null", "--budget", "x"], 0, None),
    (["calls", VEHICLE, "examples/mean.um", "--budget", "x"], 1, f"{VEHICLE}: error 1: usage")])
def test_what_is_wrong_is_told(um: Um, words: list[Any], status: int, why: str | None) -> None:
    found = um(*words)
    assert (found.status, found.out) == (status, "")
    assert found.err.splitlines()[:1] == ([why] if why else [])


def test_a_limit_of_the_run_ends_it(um: Um) -> None:
    found = um("calls", VEHICLE, "-", "--limit-output", "3", stdin=CALLS)
    assert (found.status, found.err) == (124, "um: the answer is longer than 3 bytes (--limit-output)\n")
