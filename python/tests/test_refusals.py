"""Refusals: on standard error, in the form of compilers, with their explanation, and with colours on a terminal."""
import os
import pty
import subprocess
import sys
from typing import Any

import pytest

from conftest import HOME, UM, VEHICLE, Um, Write, lacks

REFUSALS = {
    "characters": "1:18: error 4: character", "form": "2:1: error 5: syntax",
    "limits": "1:5: error 6: limit parameters",
    "names": "2:36: error 7: unknown name", "shapes": "1:43: error 8: shape", "units": "3:49: error 9: units of total",
    "powers": "2:38: error 10: power range of grown", "generality": "2:56: error 19: not general in rounded",
}


@pytest.mark.parametrize("name", REFUSALS)
@pytest.mark.parametrize("command", ["types", "code", "run"])
def test_the_first_line_is_the_one_that_tools_read(um: Um, name: str, command: str) -> None:
    file = f"examples/refusals/{name}.um"
    words = [command, file, *(["f"] if command == "run" else [])]
    found = um(*words)
    assert found.out == ""
    assert found.err.splitlines()[0] == f"{file}:{REFUSALS[name]}"
    assert found.status == int(REFUSALS[name].split("error ")[1].split(":")[0])


def test_a_refusal_is_shown_alone_by_a_program_that_explains_none(um: Um) -> None:
    found = um("types", "examples/refusals/units.um")
    if lacks("explain"):
        assert found.err == "examples/refusals/units.um:3:49: error 9: units of total\n"
    else:
        assert len(found.err.splitlines()) > 1


@pytest.mark.needs("explain")
def test_the_explanation_follows(um: Um) -> None:
    assert um("types", "examples/refusals/units.um").err == """\
examples/refusals/units.um:3:49: error 9: units of total
3 | let total (wall: num<m>) (door: num<ft>) = wall - door
  |                                                 ^
the two sides of this difference must have the same type
  left: num<m>
  right: num<ft>
  factor: ft/m
"""


@pytest.mark.needs("explain")
def test_places_in_an_explanation_are_those_of_the_file(um: Um, program: Write) -> None:
    file = program("""\
[<Measure>] type m
[<Measure>] type s
let f (x: num<_>) (y: num<_>) =
  let a = x + 1<m> in
  let b = y + 1<s> in
  x + y
""")
    lines = um("types", file).err.splitlines()
    assert lines[0] == f"{file}:6:5: error 9: units of f"
    assert lines[1:3] == ["6 |   x + y", "  |     ^"]
    assert "  4:13 the two sides of this sum must have the same type" in lines


def test_a_text_on_standard_input_has_a_name(um: Um) -> None:
    found = um("types", "-", stdin="let k = x")
    assert (found.status, found.err.splitlines()[0]) == (7, "<stdin>:1:9: error 7: unknown name")


@pytest.mark.needs("explain")
def test_a_refused_argument_is_shown_with_its_place(um: Um) -> None:
    found = um("run", "examples/vehicle.um", "mean", "[1<m>; 2<q>]")
    assert found.err.splitlines() == [
        "examples/vehicle.um: error 11: argument 1, name at 10", "  | [1<m>; 2<q>]", "  |          ^",
        "unknown name", "mean : num<'a> list -> num<'a>"]


def test_a_place_far_in_a_long_argument_is_shown_with_what_stands_around_it(um: Um) -> None:
    found = um("run", "examples/vehicle.um", "mean", f"[{'1<m>; ' * 500}2<q>]")
    _, window, mark, *_ = found.err.splitlines()
    assert len(window) <= 124
    assert window[mark.index("^"):] == "q>]"


def test_control_characters_of_an_argument_are_not_printed(um: Um) -> None:
    found = um("run", "examples/vehicle.um", "mean", "[1\x1b[31m]")
    assert found.status == 11
    assert "\x1b" not in found.err and "\ufffd[31m" in found.err


def test_a_function_that_is_not_there_is_told_with_similar_ones(um: Um) -> None:
    found = um("run", "examples/vehicle.um", "kinetik", "1", "2")
    assert found.err.splitlines() == ["examples/vehicle.um: error 11: no such function", "similar: kinetic"]


@pytest.mark.needs("explain")
def test_the_number_of_arguments_is_told_with_the_type(um: Um) -> None:
    found = um("run", "examples/vehicle.um", "metres")
    assert found.err.splitlines() == ["examples/vehicle.um: error 11: wrong number of arguments",
                                      "expected 1, found 0", "metres : num<ft> -> num<m>"]


A_NUMBER = "a number, as 2, 0.5<kg> or -7r2<m/s>"
WHY = [
    (["metres", "3<m>"], ["argument 1 of metres must have the type of its parameter", "  parameter: num<ft>",
                          "  argument: num<m>", "  factor: m/ft"]),
    (["kinetic", "2<kg>", "3 // a comment"], ["argument 2 of kinetic must have the type of its parameter",
                                              "  parameter: num<m/s>", "  argument: num", "  factor: s/m"]),
    (["mean", "[1<m>; 2<s>]"], ["the items of this list must have the same type", "  item 1: num<m>",
                                "  item 2: num<s>", "  factor: s/m"]),
    (["move", "{ pos = 1<m>; vel = 2<m> }", "3<s>"], ["field vel of this record must have its declared type",
                                                      "  declared: num<m/s>", "  part: num<m>", "  factor: s"]),
    (["metres", "10ft"], ["no letter follows a number"]),
    (["metres", "99999999999999999999<ft>"],
     ["a number has at most 38 digits, no denominator 0, and parts that fit 64 bits"]),
    (["kinetic", "2<kgs>", "3<m/s>"], ["unknown name", "similar: kg"]),
    (["mean", "[5<_>]"], ["only 0 has every unit"]),
    (["metres", "1<m^2147483647 m>"], ["powers go from -2147483647 to 2147483647"]),
    (["move", "{ vel = 2<m/s>; pos = 1<m> }", "3<s>"], ["expected: pos vel", "found: vel pos"]),
    (["metres", "true"], ["argument 1 of metres must have the type of its parameter", "  parameter: num",
                          "  argument: bool"]),
    (["kinetic", "1/3<kg>", "3<m/s>"], [f"argument 1 is {A_NUMBER}"]),
    (["kinetic", "2<kg>", "(3<m/s>)"], [f"argument 2 is {A_NUMBER}"]),
    (["metres", "\u22123<ft>"], ["no token begins with this character", "the character is U+2212 MINUS SIGN"]),
    (["kinetic", "mean", "3<m/s>"], [f"argument 1 is {A_NUMBER}"]),
    (["kinetic", "{ p = 1 }", "3<m/s>"], [f"argument 1 is {A_NUMBER}"]),
    (["metres", "1<ft>) (2"], [f"argument 1 is {A_NUMBER}"]),
    (["mean", "[1, 2]"], ["argument 1 is a list, as [1<m>; 2<m>]"]),
    (["move", "{}", "3<s>"], ["argument 1 is a record with all its fields in order, as { x = 1<m>; y = 2 }"]),
]


@pytest.mark.needs("explain")
@pytest.mark.parametrize("words, lines", WHY, ids=[" ".join(words) for words, _ in WHY])
def test_it_is_told_why_a_call_is_refused(um: Um, words: list[str], lines: list[str]) -> None:
    found = um("run", "examples/vehicle.um", *words)
    assert found.status == 11
    told = [line for line in found.err.splitlines()[1:-1] if not line.startswith("  |")]
    assert told == lines
    assert found.err.splitlines()[-1].startswith(f"{words[0]} : ")
    tree, = um("run", "--json", "examples/vehicle.um", *words).objects
    assert tree["explanation"][-1 - len(lines):-1] == lines


@pytest.mark.needs("explain")
@pytest.mark.parametrize("words", [["f", "[]", "1"], ["f", "1 )", "1"], ["f", "1", "1 1"], ["call_", "2"]])
def test_a_call_may_be_refused_without_a_cause_that_is_known(um: Um, program: Write, words: list[str]) -> None:
    file = program("let call = 1\nlet f (l: num list) (b: bool) = b // the last line has no end, and call_ is no name")
    found = um("run", file, *words)
    assert found.status == 11
    assert not any(word in found.err for word in ("operation", "must have", "no end"))


@pytest.mark.needs("show")
@pytest.mark.needs("explain")
@pytest.mark.parametrize("units, lines", [
    (["J", "kgs"], ["kgs: unknown name", "similar: kg"]),
    (["yd=0.9144<mm>"], ["yd=0.9144<mm>: unknown name", "similar: m"]),
    (["m^2147483647*m"], ["m^2147483647*m: power range", "powers go from -2147483647 to 2147483647"])])
def test_a_unit_that_is_not_there_is_told(um: Um, units: list[str], lines: list[str]) -> None:
    found = um("show", "examples/vehicle.um", "metres", "10<ft>", *[f"--unit={unit}" for unit in units])
    assert found.status == 11
    assert found.err.splitlines()[1:] == lines


@pytest.mark.needs("explain")
@pytest.mark.parametrize("words", [["rescale"], ["twin", "bill", "4<item>"]])
def test_a_base_unit_that_is_not_there_is_told(um: Um, words: list[str]) -> None:
    found = um(words[0], "examples/bill.um", "cents=3,item=2,each=5", *words[1:])
    assert (found.status, found.err.splitlines()) == (11, [
        "examples/bill.um: error 11: no such base unit", "cents: unknown name", "similar: cent",
        "each stands for other units, and has no size of its own"])


def test_bytes_that_are_no_text_are_refused_at_their_place(um: Um, program: Write) -> None:
    file = program(b"let k = 1\nlet \xff")
    found = um("types", file)
    assert (found.status, found.err.splitlines()[0]) == (3, f"{file}:2:5: error 3: not UTF-8")


@pytest.mark.parametrize("text, last", [
    ("let gr\u00f6\u00dfe = 1".encode("latin-1"), "save it as UTF-8"),
    ("let k = 1".encode("utf-16"), "the text is UTF-16; save it as UTF-8"),
    ("\ufefflet k =\u00a01\r\n", "the character is U+00A0 NO-BREAK SPACE"),
    ("let k = 1 \u2013 2", "the character is U+2013 EN DASH"), ("let k = 1\0", "the character is U+0000")])
def test_what_is_not_seen_on_the_screen_is_told(um: Um, program: Write, text: Any, last: str) -> None:
    file = program(text)
    assert um("types", file).err.splitlines()[-1] == last
    tree, = um("types", "--json", "--with", VEHICLE, file).objects
    assert tree["explanation"][-1] == last


def test_a_character_that_is_seen_is_not_told(um: Um, program: Write) -> None:
    assert "U+" not in um("types", program("let k = 5 % 2")).err


def test_a_text_that_is_too_long_is_refused(um: Um, program: Write) -> None:
    file = program(b" " * 1048577)
    found = um("types", file)
    assert (found.status, found.err) == (2, f"{file}: error 2: text too long\n")


def test_a_file_without_end_is_too_long(um: Um) -> None:
    found = um("types", "/dev/zero")
    assert (found.status, found.err) == (2, "/dev/zero: error 2: text too long\n")
    found = um("conform", "examples/area.um", "/dev/zero")
    assert (found.status, found.err) == (66, "um: /dev/zero: the file is too long\n")


def test_an_image_that_is_none_is_refused(um: Um) -> None:
    found = um("exec", "examples/area.um", "mean", "[1]")
    assert (found.status, found.err) == (22, "examples/area.um: error 22: image at byte 0\n")


def test_a_certificate_is_an_answer_also_of_a_refused_function(um: Um) -> None:
    found = um("prove", "examples/refusals/units.um")
    assert (found.status, found.out, found.err) == (0, "total no 1 2\n  rows: 0*1\n", "")


# ---- colours

def on_terminal(*words: str, **environment: str) -> str:
    """What `um` writes to a terminal as standard error."""
    ours, theirs = pty.openpty()
    done = subprocess.run([sys.executable, str(UM), *words], cwd=HOME, stdout=subprocess.DEVNULL, stderr=theirs,
                          env={**os.environ, "TERM": "xterm", **environment})
    os.close(theirs)
    written = b""
    while True:
        try:
            piece = os.read(ours, 65536)
        except OSError:
            break
        if not piece:
            break
        written += piece
    os.close(ours)
    assert done.returncode == 9
    return written.decode()


REFUSED = ["types", "examples/refusals/units.um"]


def test_there_are_colours_on_a_terminal(um: Um) -> None:
    assert "\x1b[1;31merror 9:\x1b[0m units of total" in on_terminal(*REFUSED)
    assert "\x1b" not in on_terminal(*REFUSED, NO_COLOR="1")
    assert "\x1b" not in on_terminal(*REFUSED, TERM="dumb")
    assert "\x1b" not in on_terminal(*REFUSED, "--color", "never")
    assert "\x1b[" in on_terminal(*REFUSED, "--color", "always", NO_COLOR="1")


def test_there_are_no_colours_elsewhere_unless_they_are_asked_for(um: Um) -> None:
    assert "\x1b" not in um(*REFUSED).err
    assert "\x1b[1;31merror 9:\x1b[0m" in um(*REFUSED, "--color", "always").err
