"""--json: one object for each result."""
from fractions import Fraction
from typing import Any

import pytest

from conftest import HOME, Um, Write, answer

from umc import printed


def test_schemes_are_trees(um: Um) -> None:
    found = um("types", "--json", "examples/mechanics.um")
    (tree,) = found.objects
    assert (found.status, tree["status"], tree["file"]) == (0, 0, "examples/mechanics.um")
    moves = {function["function"]: function for function in tree["functions"]}
    assert moves["kinetic"] == {
        "function": "kinetic", "text": "kinetic : num<kg> -> num<m/s> -> num<kg m^2/s^2>",
        "parameters": [{"type": "num", "unit": {"kg": 1}}, {"type": "num", "unit": {"m": 1, "s": -1}}],
        "result": {"type": "num", "unit": {"kg": 1, "m": 2, "s": -2}}}
    assert moves["total"]["parameters"] == [{"type": "list", "item": {"type": "num", "unit": {"'a": 1}}}]
    assert moves["move"]["result"] == {"type": "record", "name": "Body", "units": [{"'a": 1}]}


@pytest.mark.parametrize("text, powers", [
    ("1", {}), ("m", {"m": 1}), ("kg m^2/s^2", {"kg": 1, "m": 2, "s": -2}), ("/'a^3", {"'a": -3}),
    ("'a 'b1^2147483647", {"'a": 1, "'b1": 2147483647}), ("1/s", {"s": -1})])
def test_a_unit_is_its_powers(text: str, powers: dict[str, Any]) -> None:
    assert printed.unit(text) == powers


@pytest.mark.parametrize("text", ["num<m", "num>", "", "num<m> lists", "m^", "num<m^x>"])
def test_what_is_no_type_is_refused(text: str) -> None:
    with pytest.raises(printed.PrintedError):
        printed.type_tree(text)


@pytest.mark.parametrize("text", ["", "[1; 2", "[1;2]", "{ a = 1", "{ a 1 }", "1x", "[1] ", "nan"])
def test_what_is_no_value_is_refused(text: str) -> None:
    with pytest.raises(printed.PrintedError):
        printed.value(text)


def test_every_example_has_trees_that_say_what_its_lines_say() -> None:
    for file in sorted((HOME / "examples").glob("*.um")):
        status, output = answer(["types"], file.read_bytes())
        assert status == 0
        for line, tree in zip(output.splitlines(), printed.schemes(output), strict=True):
            assert line == spelled(tree)


def spelled(tree: dict[str, Any]) -> str:
    return f"{tree['function']} : {' -> '.join(map(spelled_type, [*tree['parameters'], tree['result']]))}"


def spelled_type(tree: dict[str, Any]) -> str:
    if tree["type"] == "list":
        return spelled_type(tree["item"]) + " list"
    if tree["type"] == "record":
        units = ", ".join(spelled_unit(unit) or "1" for unit in tree["units"])
        return f"{tree['name']}<{units}>" if units else tree["name"]
    unit = spelled_unit(tree["unit"]) if tree["type"] == "num" else ""
    return f"{tree['type']}<{unit}>" if unit else tree["type"]


def spelled_unit(powers: dict[str, int]) -> str:
    def side(sign: int) -> str:
        return " ".join(name if power == sign else f"{name}^{sign * power}"
                        for name, power in powers.items() if sign * power > 0)
    return side(1) + ("/" + side(-1) if side(-1) else "")


def test_values_are_exact_fractions_with_units(um: Um) -> None:
    (tree,) = um("run", "--json", "examples/vehicle.um", "metres", "10<ft>").objects
    assert tree == {"status": 0, "file": "examples/vehicle.um", "function": "metres",
                    "value": {"number": "381/125", "unit": {"m": 1}}, "text": "381r125<m>"}
    assert Fraction(tree["value"]["number"]) == Fraction("3.048")
    (tree,) = um("run", "--json", "examples/vehicle.um", "total", "[]").objects
    assert tree["value"] == {"number": "0", "unit": None}


def test_values_are_lists_records_and_truth_values(um: Um, program: Write) -> None:
    file = program("type P = { x: num; ok: bool }\nlet p = [{ x = 1; ok = true }; { x = 0 - 1r2; ok = false }]\n"
                   "let e = ([] : num list list)\nlet t = true")
    (tree,) = um("run", "--json", file, "p").objects
    assert tree["value"] == [{"fields": {"x": {"number": "1", "unit": {}}, "ok": True}},
                             {"fields": {"x": {"number": "-1/2", "unit": {}}, "ok": False}}]
    assert um("run", "--json", file, "e").objects[0]["value"] == []
    assert um("run", "--json", file, "t").objects[0]["value"] is True


def test_a_value_as_high_as_can_be(um: Um, program: Write) -> None:
    value = "[" * 398 + "1" + "]" * 398
    found = um("run", "--json", program(f"let f (x: num{' list' * 398}) = x"), "f", value)
    assert (found.status, found.err) == (0, "")
    assert f'"text": "{value}"' in found.out
    lines = ["type R0 = { f0: num }"] + [f"type R{n} = {{ f{n}: R{n - 1} }}" for n in range(1, 398)]
    value = "".join(f"{{ f{n} = " for n in reversed(range(398))) + "1" + " }" * 398
    found = um("run", "--json", program("\n".join(lines) + "\nlet f (x: R397) = x"), "f", value)
    assert (found.status, found.err) == (0, "")
    assert f'"text": "{value}"' in found.out


def test_a_refusal_is_an_object_with_its_place(um: Um) -> None:
    found = um("types", "--json", "examples/area.um", "examples/refusals/units.um")
    first, second = found.objects
    assert (found.status, found.err, first["status"]) == (9, "", 0)
    second.pop("explanation", None)
    assert second == {"status": 9, "kind": "units", "file": "examples/refusals/units.um", "line": 3, "column": 49,
                      "function": "total", "message": "units of total"}


@pytest.mark.needs("explain")
def test_a_refusal_has_its_explanation(um: Um) -> None:
    (tree,) = um("types", "--json", "examples/refusals/shapes.um").objects
    assert tree["explanation"][-3:] == ["this operation takes numbers", "  expected: num", "  found: bool"]


def test_a_refused_call_is_an_object(um: Um) -> None:
    (tree,) = um("run", "--json", "examples/vehicle.um", "mean", "[]").objects
    assert (tree["status"], tree["kind"], tree["message"]) == (12, "trap", "division by zero")
    (tree,) = um("conform", "--json", "examples/vehicle.um", "mean", "num -> num").objects
    assert (tree["status"], tree["kind"], tree["function"]) == (20, "signature", "mean")


def test_a_file_that_is_not_there_is_an_object(um: Um) -> None:
    found = um("types", "--json", "none.um", "examples/area.um")
    assert found.status == 66
    assert found.objects[0] == {"status": 66, "kind": "file", "file": "none.um", "message": "No such file or directory"}
    assert found.objects[1]["status"] == 0


def test_other_answers_by_their_parts(um: Um) -> None:
    (tree,) = um("code", "--json", "examples/area.um").objects
    assert tree["functions"] == [{"function": "area", "parameters": 2,
                                  "instructions": ["load 0", "load 1", "mul", "ret"]}]
    (tree,) = um("steps", "--json", "examples/area.um", "area", "2<m>", "3<m>").objects
    assert (tree["value"], tree["steps"]) == ({"number": "6", "unit": {"m": 2}}, 4)
    (tree,) = um("twin", "--json", "examples/bill.um", "cent=0.01", "bill", "4<item>").objects
    assert (tree["first"]["text"], tree["second"]["value"]["number"]) == ("5035<cent>", "1007/20")
    (tree,) = um("fmt", "--json", "examples/area.um").objects
    assert tree["text"] == answer(["fmt"], (HOME / "examples/area.um").read_bytes())[1]
    (tree,) = um("conform", "--json", "examples/vehicle.um", "mean", "num<m> list -> num<m>").objects
    assert tree["conforms"] is True


@pytest.mark.needs("annot")
def test_parts_of_functions(um: Um) -> None:
    (tree,) = um("annot", "--json", "examples/area.um").objects
    assert tree["functions"][0]["nodes"][1] == {
        "file": "examples/area.um", "line": 2, "column": 38, "type": {"type": "num", "unit": {"m": 2}},
        "text": "num<m^2>"}


@pytest.mark.needs("show")
def test_decimals(um: Um) -> None:
    (tree,) = um("show", "--json", "examples/vehicle.um", "metres", "10<ft>", "--digits", "2", "--unit",
                 "yd=0.9144<m>").objects
    assert tree["value"] == {"number": "3.33", "rounded": True, "unit": "yd"}
    (tree,) = um("show", "--json", "examples/vehicle.um", "metres", "10<ft>", "--digits", "0", "--unit", "m").objects
    assert tree["value"] == {"number": "3", "rounded": True, "unit": "m"}


@pytest.mark.needs("trace")
def test_traces(um: Um) -> None:
    (tree,) = um("trace", "--json", "examples/vehicle.um", "mean", "[]").objects
    assert (tree["status"], tree["kind"], tree["message"]) == (0, "trap", "division by zero in mean")
    assert tree["place"] == {"file": "examples/vehicle.um", "line": 17, "column": 37}
    (tree,) = um("trace", "--json", "examples/vehicle.um", "mean", "[1; 2; 6]").objects
    assert tree["value"] == {"number": "3", "unit": {}}
