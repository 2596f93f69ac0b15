"""Programs in Python: `import umc`, on the program and on the shared library."""
import dataclasses
import pickle
import threading
from decimal import Decimal
from fractions import Fraction
from pathlib import Path
from typing import Any

import pytest

import umc
from conftest import HOME, PROGRAM, VEHICLE, Write
from umc.embed import engines as engines_module
from umc.embed import library

RECORDS = "type P = { x: num; ok: bool }\nlet same (p: P) = p\nlet both (a: bool) (l: bool list) = a :: l\n"
THIRD = Fraction(1, 3)


def quantity(text: str) -> tuple[Fraction, str]:
    number, _, unit = text.partition("<")
    return Fraction(number.replace("r", "/")), unit.removesuffix(">")


def test_a_program_has_its_functions(vehicle: Any) -> None:
    assert list(vehicle.types()) == ["total", "count", "mean", "kinetic", "metres", "move"]
    assert str(vehicle.types()["mean"]) == "mean : num<'a> list -> num<'a>"
    kinetic = vehicle.types()["kinetic"]
    assert [part.unit for part in kinetic.parameters] == [{"kg": 1}, {"m": 1, "s": -1}]
    assert kinetic.result.unit == {"kg": 1, "m": 2, "s": -2}
    move = vehicle.types()["move"]
    assert (move.result.kind, move.result.name, move.result.units) == ("record", "Body", ({"'a": 1},))
    assert vehicle.types()["count"].parameters[0].item.unit == {"'a": 1}
    assert repr(vehicle.metres) == "<metres : num<ft> -> num<m>>"
    assert vehicle["metres"](1, unit="ft") == vehicle.metres((1, "ft"))
    assert dir(vehicle).count("metres") == 1 and not hasattr(vehicle, "yards")
    with pytest.raises(KeyError):
        vehicle["yards"]


@pytest.mark.parametrize("given", [10, Fraction(20, 2), Decimal("10.0"), "10", " 1e1 ", "20/2"])
def test_numbers_are_exact_and_take_the_unit(vehicle: Any, given: Any) -> None:
    found = vehicle.metres(given, unit="ft")
    assert (found.magnitude, found.unit) == (Fraction(381, 125), "m")
    assert vehicle.metres((given, "ft")) == found


def test_a_float_is_refused_unless_a_step_is_named(vehicle: Any) -> None:
    for given in (0.1, [1, 0.1], float("nan"), float("inf")):
        with pytest.raises(umc.ValueRefused):
            vehicle.mean(given, unit="m")
    found = vehicle.mean([0.1, 0.2, 0.3000001], unit="m", step="0.001")
    assert (found.magnitude, found.unit) == (Fraction(1, 5), "m")
    assert vehicle.metres(2.5, unit="ft", step=1) == vehicle.metres(2, unit="ft")
    for step in (0.1, 0, "-1", "small", None.__class__):
        with pytest.raises(umc.ValueRefused):
            vehicle.metres(1.5, unit="ft", step=step)
    for given in (float("nan"), float("inf")):
        with pytest.raises(umc.ValueRefused):
            vehicle.metres(given, unit="ft", step=1)


def test_lists_records_and_truth_values(vehicle: Any, engine: Any) -> None:
    assert vehicle.mean([1, Decimal("2.5"), (4, "m"), "0.5"], unit="m").text == "2<m>"
    assert vehicle.mean(["1<m>", "2<m>"]).text == "3r2<m>"
    assert vehicle.mean(("1<m>", "2<m>")).text == "3r2<m>"
    assert vehicle.move({"pos": (1, "m"), "vel": ("1.5", "m/s")}, (2, "s")) == {
        "pos": umc.Quantity(Fraction(4), "m"), "vel": umc.Quantity(Fraction(3, 2), "m/s")}
    program = umc.Program(RECORDS, engine=engine)
    assert program.same({"x": 1, "ok": True}) == {"x": umc.Quantity(Fraction(1)), "ok": True}
    assert program.both(False, [True, False]) == [False, True, False]
    assert program.both("false", []) == [False]
    assert vehicle.count([]).magnitude == 0


def test_what_a_call_gives_may_be_handed_on(vehicle: Any) -> None:
    found = vehicle.kinetic((2, "kg"), vehicle.mean([(1, "m/s"), (2, "m/s")]))
    assert found.text == "9r4<kg m^2/s^2>"
    assert found.powers == {"kg": 1, "m": 2, "s": -2}
    assert eval(repr(found), {"Quantity": lambda text: text}) == found.text


@pytest.mark.parametrize("given", [None, object(), b"1", {1: object()}, [1, None], [[object()]]])
def test_other_values_are_refused(vehicle: Any, given: Any) -> None:
    with pytest.raises(umc.ValueRefused):
        vehicle.metres(given)


def test_units_are_one_for_all_or_one_each(vehicle: Any) -> None:
    assert vehicle.kinetic(2, 3, unit=["kg", "m/s"]).text == "9<kg m^2/s^2>"
    assert vehicle.kinetic((2, "kg"), 3, unit="m/s").text == "9<kg m^2/s^2>"
    with pytest.raises(umc.ValueRefused):
        vehicle.kinetic(2, 3, unit=["kg"])
    with pytest.raises(umc.ValueRefused):
        vehicle.mean("[1; 2]", unit="m")


def test_quantities_in_other_units(vehicle: Any, engine: Any) -> None:
    energy = vehicle.kinetic((2, "kg"), ("3.5", "m/s"))
    assert (energy.to("J").magnitude, energy.to("J").unit) == (Fraction(49, 4), "J")
    assert str(energy.to("J", digits=2)) == "12.25<J>"
    length = vehicle.metres((10, "ft"))
    yards = length.to("yd=0.9144<m>")
    assert (yards.magnitude, yards.unit) == (Fraction(10, 3), "yd")
    near = length.to("yd=0.9144<m>", digits=4)
    assert (str(near), near.rounded, near.magnitude) == ("~3.3333<yd>", True, Fraction(33333, 10000))
    assert near.decimal == Decimal("3.3333") and str(energy.to("J", digits=3).decimal) == "12.250"
    with pytest.raises(ValueError, match="no end"):
        yards.decimal
    assert str(length.to("m", digits=3)) == "3.048<m>"
    with pytest.raises(umc.Error, match="m_to_s"):
        length.to("s")
    with pytest.raises(umc.Refused) as caught:
        length.to("furlong")
    assert caught.value.status == 11 and "umc_ratio" not in str(caught.value)
    program = umc.Program("let twice (x: num<m>) = x + x", library=["si"], engine=engine)
    assert str(program.twice(2, unit="m").to("ft", digits=4)) == "~13.1234<ft>"
    with pytest.raises(umc.Error, match="no program"):
        umc.Quantity(Fraction(1), "m").to("ft")


def test_a_zero_may_have_an_open_unit(engine: Any) -> None:
    program = umc.Program("let none (x: num<_>) = 0<_>", engine=engine)
    found = program.none(1)
    assert (found.magnitude, found.unit, found.powers) == (0, "_", {})


def test_a_library_stands_before(engine: Any) -> None:
    program = umc.Program("let fall (t: num<s>) = 9.8<m/s^2> * t * t / 2", library=["si"], engine=engine)
    assert program.fall(3, unit="s").text == "441r10<m>"
    program = umc.Program("// with: si list\nlet area (x: num<m>) = x * x", engine=engine)
    assert program.area(3, unit="m").to("m^2").magnitude == 9
    with pytest.raises(umc.Error, match="no file of the library"):
        umc.Program("let k = 1", library=["nowhere"], engine=engine)
    with pytest.raises(TypeError):
        umc.Program("let k = 1", library="si", engine=engine)


@pytest.mark.parametrize("asked", ["/etc/passwd", "-", "./a.um", "a.um", "..", "si ../secret"])
def test_a_text_names_no_file_but_the_librarys(
    engine: Any, asked: str, tmp_path: Path, monkeypatch: pytest.MonkeyPatch
) -> None:
    monkeypatch.chdir(tmp_path)
    (tmp_path / "a.um").write_text("let secret = 1\n")
    with pytest.raises(umc.Error, match="asks for a file that isn't one of the library"):
        umc.Program(f"// with: {asked}\nlet k = 1", engine=engine)


def test_a_file_may_ask_for_a_file(engine: Any, tmp_path: Path, monkeypatch: pytest.MonkeyPatch) -> None:
    monkeypatch.chdir(tmp_path)
    (tmp_path / "a.um").write_text("let two = 2\n")
    (tmp_path / "b.um").write_text("// with: ./a.um\nlet four = two + two\n")
    assert umc.Program.read(tmp_path / "b.um", engine=engine).four().magnitude == 4
    with pytest.raises(umc.Error, match="No such file"):
        umc.Program.read(tmp_path / "none.um", engine=engine)


# ---- refusals

def test_a_refused_text_has_status_place_and_function(engine: Any) -> None:
    with pytest.raises(umc.Refused) as caught:
        umc.Program.read(HOME / "examples/refusals/units.um", engine=engine)
    refused = caught.value
    assert (refused.status, refused.kind, refused.function, refused.message) == (9, "units", "total", "units of total")
    assert (refused.place.line, refused.place.column) == (3, 49)
    assert refused.place.file == str(HOME / "examples/refusals/units.um")
    assert refused.report == "error 9: units of total at 3:49"
    assert str(refused).startswith(f"{refused.place}: error 9: units of total")
    if engine.has("explain"):
        assert "  left: num<m>" in refused.explanation
    again = pickle.loads(pickle.dumps(refused))
    assert (again.status, again.place, str(again)) == (9, refused.place, str(refused))


def test_a_place_is_told_in_the_text_after_the_library(engine: Any) -> None:
    with pytest.raises(umc.Refused) as caught:
        umc.Program("let k = 1\nlet wrong (x: num<m>) = x + 1<s>", library=["si"], engine=engine)
    assert str(caught.value.place) == "<text>:2:27"


def test_a_refused_call_shows_the_argument_and_the_type(vehicle: Any, engine: Any) -> None:
    with pytest.raises(umc.Refused) as caught:
        vehicle.mean("[1<m>; 2<q>]")
    refused = caught.value
    assert (refused.status, refused.argument, refused.place) == (11, (1, 10), None)
    cause = ["unknown name"] if engine.has("explain") else []
    assert refused.explanation == ("  | [1<m>; 2<q>]", "  |          ^", *cause, "mean : num<'a> list -> num<'a>")
    with pytest.raises(umc.Refused) as caught:
        vehicle.metres(1, 2, unit="ft")
    assert caught.value.message == "wrong number of arguments"


def test_it_is_told_why_a_call_is_refused(vehicle: Any, engine: Any) -> None:
    if not engine.has("explain"):
        pytest.skip("this umc has no command 'explain'")
    cause = ("argument 1 of metres must have the type of its parameter", "  parameter: num<ft>", "  argument: num<m>",
             "  factor: m/ft", "metres : num<ft> -> num<m>")
    with pytest.raises(umc.Refused) as caught:
        vehicle.metres(3, unit="m")
    assert caught.value.explanation == cause
    with pytest.raises(umc.Refused) as caught:
        vehicle.metres.each([(1, "ft"), (2, "m"), (3, "m")])
    assert (caught.value.row, caught.value.explanation) == (2, cause)


def test_a_row_that_stopped_has_a_place(vehicle: Any, engine: Any) -> None:
    if not engine.has("trace"):
        pytest.skip("this umc has no command 'trace'")
    with pytest.raises(umc.Refused) as caught:
        vehicle.mean.each([[1], []])
    assert (caught.value.row, caught.value.place.line, caught.value.explanation[-1]) == (2, 17, "  right: 0")


def test_a_run_on_a_long_argument_is_refused_as_on_a_short_one(vehicle: Any) -> None:
    with pytest.raises(umc.Refused) as caught:
        vehicle.total([9223372036854775807] * 10000)
    assert caught.value.status == 12 and caught.value.message.startswith("overflow")


def test_a_refusal_is_told_also_if_its_cause_is_not_to_be_had(script: Write) -> None:
    stub = script(f'case "$1 $2" in "explain "|"trace 10000000") sleep 1000;; esac; exec "{PROGRAM}" "$@"')
    limited = umc.Program.read(VEHICLE, engine=umc.Process(stub, limits=umc.Limits(time=2)))
    with pytest.raises(umc.Refused) as caught:
        limited.metres(3, unit="m")
    assert (caught.value.status, caught.value.explanation) == (11, ("metres : num<ft> -> num<m>",))
    with pytest.raises(umc.Refused) as caught:
        limited.mean([])
    assert (caught.value.status, caught.value.message) == (12, "division by zero")


def test_an_error_of_a_file_names_it(engine: Any) -> None:
    with pytest.raises(umc.Error) as caught:
        umc.Program.read("nowhere.um", engine=engine)
    assert str(caught.value) == "nowhere.um: No such file or directory"


def test_a_trap_and_the_end_of_a_budget(vehicle: Any, engine: Any) -> None:
    with pytest.raises(umc.Refused) as caught:
        vehicle.mean([])
    assert (caught.value.status, caught.value.kind) == (12, "trap")
    if engine.has("trace"):
        assert caught.value.function == "mean" and caught.value.place.line == 17
        assert "  right: 0" in caught.value.explanation
    short = umc.Program.read(VEHICLE, engine=engine, budget=2)
    with pytest.raises(umc.Refused) as caught:
        short.total([1, 2, 3])
    assert caught.value.kind == "budget"


# ---- many calls

def test_each_makes_a_call_for_each_row(vehicle: Any) -> None:
    found = vehicle.kinetic.each([1, 2, 3], ["1", Fraction(1, 2), 2], unit=["kg", "m/s"])
    assert [value.magnitude for value in found] == [Fraction(1, 2), Fraction(1, 4), 6]
    assert vehicle.metres.each([]) == []
    with pytest.raises(umc.Refused) as caught:
        vehicle.metres.each([(1, "ft"), (2, "m"), (3, "q")])
    assert (caught.value.row, caught.value.status) == (2, 11)
    kept = vehicle.metres.each([(1, "ft"), (2, "m"), (3, "ft")], keep_going=True)
    assert [type(value) for value in kept] == [umc.Quantity, umc.Refused, umc.Quantity]
    with pytest.raises(umc.ValueRefused, match="argument 1, row 2"):
        vehicle.metres.each([1, 0.5], unit="ft")
    with pytest.raises(umc.ValueRefused, match="2, 1 rows"):
        vehicle.kinetic.each([1, 2], [1], unit=["kg", "m/s"])


def test_rows_may_hold_tabs_and_lines(vehicle: Any) -> None:
    texts = ["[1<m>;\n2<m>]", "[1<m>;\t3<m>]", "[1<m>]\r\n", "[1<m>; // a comment\n4<m>]"]
    assert [value.text for value in vehicle.mean.each(texts)] == ["3r2<m>", "2<m>", "1<m>", "5r2<m>"]
    found = vehicle.mean.each([*texts, "[1<m>;\n2<q>]"], keep_going=True)[-1]
    assert (found.row, found.argument) == (5, (1, 10))
    assert [value.text for value in vehicle.metres.each((n for n in (0, -10)), unit="ft")] == ["0<m>", "-381r125<m>"]


def test_rows_are_asked_by_threads_in_their_order(vehicle: Any, monkeypatch: pytest.MonkeyPatch) -> None:
    monkeypatch.setattr(engines_module, "CHUNK", 3)
    monkeypatch.setattr(vehicle.engine, "threads", 4)
    found = vehicle.metres.each(range(20), unit="ft")
    assert [value.magnitude for value in found] == [n * Fraction(381, 1250) for n in range(20)]
    with pytest.raises(umc.Refused) as caught:
        vehicle.metres.each([*["1<ft>"] * 7, "1<q>", "1<ft>"])
    assert caught.value.row == 8


@pytest.mark.parametrize("given", [3, -3, Fraction(1, 3), Decimal("2.5"), "7", "2.5e3", (4, "ft"), "5<ft>"])
def test_one_call_is_as_a_row_of_each(vehicle: Any, given: Any) -> None:
    for unit in ("ft", ["ft"], ("ft",)):
        assert vehicle.metres(given, unit=unit) == vehicle.metres.each([given], unit=unit)[0]


@pytest.mark.parametrize("unit", ["%", "%d", "0", "ft\0"])
def test_a_unit_of_any_characters(vehicle: Any, unit: str) -> None:
    with pytest.raises(umc.Error) as caught:
        vehicle.metres(1, unit=unit)
    with pytest.raises(type(caught.value)) as text:
        vehicle.metres(f"1<{unit}>")
    assert str(caught.value) == str(text.value)


def test_a_long_value_comes_whole(engine: Any) -> None:
    """Longer than the room that the library is first handed."""
    long = ENDLESS.replace("  x39", "  x12")
    program = umc.Program(long, engine=engine)
    found = program.f.printed(1)
    assert len(found) > 20_000 and found == umc.Program(long, engine=umc.Process(PROGRAM)).f.printed(1)
    assert program.f.printed(2) == found.replace("1", "2")


def test_no_word_holds_the_character_0(vehicle: Any) -> None:
    for given in ("1\0<ft>", "1<ft>\0", "\0"):
        with pytest.raises(umc.Error):
            vehicle.metres(given)
    assert vehicle.metres("1<ft>").text == "381r1250<m>"


def test_words_of_any_characters(engine: Any) -> None:
    program = umc.Program("let größe (x: num) = x", engine=engine)
    assert program.größe(1).magnitude == 1
    for given in ("π", "1<\U0001f600>", "\udcff", "\ud800"):
        with pytest.raises((umc.Refused, UnicodeEncodeError)):
            program.größe(given)


@pytest.mark.parametrize("budget", [-1, 1 << 64, 1 << 80, 10_000_001])
def test_a_budget_that_is_none(engine: Any, budget: int) -> None:
    program = umc.Program("let k (x: num) = x", engine=engine, budget=budget)
    with pytest.raises(umc.Refused) as caught:
        program.k(1)
    assert caught.value.kind == "usage"


def test_functions_with_the_names_of_methods_are_items(engine: Any) -> None:
    program = umc.Program("let types (x: num) = x + 1\nlet budget (x: num) = x\nlet _text (x: num) = x", engine=engine)
    assert program["types"](1).magnitude == 2 and list(program.types()) == ["types", "budget", "_text"]
    assert program.budget == 10_000_000 and program["budget"](3).magnitude == 3 and program["_text"](4).magnitude == 4


def test_a_question_that_is_refused_as_a_whole_has_no_row(engine: Any) -> None:
    program = umc.Program.read(VEHICLE, engine=engine, budget=20_000_000)
    with pytest.raises(umc.Refused) as caught:
        program.metres.each([(1, "ft"), (2, "ft")], keep_going=True)
    assert (caught.value.kind, caught.value.row) == ("usage", None)


def test_a_value_is_what_the_constructor_makes(vehicle: Any) -> None:
    found, made = vehicle.metres(10, unit="ft"), umc.Quantity(Fraction(381, 125), "m")
    assert found == made and hash(found) == hash(made) and repr(found) == repr(made)
    assert (found.rounded, found.digits) == (False, None)
    assert dataclasses.replace(found, unit="ft") == umc.Quantity(Fraction(381, 125), "ft")
    with pytest.raises(dataclasses.FrozenInstanceError):
        found.unit = "ft"


def test_threads_may_share_a_program(vehicle: Any) -> None:
    found: list[Fraction] = []
    threads = [threading.Thread(target=lambda n=n: found.append(vehicle.metres(n, unit="ft").magnitude))
               for n in range(8)]
    for thread in threads:
        thread.start()
    for thread in threads:
        thread.join()
    assert sorted(found) == [n * Fraction(381, 1250) for n in range(8)]


# ---- engines and limits

ENDLESS = "\n".join(["let f (x: num) =", *(f"  let x{n} = [{p}; {p}] in" for n, p in enumerate(
    ["x", *(f"x{n}" for n in range(39))])), "  x39"])


def test_a_run_is_held_within_limits() -> None:
    long = ENDLESS.replace("  x39", "  x14")
    for text, limits in ((ENDLESS, umc.Limits(memory=100 << 20)), (ENDLESS, umc.Limits(time=1.0, memory=1 << 30)),
                         (long, umc.Limits(output=50_000))):
        program = umc.Program(text, limits=limits)
        assert isinstance(program.engine, umc.Process)
        with pytest.raises(umc.LimitReached):
            program.f(1)
    with pytest.raises(TypeError):
        umc.Program("let k = 1", limits=umc.Limits(time=1), engine=umc.Process(PROGRAM))


def test_a_long_argument(engine: Any) -> None:
    if isinstance(engine, umc.Process) and not engine.has("calls"):
        pytest.skip("this umc has no command 'calls'")
    program = umc.Program.read(VEHICLE, engine=engine)
    assert program.count([(1, "m")] * 50000).magnitude == 50000


def test_a_missing_program_or_library_is_told(monkeypatch: pytest.MonkeyPatch, tmp_path: Path) -> None:
    with pytest.raises(umc.Unavailable):
        umc.Program("let k = 1", engine=umc.Process(tmp_path / "none"))
    monkeypatch.setenv(library.VARIABLE, "none")
    for words in ([tmp_path / "libnone.so"], []):
        with pytest.raises(umc.Unavailable):
            umc.Library(*words)
    assert isinstance(umc.Program("let k = 1").engine, umc.Process)
