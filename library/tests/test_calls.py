"""The answers in the .calls files are those of a calculation in Python's fractions that knows nothing of the program.

tools/library holds the program to the same answers. Lines whose answer is a refusal of the arguments' types say nothing
of values, and are left to it. Of an overflow it is only asked here that something in the call is large.
"""
from collections.abc import Callable
from fractions import Fraction
from math import floor, log2

import pytest
from library_files import LIBRARY, STEMS, Call, all_in_order, calls, is_helper, joined
from model import LISTS, NUMBERS, STATISTICS
from model_subjects import CHEMISTRY, ELECTRICITY, MECHANICS, MONEY, SI
from quantities import DERIVED, Quantity, largest_part, printed, read, unit_text

FUNCTIONS = {"si": SI, "num": NUMBERS, "list": LISTS, "stat": STATISTICS, "money": MONEY, "mechanics": MECHANICS,
             "electricity": ELECTRICITY, "chemistry": CHEMISTRY}
ANSWERED = [(stem, call) for stem in STEMS for call in calls(LIBRARY / f"{stem}.calls")
            if not call.answer.startswith("error 11")]


def expected(stem: str, call: Call) -> str:
    """The answer by the model: the value, or the report line of a division by zero."""
    try:
        return printed(FUNCTIONS[stem][call.words[0]](*map(read, call.words[1:])))
    except ZeroDivisionError:
        return "error 12: division by zero"


@pytest.mark.parametrize(("stem", "call"), ANSWERED, ids=lambda each: each.place if isinstance(each, Call) else "")
def test_answer_is_the_models(stem: str, call: Call) -> None:
    if call.answer == "error 12: overflow":
        arguments = [read(word) for word in call.words[1:]]
        assert largest_part(arguments) > 10**6 or call.words[0] in {"compounded", "pow_to"}, "nothing here is large"
    elif call.answer.startswith("0<"):
        assert read(expected(stem, call)).value == 0
    else:
        assert call.answer == expected(stem, call)


def test_model_has_each_function() -> None:
    for stem in STEMS:
        names = {call.words[0] for call in calls(LIBRARY / f"{stem}.calls")}
        assert names == set(FUNCTIONS[stem])
        assert not any(is_helper(name, stem) for name in names)


def test_derived_units_are_those_of_the_brochure(program: Callable[..., str]) -> None:
    text = (LIBRARY / "si.um").read_text() + "let one (x: num<_>) = x\n"
    assert len(DERIVED) == 22
    for name, unit in DERIVED.items():
        shown = f"1<{unit_text(unit)}>" if unit else "1"
        assert program(text, "run", "1", "one", f"1<{name}>") == shown


def test_constants_are_off_by_what_is_said(program: Callable[..., str]) -> None:
    text = joined(all_in_order([LIBRARY / "chemistry.um", LIBRARY / "num.um"]))
    pi = Fraction("3.14159265358979323846264338327950288")
    assert 0 < read(program(text, "run", "1", "pi")).value - pi < Fraction(3, 10**14)
    radians = read(program(text, "run", "1", "deg_to_rad", "1<deg>")).value
    assert abs(radians / (pi / 180) - 1) < Fraction(1, 10**14)
    gas, exact = (read(program(text, "run", "1", name)).value for name in ("chemistry_gas_constant", "gas_constant"))
    assert 0 < exact - gas < Fraction(2, 10**11) * exact


def test_budgets_of_roundings_are_the_rule_of_the_document() -> None:
    """A rounding costs 4 calls and one for each power of 2 up to the answer in steps; floor 1 more, a root 1 less."""
    extra = {"round_to": 4, "floor": 5, "sqrt_to": 3}
    seen = set()
    for call in calls(LIBRARY / "num.calls"):
        halfway = call.words[:3] == ("round_to", "0.01<m>", "2.675<m>")
        if call.budget is None or halfway:
            continue
        step = Quantity(read("1").value, {}) if call.words[0] == "floor" else read(call.words[1])
        count = read(call.answer).value / step.value
        assert call.budget == floor(log2(count)) + extra[call.words[0]]
        seen.add(call.words[0])
    assert seen == set(extra)
