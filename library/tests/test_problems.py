"""The numbers in the answers of the worked problems are those of independent calculations; units aren't compared here.

tools/library holds the program to the answers.
"""
from fractions import Fraction
from typing import Any

import pytest
import worked
import worked_steps
from library_documents import shown_commands
from library_files import PROBLEMS, calls
from quantities import Quantity, read

NAMES = sorted(path.stem for path in PROBLEMS.glob("*.um"))


def numbers(value: Any) -> list[Fraction]:
    """The numbers of a value, in order."""
    if isinstance(value, (list, tuple)):
        return [number for each in value for number in numbers(each)]
    if isinstance(value, dict):
        return numbers(list(value.values()))
    return [value.value if isinstance(value, Quantity) else Fraction(value)]


def stepwise(name: str) -> bool:
    """Whether a problem goes in steps."""
    return hasattr(worked_steps, name)


@pytest.mark.parametrize("name", [name for name in NAMES if not stepwise(name)])
def test_exact_answers(name: str) -> None:
    expected = getattr(worked, name)()
    found = {" ".join(call.words): numbers(read(call.answer)) for call in calls(PROBLEMS / f"{name}.calls")}
    assert found == {call: numbers(value) for call, value in expected.items()}


@pytest.mark.parametrize("name", [name for name in NAMES if stepwise(name)])
def test_answers_in_steps(name: str) -> None:
    expected = getattr(worked_steps, name)()
    found = {" ".join(call.words): numbers(read(call.answer)) for call in calls(PROBLEMS / f"{name}.calls")}
    assert found.keys() == expected.keys()
    for call, (value, by) in expected.items():
        wanted = numbers(value)
        assert len(found[call]) == len(wanted)
        for answer, number in zip(found[call], wanted):
            assert abs(answer - number) <= Fraction(by), (call, float(answer), float(number))


def test_twenty_problems_each_with_a_command() -> None:
    shown = {command.files[0] for command in shown_commands(PROBLEMS / "README.md")}
    assert len(NAMES) == 20
    assert set(shown) == {f"examples/problems/{name}.um" for name in NAMES}
