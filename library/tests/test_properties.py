"""What the comments promise of the library's functions, on numbers drawn at random from fixed seeds.

All calls of one function are put to the program at once, as the items of one list.
"""
import statistics
from collections.abc import Callable
from fractions import Fraction
from math import ceil, floor
from random import Random
from typing import Any

import pytest
from library_files import LIBRARY, in_order, joined
from model_subjects import annuity
from quantities import Quantity, quantity, read

Ask = Callable[[str, list[str]], list[Any]]
COUNT = 200


def number(value: Fraction) -> str:
    """A number as the language writes it inside an expression."""
    text = f"{abs(value.numerator)}r{value.denominator}"
    return f"(-{text})" if value < 0 else text


def items(values: list[Fraction]) -> str:
    """A list as the language writes it."""
    return "[" + "; ".join(map(number, values)) + "]"


@pytest.fixture
def ask(program: Callable[..., str]) -> Ask:
    """The values of expressions over the functions of one file."""
    def values(stem: str, expressions: list[str]) -> list[Any]:
        text = joined(in_order(LIBRARY / f"{stem}.um")) + f"let batch = [{'; '.join(expressions)}]\n"
        answer = read(program(text, "run", "10000000", "batch"))
        return [each.value if isinstance(each, Quantity) else each for each in answer]
    return values


def wide(random: Random) -> Fraction:
    """A number of any sign whose two parts may have 62 bits."""
    below = 2 ** random.randrange(1, 62)
    return Fraction(random.randrange(-below, below), random.randrange(1, 2 ** random.randrange(1, 62)))


def decimals(random: Random, most: int, digits: int) -> Fraction:
    """A number from 0 up to `most` with a few decimals."""
    return Fraction(random.randrange(most * 10**digits + 1), 10**digits)


def monthly(random: Random) -> Fraction:
    """A rate of interest for a month, from 0 to 12 percent a year."""
    return Fraction(random.randrange(121), 12000)


@pytest.mark.parametrize("name", ["round_to", "round_away_to", "floor_to", "ceil_to", "truncate_to"])
def test_roundings(ask: Ask, name: str) -> None:
    random = Random(name)
    cases = []
    while len(cases) < COUNT:
        x, step = wide(random), Fraction(random.randrange(1, 50), 10 ** random.randrange(7))
        if abs(x) < 2**40 * step:
            cases.append((step, x if random.random() < 0.7 else step * random.randrange(-99, 99) / 2))
    answers = ask("num", [f"{name} {number(step)} {number(x)}" for step, x in cases])
    rules = {"round_to": round, "floor_to": floor, "ceil_to": ceil, "truncate_to": int,
             "round_away_to": lambda q: floor(q + Fraction(1, 2)) if q > 0 else ceil(q - Fraction(1, 2))}
    assert answers == [rules[name](x / step) * step for step, x in cases]


def test_floor_never_overflows(ask: Ask) -> None:
    random = Random(1)
    cases = [Fraction(random.randrange(-2**63 + 1, 2**63), random.randrange(1, 2 ** random.randrange(1, 63)))
             for _ in range(COUNT)]
    assert ask("num", [f"floor {number(x)}" for x in cases]) == [floor(x) for x in cases]
    assert ask("num", [f"ceil {number(x)}" for x in cases]) == [ceil(x) for x in cases]


def test_root_is_within_half_a_step(ask: Ask) -> None:
    random = Random(2)
    cases = [(Fraction(1, 10 ** random.randrange(7)), decimals(random, 10 ** random.randrange(6), random.randrange(5)))
             for _ in range(COUNT)]
    for (step, x), root in zip(cases, ask("num", [f"sqrt_to {number(s)} {number(x)}" for s, x in cases])):
        assert (root / step).denominator == 1 and root >= 0
        assert max(root - step / 2, Fraction(0)) ** 2 <= x <= (root + step / 2) ** 2


def test_root_of_a_square_is_exact(ask: Ask) -> None:
    random = Random(3)
    roots = [decimals(random, 1000, 3) for _ in range(COUNT)]
    assert ask("num", [f"sqrt_to 0.001 {number(r * r)}" for r in roots]) == roots


def test_power_is_within_its_bound(ask: Ask) -> None:
    random = Random(4)
    cases = []
    while len(cases) < COUNT:
        x, n = decimals(random, 2, 3) - Fraction(1, 2), random.randrange(200)
        step = Fraction(1, 10 ** random.randrange(4, 8))
        if n * step < Fraction(1, 10) and abs(x) ** n < 20:
            cases.append((step, x, n))
    for (step, x, n), power in zip(cases, ask("num", [f"pow_to {number(s)} {number(x)} {n}" for s, x, n in cases])):
        assert abs(power - x**n) <= n * step * max(Fraction(1), abs(x) ** n)


def test_division_with_remainder(ask: Ask) -> None:
    random = Random(5)
    cases = [(decimals(random, 1000, 3) - 500, decimals(random, 9, 2) - Fraction(4499, 1000)) for _ in range(COUNT)]
    for (x, y), parts in zip(cases, ask("num", [f"div_rem {number(x)} {number(y)}" for x, y in cases])):
        quotient, remainder = parts["quotient"].value, parts["remainder"].value
        assert quotient.denominator == 1 and 0 <= remainder < abs(y) and x == quotient * y + remainder


def test_sorting_and_middles(ask: Ask) -> None:
    random = Random(6)
    lists = [[Fraction(random.randrange(-9, 10), random.randrange(1, 4)) for _ in range(random.randrange(1, 40))]
             for _ in range(60)]
    for name, rule in (("sorted", sorted), ("reverse", lambda l: l[::-1])):
        found = ask("stat", [f"{name} {items(each)}" for each in lists])
        assert [[item.value for item in each] for each in found] == [rule(each) for each in lists]
    assert ask("stat", [f"median {items(each)}" for each in lists]) == [statistics.median(each) for each in lists]
    assert ask("stat", [f"variance {items(each)}" for each in lists]) == [statistics.pvariance(each) for each in lists]


def test_regression_is_pythons(ask: Ask) -> None:
    random = Random(7)
    for _ in range(5):
        xs = [decimals(random, 100, 1) for _ in range(30)]
        ys = [3 * x + decimals(random, 20, 2) for x in xs]
        line = ask("stat", [f"regression {items(xs)} {items(ys)}"])[0]
        slope, intercept = statistics.linear_regression([float(x) for x in xs], [float(y) for y in ys])
        assert abs(float(line["slope"].value) - slope) < 1e-9 and abs(float(line["intercept"].value) - intercept) < 1e-9
        share = ask("stat", [f"correlation_squared {items(xs)} {items(ys)}"])[0]
        assert abs(float(share) - statistics.correlation([float(x) for x in xs], [float(y) for y in ys]) ** 2) < 1e-9


def test_annuity_is_the_nearest_coin(ask: Ask) -> None:
    random = Random(8)
    coin = Fraction(1, 100)
    cases = [(monthly(random), random.randrange(1, 361), Fraction(random.randrange(1000, 500000))) for _ in range(60)]
    answers = ask("money", [f"annuity 0.01 {number(rate)} {n} {number(loan)}" for rate, n, loan in cases])
    assert answers == [annuity(quantity(coin), *map(quantity, case)).value for case in cases]


def test_instalments_repay_the_loan(ask: Ask) -> None:
    random = Random(9)
    for _ in range(10):
        rate, n, loan = monthly(random), random.randrange(1, 60), Fraction(random.randrange(1000, 90000))
        payment = f"(annuity 0.01 {number(rate)} {n} {number(loan)})"
        table = ask("money", [f"amortisation 0.01 {number(rate)} {payment} {n} {number(loan)}"])[0]
        assert sum(row["repaid_part"].value for row in table) == loan and table[-1]["balance"].value == 0
        owed = loan
        for row in table:
            assert abs(row["interest_part"].value - owed * rate) <= Fraction(1, 200)
            owed -= row["repaid_part"].value
            assert row["balance"].value == owed


def test_shares_sum_to_the_amount(ask: Ask) -> None:
    random = Random(10)
    cases = [(random.randrange(1, 30), decimals(random, 1000, 2)) for _ in range(60)]
    for (n, amount), parts in zip(cases, ask("money", [f"shares 0.01 {n} {number(amount)}" for n, amount in cases])):
        values = [part.value for part in parts]
        assert len(values) == n and sum(values) == amount
        assert max(values) - min(values) <= Fraction(1, 100) and values == sorted(values, reverse=True)
