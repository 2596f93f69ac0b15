"""What each function of the library computes, written apart from it in Python: the expected values of the .calls files.

Where the library goes step by step so that numbers stay small, this goes straight at the exact value.
"""
from fractions import Fraction
from math import ceil, floor, isqrt
from typing import Any, Callable

from quantities import Quantity, quantity, same

PI = Fraction(5419351, 1725033)
GRAVITY = Quantity(Fraction("9.80665"), {"m": 1, "s": -2})
# What gases and electrolyses are counted with.
GAS_10 = Quantity(Fraction("8.314462618"), {"kg": 1, "m": 2, "s": -2, "K": -1, "mol": -1})
FARADAY_10 = Quantity(Fraction("96485.33212"), {"A": 1, "s": 1, "mol": -1})
GAS = Quantity(Fraction("6.02214076") * Fraction("1.380649"), {"kg": 1, "m": 2, "s": -2, "K": -1, "mol": -1})
FARADAY = Quantity(Fraction("6.02214076") * Fraction("1.602176634") * 10**4, {"A": 1, "s": 1, "mol": -1})
Function = Callable[..., Any]


def positive(step: Quantity) -> Quantity:
    """A step, which has to be positive."""
    if step.value <= 0:
        raise ZeroDivisionError
    return step


def stepped(rule: Callable[[Fraction], int]) -> Function:
    """A rounding to a step, by a rule that rounds a fraction to a whole number."""
    def rounding(step: Quantity, x: Quantity) -> Quantity:
        count = rule(x.value / positive(step).value)
        return Quantity(count * step.value, same(step.unit, x.unit))
    return rounding


def away(x: Fraction) -> int:
    """The nearest whole number, of two the one farther from 0."""
    size = floor(abs(x) + Fraction(1, 2))
    return size if x >= 0 else -size


round_to, round_away_to, ceil_to = stepped(round), stepped(away), stepped(ceil)


def sqrt_to(step: Quantity, x: Quantity) -> Quantity:
    """The nearest multiple of step to a root; halfway up."""
    if x.value < 0:
        raise ZeroDivisionError
    same((step**2).unit, x.unit)
    quarters = 4 * x.value / positive(step).value ** 2
    halves = isqrt(floor(quarters))
    return step * Quantity(Fraction((halves + 1) // 2), {})


def pow_to(step: Quantity, x: Quantity, n: Quantity) -> Quantity:
    """A power by squares from the highest bit of n down, each product rounded."""
    if n.value.denominator != 1:
        raise ZeroDivisionError
    power = quantity(1)
    for bit in bin(abs(int(n.value)))[2:].lstrip("0"):
        power = round_to(step, power * power)
        power = round_to(step, power * x) if bit == "1" else power
    return round_to(step, 1 / power) if n.value < 0 else power


def div_rem(x: Quantity, y: Quantity) -> dict[str, Quantity]:
    """Whole quotient and remainder."""
    same(x.unit, y.unit)
    whole = floor(x.value / abs(y.value))
    return {"quotient": quantity(whole if y.value >= 0 else -whole), "remainder": x - abs(y) * whole}


def interpolate(x0: Quantity, y0: Quantity, x1: Quantity, y1: Quantity, x: Quantity) -> Quantity:
    """A line's value, as a mean of the two values with weights."""
    weight = (x - x0) / (x1 - x0)
    return y0 * (1 - weight) + y1 * weight


def interpolate_in(places: list[Quantity], values: list[Quantity], x: Quantity) -> Quantity:
    """A table's value."""
    for place, value in zip(places, values):
        if place.value == x.value:
            return value
    for i in range(1, min(len(places), len(values))):
        if places[i - 1].value < x.value < places[i].value:
            return interpolate(places[i - 1], values[i - 1], places[i], values[i], x)
    raise ZeroDivisionError


def total(items: list[Quantity]) -> Quantity:
    """A sum; of nothing it is the zero that has every unit."""
    return sum(items, Quantity(Fraction(0), None))


def present(items: list[Any]) -> list[Any]:
    """A list that may not be empty."""
    if not items:
        raise ZeroDivisionError
    return items


def mean(items: list[Quantity]) -> Quantity:
    """The arithmetic mean."""
    return total(present(items)) / len(items)


def paired(a: list[Quantity], b: list[Quantity]) -> list[tuple[Quantity, Quantity]]:
    """The pairs of two lists that have to be equally long."""
    if len(a) != len(b):
        raise ZeroDivisionError
    return list(zip(a, b))


def dot(a: list[Quantity], b: list[Quantity]) -> Quantity:
    """The sum of products."""
    return total([x * y for x, y in paired(a, b)])


def nth(n: Quantity, items: list[Any]) -> Any:
    """An item by its place."""
    if n.value.denominator != 1 or not 0 <= n.value < len(items):
        raise ZeroDivisionError
    return items[int(n.value)]


def steps(first: Quantity, step: Quantity, last: Quantity) -> list[Quantity]:
    """An arithmetic progression."""
    count = (last - first).value / step.value
    same(step.unit, first.unit)
    return [first + step * i for i in range(floor(count) + 1)]


def counted(n: Quantity) -> int:
    """How many items a length stands for: the least whole number that isn't below it, and none below 0."""
    return max(ceil(n.value), 0)


def joint(xs: list[Quantity], ys: list[Quantity]) -> Quantity:
    """The sum of the products of the differences from the means."""
    pairs = paired(xs, ys)
    middle_x, middle_y = mean(xs), mean(ys)
    return total([(x - middle_x) * (y - middle_y) for x, y in pairs])


def median(items: list[Quantity]) -> Quantity:
    """The middle of the sorted list."""
    ordered = sorted(present(items), key=lambda x: x.value)
    return (ordered[(len(ordered) - 1) // 2] + ordered[len(ordered) // 2]) / 2


def regression(xs: list[Quantity], ys: list[Quantity]) -> dict[str, Quantity]:
    """The line of least squares, by the two equations for its two unknowns."""
    n = quantity(len(paired(xs, ys)))
    below = n * dot(xs, xs) - total(xs) * total(xs)
    intercept = (dot(xs, xs) * total(ys) - total(xs) * dot(xs, ys)) / below
    return {"intercept": intercept, "slope": (n * dot(xs, ys) - total(xs) * total(ys)) / below}


def predicted(line: dict[str, Quantity], x: Quantity) -> Quantity:
    """A line's value."""
    return line["intercept"] + line["slope"] * x


NUMBERS: dict[str, Function] = {
    "pi": lambda: quantity(PI),
    "abs": abs,
    "sign": lambda x: quantity((x.value > 0) - (x.value < 0)),
    "min": lambda x, y: y if y < x else x,
    "max": lambda x, y: y if x < y else x,
    "clamp": lambda low, high, x: low if x < low else high if high < x else x,
    "floor_to": stepped(floor),
    "ceil_to": ceil_to,
    "truncate_to": stepped(int),
    "floor": lambda x: quantity(floor(x.value)),
    "ceil": lambda x: quantity(ceil(x.value)),
    "truncate": lambda x: quantity(int(x.value)),
    "is_whole": lambda x: x.value.denominator == 1,
    "round_to": round_to,
    "round_away_to": round_away_to,
    "sqrt_to": sqrt_to,
    "pow_to": pow_to,
    "div_rem": div_rem,
    "interpolate": interpolate,
    "interpolate_in": interpolate_in,
}

LISTS: dict[str, Function] = {
    "sum": total,
    "length": lambda l: quantity(len(l)),
    "mean": mean,
    "append": lambda a, b: a + b,
    "reverse": lambda l: l[::-1],
    "take": lambda n, l: l[:counted(n)],
    "drop": lambda n, l: l[counted(n):],
    "nth": nth,
    "range": steps,
    "minimum": lambda l: min(present(l), key=lambda x: x.value),
    "maximum": lambda l: max(present(l), key=lambda x: x.value),
    "sorted": lambda l: sorted(l, key=lambda x: x.value),
    "dot": dot,
    "running_sums": lambda l: [total(l[:i + 1]) for i in range(len(l))],
    "scaled": lambda k, l: [k * x for x in l],
    "shifted": lambda k, l: [k + x for x in l],
    "sums": lambda a, b: [x + y for x, y in paired(a, b)],
    "rounded": lambda step, l: [round_to(step, x) for x in l],
}

STATISTICS: dict[str, Function] = {
    "weighted_mean": lambda weights, values: dot(weights, values) / total(weights),
    "variance": lambda l: joint(l, l) / len(l),
    "sample_variance": lambda l: joint(l, l) / (len(l) - 1),
    "deviation_to": lambda step, l: sqrt_to(step, joint(l, l) / len(l)),
    "sample_deviation_to": lambda step, l: sqrt_to(step, joint(l, l) / (len(l) - 1)),
    "median": median,
    "regression": regression,
    "predicted": predicted,
    "residuals": lambda line, xs, ys: [y - predicted(line, x) for x, y in paired(xs, ys)],
    "correlation_squared": lambda xs, ys: joint(xs, ys) ** 2 / (joint(xs, xs) * joint(ys, ys)),
}
