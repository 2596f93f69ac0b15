"""The worked problems of examples/problems that have exact answers, calculated in Python's fractions and decimals.

Each function gives the calls of one problem and their values, without units; a value may be a list. The file
worked_steps.py has the problems that are computed step by step.
"""
import statistics
from decimal import ROUND_HALF_EVEN, ROUND_HALF_UP, Decimal, getcontext
from fractions import Fraction
from math import floor, isqrt
from typing import Any

from library_files import PROBLEMS

getcontext().prec = 60
Answers = dict[str, Any]
CENT = Decimal("0.01")
GALLON = 231 * Fraction("0.0254") ** 3


def even(amount: Decimal) -> Decimal:
    """An amount in cents, halfway to the even one."""
    return amount.quantize(CENT, ROUND_HALF_EVEN)


def up(amount: Decimal) -> Decimal:
    """A positive amount in cents, halfway up."""
    return amount.quantize(CENT, ROUND_HALF_UP)


def to(step: str, value: Fraction | Decimal) -> Fraction:
    """A value rounded to a step, halfway to the even multiple."""
    return round(Fraction(value) / Fraction(step)) * Fraction(step)


def root(step: str, value: Fraction) -> Fraction:
    """A square root rounded to a step."""
    return Fraction((isqrt(floor(4 * value / Fraction(step) ** 2)) + 1) // 2) * Fraction(step)


def mortgage() -> Answers:
    """The payment by the closed formula, then month by month in Decimal."""
    rate, left, paid, balances = Decimal("0.048") / 12, Decimal(250000), Decimal(0), {}
    payment = even(left * rate / (1 - (1 + rate) ** -360))
    for month in range(1, 361):
        interest = even(left * rate)
        part = payment - interest if month < 360 else left
        left, paid, balances[month] = left - part, paid + interest, left - part
    return {"payment": payment, "last_payment": interest + part, "cost": paid, "after 10": balances[120],
            "after 20": balances[240]}


def savings() -> Answers:
    """Month by month in Decimal."""
    total, first = Decimal(0), None
    for month in range(1, 361):
        total += even(total * Decimal("0.03") / 12) + 200
        if first is None and month >= 2 and total >= month * 300:
            first = month
    return {"at_end": total, "interest": total - 72000, "half_more": first}


def titration() -> Answers:
    """Three results, their mean and deviation."""
    results = [Fraction("0.1025") * Fraction(ml) / 2 / 25 for ml in ("21.45", "21.38", "21.42")]
    strength = sum(results) / 3
    return {"strength": strength, "spread": root("0.000001", statistics.variance(results)),
            "in_grams": to("0.001", strength * Fraction("98.079"))}


def beam() -> Answers:
    """The first height of a list that is high enough."""
    def moment(height: Fraction) -> Fraction:
        return Fraction("0.06") * height**3 / 12

    def sag(height: Fraction) -> Fraction:
        return 2000 * Fraction(4) ** 3 / (48 * 11 * 10**9 * moment(height))
    height = next(h for h in (Fraction(cm, 100) for cm in range(10, 60, 2)) if sag(h) <= Fraction(4, 300))
    return {"height": height, "sag": to("0.0001", sag(height)),
            "stress": to("1000", 2000 * height / 2 / moment(height))}


def invoice() -> Answers:
    """Two lines, a discount, freight in dollars, and three shares."""
    lines = even(Decimal("23.75") * Decimal("12.345")) + even(Decimal("4.15") * 60)
    goods = up(lines * Decimal("0.97")) if lines >= 500 else lines
    due = goods + even(Decimal("85.50") / Decimal("1.0837"))
    cents = int(due * 100)
    parts = [Decimal(cents // 3 + (1 if i < cents % 3 else 0)) / 100 for i in range(3)]
    return {"goods": goods, "due": due, "due_in_dollars": even(due * Decimal("1.0837")), "parts": parts}


def ladder() -> Answers:
    """A ladder of n rungs is a quotient of Fibonacci numbers, F(2n + 1) over F(2n)."""
    numbers = [0, 1]
    while len(numbers) < 42:
        numbers.append(numbers[-1] + numbers[-2])
    ratio = Fraction(numbers[41], numbers[40])
    return {"whole": 1000 * ratio, "current": 12 / (1000 * ratio), "rest": ratio**2 - ratio - 1}


def balloons() -> Answers:
    """Amounts by p V / R T."""
    room = Fraction("8.314462618") * Fraction("293.15")
    usable = (200 * 100000 - 101325) * Fraction("0.01") / room
    return {"balloons": floor(usable / (101325 * Fraction("0.012") / room)),
            "helium": to("0.01", to("0.000001", usable) * Fraction("4.002602"))}


def kettle() -> Answers:
    """Heat over power, and heat over the size of a kilowatt hour."""
    heat = Fraction("1.497") * 4184 * 85 / Fraction("0.9")
    cost = Decimal(heat.numerator) / heat.denominator / 3600000 * Decimal("0.32")
    return {"minutes": to("0.01", heat / 2000 / 60), "cost": up(cost), "cold_in_Fahrenheit": 59}


def dilutions() -> Answers:
    """Powers of a quarter."""
    series = [2 * Fraction(1, 4) ** n for n in range(1, 9)]
    weak = next(n for n, c in enumerate(series, 1) if c < Fraction(1, 1000))
    return {"series": series, "weak": weak, "at_once": Fraction(3, 2000)}


def trip() -> Answers:
    """Litres for 100 km."""
    def used(miles: Fraction, gallons: Fraction) -> Fraction:
        return to("0.01", gallons * GALLON * 1000 / (miles * Fraction("1.609344")) * 100)
    miles, gallons = [312, 287, 405], [Fraction("9.8"), Fraction("8.7"), Fraction("13.1")]
    dollars = up(Decimal("31.6") * Decimal("3.459"))
    return {"on_each": [used(m, g) for m, g in zip(miles, gallons)], "on_all": used(sum(miles), sum(gallons)),
            "cost": even(dollars / Decimal("1.0837"))}


def measurements() -> Answers:
    """Python's own statistics on fractions."""
    last = [41, 49, 44, 38, 51, 43, 46, 40, 47, 45, 39, 42]
    rods = [Fraction(12300 + each, 10000) for each in last]
    variance, weight = statistics.variance(rods), 1 / Fraction("0.0002") ** 2
    own = 12 / variance
    return {"middle": statistics.median(rods), "best": statistics.mean(rods), "scatter": root("0.0000001", variance),
            "sure": root("0.0000001", variance / 12),
            "both": to("0.0000001", (own * statistics.mean(rods) + weight * Fraction("1.2346")) / (own + weight))}


def braking() -> Answers:
    """Way of reaction and way of braking."""
    def speed(mph: int) -> Fraction:
        return mph * Fraction("1609.344") / 3600

    def way(mph: int) -> Fraction:
        return speed(mph) * Fraction("0.7") + speed(mph) ** 2 / 14
    square = speed(50) ** 2 - 14 * (way(30) - speed(50) * Fraction("0.7"))
    return {"feet": [to("0.1", way(mph) / Fraction("0.3048")) for mph in (30, 50, 70)],
            "hits": root("0.1", square / speed(1) ** 2)}


def taxes() -> Answers:
    """The tax by the parts of an income that lie in each band."""
    def tax(income: Decimal) -> Decimal:
        found, low = Decimal(0), Decimal(0)
        for high, part in ((11000, "0"), (30000, "0.2"), (80000, "0.32"), (10**9, "0.45")):
            found += max(min(income, Decimal(high)) - low, Decimal(0)) * Decimal(part)
            low = Decimal(high)
        return up(found)
    incomes = [Decimal(text) for text in ("9500", "24600.50", "61234.56", "120000")]
    least = next(i for i in range(50000, 100000) if i - tax(Decimal(i)) >= 50000)
    return {"four": [tax(income) for income in incomes], "for_50000": least,
            "part_of 61234.56<eur>": to("0.0001", tax(incomes[2]) / incomes[2])}


def rate_of_return() -> Answers:
    """The rate by Newton's rule in Decimal, cut to a millionth."""
    income = [Decimal(each) for each in (9000, 12500, 13000, 11000, 8500)]

    def worth(rate: Decimal) -> Decimal:
        return sum(each / (1 + rate) ** year for year, each in enumerate(income, 1))

    rate = Decimal("0.1")
    for _ in range(20):
        slope = -sum(year * each / (1 + rate) ** (year + 1) for year, each in enumerate(income, 1))
        rate -= (worth(rate) - 42000) / slope
    return {"rate": Fraction(floor(rate * 10**6), 10**6), "gain_at_6_percent": even(worth(Decimal("0.06")) - 42000)}


def regression() -> Answers:
    """The normal equations on whole microvolts, read from the problem's own text."""
    text = (PROBLEMS / "regression.um").read_text()
    ys = [Fraction(item.split("<")[0].strip(" [\n")) for item in text.split("voltages =")[1].split("]")[0].split(";")]
    xs = [Fraction(20 + 5 * i) for i in range(100)]
    assert len(ys) == 100
    mean_x, mean_y = statistics.mean(xs), statistics.mean(ys)
    xy = sum((x - mean_x) * (y - mean_y) for x, y in zip(xs, ys))
    xx, yy = sum((x - mean_x) ** 2 for x in xs), sum((y - mean_y) ** 2 for y in ys)
    slope = xy / xx
    intercept = mean_y - slope * mean_x
    left = [y - intercept - slope * x for x, y in zip(xs, ys)]
    return {"slope_to_6": to("0.000001", slope), "intercept_to_6": to("0.000001", intercept),
            "explained": to("0.000001", xy**2 / (xx * yy)), "farthest": to("0.001", max(map(abs, left))),
            "at_12_mV": to("0.1", (12 - intercept) / slope), "check": 0}
