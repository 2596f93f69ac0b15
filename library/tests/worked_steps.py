"""The worked problems of examples/problems that go in steps, against the exact motion or a much finer calculation.

Each function gives the calls of one problem, and for each its value and how far the answer may lie from it: half of
the last digit that the problem asks for, and what the steps themselves are off by.
"""
from collections.abc import Callable
from decimal import Decimal
from math import cos, pi, sqrt
from typing import Any

State = tuple[float, ...]
Near = dict[str, tuple[Any, float]]
GRAVITY = 9.80665


def runge_kutta(rates: Callable[[State], State], state: State, step: float, count: int) -> State:
    """The classical rule of fourth order."""
    def along(slope: State, time: float) -> State:
        return tuple(x + time * k for x, k in zip(state, slope))
    for _ in range(count):
        k1 = rates(state)
        k2 = rates(along(k1, step / 2))
        k3 = rates(along(k2, step / 2))
        k4 = rates(along(k3, step))
        state = tuple(x + step / 6 * (a + 2 * b + 2 * c + d) for x, a, b, c, d in zip(state, k1, k2, k3, k4))
    return state


def projectile() -> Near:
    """The flight with steps of a half millisecond."""
    factor = 1.2 * 0.4 * 0.0043 / 2 / 0.145

    def rates(state: State) -> State:
        _, _, forwards, upwards = state
        drag = factor * sqrt(forwards**2 + upwards**2)
        return forwards, upwards, -drag * forwards, -drag * upwards - GRAVITY
    along, high, _, _ = runge_kutta(rates, (0, 30, 30, 25), 0.0005, 10000)
    return {"place": ([along, high], 0.001)}


def spring() -> Near:
    """The cosine, and the energy that a spring keeps."""
    circular = sqrt(200 / 0.5)
    energy = 200 * 0.03**2 / 2
    return {"place": (0.03 * cos(circular), 0.000006), "energies": ([energy, energy], 0.000002),
            "period": (2 * pi / circular, 0.000005)}


def cooling() -> Near:
    """The exponential law."""
    def at(minutes: int) -> Decimal:
        return 21 + 69 * (Decimal("-0.045") * minutes).exp()
    first = next(minutes for minutes in range(100) if at(minutes) < 60)
    return {"after_15_min": (at(15), 0.0051), "below_60": (first, 0), "lost": (90 - at(15), 0.0051)}


def charging() -> Near:
    """The exponential law."""
    def at(ms: int) -> Decimal:
        return 12 * (1 - (-Decimal(ms) / 470).exp())
    first = next(ms for ms in range(10000) if at(ms) >= Decimal("0.632") * 12)
    return {"after_1_s": (at(1000), 0.000051), "at_632": (first, 0),
            "energy": (Decimal("0.000047") * at(1000) ** 2 / 2, 0.0000001)}


def tank() -> Near:
    """The root of the height falls evenly with time."""
    fall = 0.0005 / 1.5 * sqrt(GRAVITY / 2)

    def at(seconds: int) -> float:
        return (sqrt(2) - fall * seconds) ** 2
    first = next(seconds for seconds in range(10000) if at(seconds) < 0.5)
    return {"after_10_min": (at(600), 0.00006), "below_half": (first, 0)}
