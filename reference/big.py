"""The generated program of `big`: two measures, and functions each of which is made of those before it."""
from __future__ import annotations


def body(number: int) -> str:
    """The body of a function by its number."""
    if number < 2:
        return "x / y" if number == 0 else "x * x * y"
    if number % 3 == 0:
        return f"g{number // 2} x y * g{number // 3} y x"
    if number % 3 == 1:
        return f"g{number - 1} x y + 0<_>"
    return f"g{number // 2} x y / g{number - 1} x y"


def big_text(count: int) -> str:
    """The text of a program of so many functions."""
    lines = ["[<Measure>] type m", "[<Measure>] type s"]
    lines += [f"let g{number} (x: num<_>) (y: num<_>) = {body(number)}" for number in range(count)]
    return "".join(line + "\n" for line in lines)
