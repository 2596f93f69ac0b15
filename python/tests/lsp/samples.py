"""The examples and the refusals of the project, with what an editor is to show of them."""
from dataclasses import dataclass
from pathlib import Path

import pytest

EXAMPLES = Path(__file__).resolve().parents[3] / "examples"


@dataclass(frozen=True)
class Example:
    """A file, a name that is used in it, and what is known of that name. `with_parts` needs the program's annot."""

    file: str
    use: str
    declared: str
    shown: str
    new: str
    count: int
    with_parts: bool = False

    @property
    def text(self) -> str:
        return (EXAMPLES / self.file).read_text()


@dataclass(frozen=True)
class Refused:
    """A file that is refused: the status, what is refused, the report, and a line of the explanation."""

    file: str
    status: int
    before: str
    what: str
    report: str
    explained: str | None

    @property
    def text(self) -> str:
        return (EXAMPLES / "refusals" / self.file).read_text()

    @property
    def start(self) -> int:
        """Where what is refused begins."""
        return self.text.index(self.before) + len(self.before)


# `use` begins at the name, and so does `declared`; `count` is how often the name stands in the file.
EVERY = (
    Example("area.um", "x * y", "x: num<m>", "x : num<m>", "width", 2),
    Example("beam.um", "inertia b)", "inertia (b", "inertia : Section -> num<m^4>", "moment_of_area", 2),
    Example("bill.um", "price * n", "price = 1250", "price : num<cent/item>", "cost", 2),
    Example("fall.um", "fall t", "fall (t", "fall : num<s> -> num<m>", "way", 2),
    Example("inverse.um", "inverse (x -", "inverse (x:", "inverse : num -> num", "reciprocal", 2),
    Example("invoice.um", "q>; amount", "q> =", "'q", "'g", 3),
    Example("mean.um", "x + total r", "x :: r -> x", "x : num<'a>", "first", 2, with_parts=True),
    Example("mechanics.um", "N>) (path", "N = kg", "`kg m/s^2`", "newton", 3),
    Example("vehicle.um", "vel * t", "vel: num", "vel : num<'u/s>", "speed", 4),
    Example("weight.um", "k * 9.8", "k: num", "k : num<kg>", "mass", 2),
)
MARKED = [pytest.param(example, id=example.file, marks=[pytest.mark.needs("annot")] if example.with_parts else [])
          for example in EVERY]
REFUSED = (
    Refused("characters.um", 4, "3.50 ", "€", "character", "no token begins with this character"),
    Refused("form.um", 5, "1\n", "let", "syntax", "expected: OPERATOR ) ."),
    Refused("generality.um", 19, "= amount ", "+", "not general in rounded", "right: num<eur>"),
    Refused("limits.um", 6, "let ", "many", "limit parameters", "at most 16 parameters"),
    Refused("names.um", 7, "(time: num<", "s", "unknown name", None),
    Refused("powers.um", 10, "= x ", "*", "power range of grown", "powers go from -2147483647 to 2147483647"),
    Refused("shapes.um", 8, "= hours ", "+", "shape", "this operation takes numbers"),
    Refused("units.um", 9, "= wall ", "-", "units of total", "factor: ft/m"),
)
