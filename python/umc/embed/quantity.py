"""Numbers with a unit, as the program gives them."""
import re
from collections.abc import Callable
from dataclasses import dataclass, field
from decimal import Decimal
from fractions import Fraction
from typing import Any

from umc import cells, printed
from umc.errors import UmError

OPEN = "_"
HAS_TWO_PARTS = getattr(Fraction, "__slots__", None) == ("_numerator", "_denominator")  # so it is up to Python 3.13
new = object.__new__
Conversion = Callable[["Quantity", str], "Quantity"]


def exact_text(number: Fraction) -> str:
    """A number as the program writes it: 7r2."""
    return str(number.numerator) if number.denominator == 1 else f"{number.numerator}r{number.denominator}"


def unit_text(powers: dict[str, int]) -> str:
    """A unit text with these powers."""
    def side(sign: int) -> str:
        return " ".join(name if power * sign == 1 else f"{name}^{power * sign}"
                        for name, power in powers.items() if power * sign > 0)
    above, below = side(1), side(-1)
    return f"{above or 1}/{below}" if below else above


@dataclass(frozen=True)
class Quantity:
    """An exact number with a unit, as `kg m/s^2`; `""` is the unit 1, and `"_"` the open unit of a zero.

    It may be handed to a function again, as it is. Two are equal if number and unit are.
    """

    magnitude: Fraction
    unit: str = ""
    rounded: bool = False
    digits: int | None = None
    _convert: Conversion | None = field(default=None, repr=False, compare=False)

    @property
    def text(self) -> str:
        """The number and its unit in the language, as 381r125<m>."""
        return exact_text(self.magnitude) + (f"<{self.unit}>" if self.unit else "")

    @property
    def powers(self) -> dict[str, int]:
        """The powers of the unit: {"kg": 1, "m": 1, "s": -2}."""
        return {} if self.unit in ("", OPEN) else printed.unit(self.unit)

    @property
    def decimal(self) -> Decimal:
        """The number as a decimal, with the digits that it was rounded to. One without end, as 1/3, is a ValueError."""
        text = cells.decimal_text(self.magnitude, self.digits)
        if "/" in text:
            raise ValueError(f"{self.magnitude} has no end as a decimal: name digits, as in to(unit, digits=4)")
        return Decimal(text)

    def __str__(self) -> str:
        if self.digits is None:
            return self.text
        number = cells.decimal_text(self.magnitude, self.digits)
        return ("~" if self.rounded else "") + number + (f"<{self.unit}>" if self.unit else "")

    def __repr__(self) -> str:
        return f"Quantity('{self}')"

    def round(self, digits: int) -> "Quantity":
        """The number rounded to so many decimals, to the nearest and of two to the even one."""
        near = round(self.magnitude, digits)
        return Quantity(near, self.unit, self.rounded or near != self.magnitude, digits, self._convert)

    def to(self, unit: str, digits: int | None = None) -> "Quantity":
        """The same quantity in another unit: one of the program, as `J`, or a size with a name, as `ft=0.3048<m>`.

        The program computes it. If the two units are different measures, a function of the program whose name is
        `m_to_ft` goes from one to the other. `digits` rounds what comes.
        """
        if self._convert is None:
            raise UmError(f"{self} comes from no program, which would know how many {unit} it is")
        found = self._convert(self, unit)
        return found if digits is None else found.round(digits)

    def to_pint(self, registry: Any = None) -> Any:
        """The same as a quantity of pint, in the registry that is named or in that of the application."""
        import pint     # Debian's python3-pint
        module: Any = pint
        units = module.get_application_registry() if registry is None else registry
        whole = units.Unit("")
        for name, power in self.powers.items():
            whole = whole * units.Unit(name) ** power
        return units.Quantity(self.magnitude, whole)


def plain(tree: Any) -> Any:
    """A value with its records as dictionaries."""
    if isinstance(tree, dict):
        return {name: plain(part) for name, part in tree["fields"].items()}
    return [plain(part) for part in tree] if isinstance(tree, list) else tree


def value_of(line: str, convert: Conversion) -> Any:
    """A printed value: a Quantity, a truth value, a list, or a dictionary of a record's fields."""
    number, _, unit = line.partition("<")
    above, sign, below = number.partition("r")
    try:    # most values are a number, which this finds soonest
        numerator, denominator = int(above), int(below) if sign else 1
    except ValueError:
        return plain(printed.value(line, reader(convert)))
    if HAS_TWO_PARTS:   # they have no common divisor, which isn't looked for again
        magnitude = new(Fraction)
        magnitude._numerator, magnitude._denominator = numerator, denominator   # type: ignore[attr-defined]
    else:
        magnitude = Fraction(numerator, denominator)
    made = new(Quantity)    # it is what the constructor makes, in a third of the constructor's time
    parts = made.__dict__   # a frozen class has its other fields as they are declared
    parts["magnitude"] = magnitude
    parts["unit"] = unit[:-1]
    parts["_convert"] = convert
    return made


def reader(convert: Conversion) -> Callable[[re.Match[str]], Any]:
    """Makes the numbers of printed lists and records."""
    return lambda found: Quantity(printed.fraction(found["number"]), found["unit"] or "", False, None, convert)
