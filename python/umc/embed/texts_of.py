"""The text of an argument for a value of Python.

Numbers are exact: a float is refused unless a step is named, and is then rounded to the nearest multiple of the step.
Whether a text fits the function is for the program to say.
"""
import math
import numbers
from collections.abc import Iterable, Mapping
from dataclasses import dataclass, field
from decimal import Decimal
from fractions import Fraction
from functools import lru_cache
from itertools import repeat
from typing import Any

from umc import cells
from umc.embed.quantity import Quantity, exact_text, unit_text
from umc.errors import Exit, UmError

Step = int | Fraction | Decimal | str
WITHOUT_UNIT = cells.WITHOUT_UNIT
MISSING = "there is no value"


class ValueRefused(UmError, TypeError):
    """A value of Python can't be an argument."""

    status, kind = Exit.DATA, "value"


def exact_step(step: Step) -> Fraction:
    """The step that is named: a number above 0, exact."""
    if isinstance(step, float) or isinstance(step, bool):
        raise ValueRefused(f"a step is exact: write step='{step}'")
    try:
        found = Fraction(step)
    except (TypeError, ValueError, OverflowError, ZeroDivisionError) as fault:
        raise ValueRefused(f"{step!r} is no step") from fault
    if found <= 0:
        raise ValueRefused(f"a step is above 0, and {step} isn't")
    return found


@dataclass(frozen=True)
class Writer:
    """Writes arguments: with the unit of numbers that have none of their own, and the step of floats."""

    unit: str | None = None
    step: Fraction | None = None
    ending: str = field(init=False)     # what stands after a number: its unit, as <kg>

    def __post_init__(self) -> None:
        named = self.unit is not None and self.unit.strip() not in WITHOUT_UNIT
        object.__setattr__(self, "ending", f"<{self.unit}>" if named else "")

    def texts(self, values: Iterable[Any], one: str) -> list[str]:
        """The texts of many values. `one` names what each of them is, for a value that is refused."""
        texts: list[str] = []
        unit, text, add = self.ending, self.text, texts.append
        try:
            for value in values:
                add(f"{value}{unit}" if type(value) is int else text(value))
        except ValueRefused as error:
            raise ValueRefused(f"{one} {len(texts) + 1}: {error.message}") from error
        return texts

    def text(self, value: Any) -> str:
        """The text of a value."""
        kind = type(value)
        if kind is int:  # the most common first
            return f"{value}{self.ending}"
        if kind is Fraction:
            return exact_text(value) + self.ending
        if kind is tuple or kind is list:
            return self._with(value[1]).text(value[0]) if _is_number_with_unit(value) else self._list(value)
        if isinstance(value, str):
            return value if self.unit is None else self._string(value)
        if isinstance(value, Quantity):
            return value.text
        if isinstance(value, bool) or type(value).__name__ in ("bool_", "bool"):
            return "true" if value else "false"
        if isinstance(value, numbers.Real | Decimal):
            return self._number(value)
        return self._made(value)

    def _made(self, value: Any) -> str:
        if _is_pint(value):
            return self._with(unit_text(_powers(value))).text(value.magnitude)
        if _is_number_with_unit(value):
            return self._with(value[1]).text(value[0])
        if isinstance(value, Mapping):
            return "{ " + "; ".join(f"{name} = {self.text(part)}" for name, part in value.items()) + " }"
        if _is_missing(value):
            raise ValueRefused(MISSING)
        if isinstance(value, Iterable) and not isinstance(value, bytes | bytearray):
            return self._list(value)
        raise ValueRefused(f"{value!r} is no number, truth value, list or record")

    def _with(self, unit: str) -> "Writer":
        return writer(unit, self.step)

    def _number(self, value: Any) -> str:
        return exact_text(self._exact(value)) + self.ending

    def _exact(self, value: Any) -> Fraction:
        if isinstance(value, numbers.Integral):
            return Fraction(int(value))
        if isinstance(value, numbers.Rational):
            return Fraction(value)
        if not math.isfinite(value):
            raise ValueRefused(MISSING if math.isnan(value) else f"{value} is no number")
        if isinstance(value, Decimal):
            if abs(value.adjusted()) > cells.MOST_DIGITS:
                raise ValueRefused(f"{value} has too many digits")
            return Fraction(value)
        if self.step is None:
            raise ValueRefused(f"{value!r} is a float, which may differ from the number that was written: write it as "
                               f"'{value!r}', Decimal('{value!r}') or Fraction, or name a step, as step='0.001'")
        return round(Fraction(float(value)) / self.step) * self.step

    def _string(self, text: str) -> str:
        """A text of the language as it stands; a number without a unit gets the unit that is named."""
        if text.rstrip().endswith(">") or text.strip() in cells.TRUTHS:
            return text
        try:
            return cells.number_text(text.strip()) + self.ending
        except cells.CellError as error:
            raise ValueRefused(f"{error}, and unit={self.unit!r} is for numbers") from error

    def _list(self, values: Iterable[Any]) -> str:
        return f"[{'; '.join(self.texts(values, 'item'))}]"


@lru_cache(maxsize=1000)
def writer(unit: str | None, step: Fraction | None) -> Writer:
    """The writer with this unit and step: it is made once."""
    return Writer(unit, step)


@lru_cache(maxsize=1000)
def writers(units: tuple[str | None, ...], step: Fraction | None) -> tuple[Writer, ...]:
    """A writer for each of these units."""
    return tuple(writer(unit, step) for unit in units)


@lru_cache(maxsize=1000)
def every_writer(unit: str | None, step: Fraction | None) -> Iterable[Writer]:
    """The same writer for all."""
    return repeat(writer(unit, step))


def column_unit(value: Any) -> str | None:
    """The unit in the header of a data frame's column, as `mass [kg]`; None for anything else."""
    name = getattr(value, "name", None) if hasattr(value, "dtype") and hasattr(value, "index") else None
    return cells.header_parts(name)[1] if isinstance(name, str) else None


def _is_number_with_unit(value: Any) -> bool:
    """Whether a value is a tuple as (2, "kg") or ("2.5", "kg"), and not one of two texts."""
    if not isinstance(value, tuple) or len(value) != 2 or not isinstance(value[1], str):
        return False
    return not isinstance(value[0], str) or (_is_number(value[0]) and not _is_number(value[1]) and value[1][-1:] != ">")


def _is_number(text: str) -> bool:
    try:
        cells.number_text(text.strip())
    except cells.CellError:
        return False
    return True


def _is_missing(value: Any) -> bool:
    return value is None or type(value).__name__ in ("NAType", "NaTType")


def _is_pint(value: Any) -> bool:
    return hasattr(value, "magnitude") and hasattr(value, "_REGISTRY")


def _powers(quantity: Any) -> dict[str, int]:
    """The powers of the units of a quantity of pint, by their symbols."""
    powers = {}
    for name, power in quantity._units.items():
        if power != int(power):
            raise ValueRefused(f"{quantity.units}: a power of a unit is a whole number")
        powers[quantity._REGISTRY.get_symbol(name)] = int(power)
    return powers
