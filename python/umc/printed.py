"""What the program prints, by its parts: schemes, types, units and values.

These are forms that the program made, so nothing is judged here: a text of another form is a PrintedError.
"""
import re
from collections.abc import Callable
from fractions import Fraction
from typing import Any

Tree = dict[str, Any]
NumberReader = Callable[[re.Match[str]], Tree]

ATOM = re.compile(r"(?P<name>[^\s^/]+)(?:\^(?P<power>-?[0-9]+))?")
TYPE = re.compile(r"(?P<name>[^\s<>^/]+)(?:<(?P<units>[^<>]*)>)?(?P<lists>(?: list)*)")
NUMBER = re.compile(r"(?P<about>~?)(?P<number>-?[0-9]+(?:r[0-9]+|\.[0-9]+)?)(?:<(?P<unit>[^>]*)>)?")
WORD = re.compile(r"true|false")
FIELD = re.compile(r"(?P<name>[^\s=]+) = ")


class PrintedError(ValueError):
    """The text isn't one that the program prints."""


def unit(text: str) -> dict[str, int]:
    """The powers of a printed unit: `kg m/s^2` is {"kg": 1, "m": 1, "s": -2}, and `1` is {}."""
    powers: dict[str, int] = {}
    above, _, below = text.partition("/")
    for sign, side in ((1, above), (-1, below)):
        for word in side.split():
            found = ATOM.fullmatch(word)
            if not found:
                raise PrintedError(text)
            if found["name"] != "1":
                powers[found["name"]] = sign * int(found["power"] or 1)
    return powers


def type_tree(text: str) -> Tree:
    """The tree of a printed type, as `num<m> list`."""
    found = TYPE.fullmatch(text)
    if not found:
        raise PrintedError(text)
    name, units = found["name"], found["units"]
    if name == "bool":
        tree: Tree = {"type": "bool"}
    elif name == "num":
        tree = {"type": "num", "unit": unit(units or "1")}
    else:
        tree = {"type": "record", "name": name, "units": [unit(part) for part in units.split(", ")] if units else []}
    for _ in range(found["lists"].count(" list")):
        tree = {"type": "list", "item": tree}
    return tree


def scheme(line: str) -> Tree:
    """The tree of a printed scheme, as `area : num<m> -> num<m> -> num<m^2>`."""
    name, sign, types = line.partition(" : ")
    if not sign:
        raise PrintedError(line)
    *parameters, result = [type_tree(part) for part in types.split(" -> ")]
    return {"function": name, "text": line, "parameters": parameters, "result": result}


def schemes(output: str) -> list[Tree]:
    """The trees of all lines of `types`."""
    return [scheme(line) for line in output.splitlines()]


def fraction(text: str) -> Fraction:
    """The value of a printed number: `7r2`, `-3`, or a decimal of `show`."""
    above, sign, below = text.partition("r")
    if sign:
        return Fraction(int(above), int(below))
    return Fraction(text) if "." in text else Fraction(int(text))


class _Reader:
    """Reads one printed value from left to right."""

    def __init__(self, text: str, number: NumberReader):
        self.text, self.at, self.number = text, 0, number

    def take(self, sign: str) -> bool:
        """Whether this text comes next, which is then read."""
        if self.text.startswith(sign, self.at):
            self.at += len(sign)
            return True
        return False

    def match(self, pattern: re.Pattern[str]) -> re.Match[str]:
        """Reads what has this form."""
        found = pattern.match(self.text, self.at)
        if not found:
            raise self.wrong()
        self.at = found.end()
        return found

    def wrong(self) -> PrintedError:
        """The error at this place."""
        return PrintedError(self.text[self.at:self.at + 40])

    def value(self) -> Any:
        """Reads a value."""
        if self.take("[]"):
            return []
        if self.take("["):
            return self.items()
        if self.take("{ "):
            return self.record()
        if self.text.startswith(("true", "false"), self.at):
            return self.match(WORD)[0] == "true"
        return self.number(self.match(NUMBER))

    def items(self) -> list[Any]:
        """Reads the rest of a list."""
        every = [self.value()]
        while self.take("; "):
            every.append(self.value())
        if not self.take("]"):
            raise self.wrong()
        return every

    def record(self) -> Tree:
        """Reads the rest of a record."""
        fields: Tree = {}
        while True:
            name = self.match(FIELD)["name"]
            fields[name] = self.value()
            if self.take(" }"):
                return {"fields": fields}
            if not self.take("; "):
                raise self.wrong()


def exact(found: re.Match[str]) -> Tree:
    """A number of `run`: an exact fraction, with the powers of its unit, or None for a unit that is left open."""
    written = found["unit"]
    return {"number": found["number"].replace("r", "/"), "unit": None if written == "_" else unit(written or "1")}


def decimal(found: re.Match[str]) -> Tree:
    """A number of `show`: a decimal, whether it was rounded, and its unit as it was named."""
    unit_text = None if found["unit"] == "_" else found["unit"] or ""
    return {"number": found["number"], "rounded": bool(found["about"]), "unit": unit_text}


def value(text: str, number: NumberReader = exact) -> Any:
    """A printed value: a truth value, a number {"number": "7/2", "unit": {"m": 1}}, a list, or {"fields": {..}}."""
    reader = _Reader(text, number)
    tree = reader.value()
    if reader.at != len(text):
        raise reader.wrong()
    return tree
