"""Types of functions as objects, as `types` prints them."""
from dataclasses import dataclass
from typing import Any

from umc import printed


@dataclass(frozen=True)
class Type:
    """A type: `num` with the powers of its unit, `bool`, `list` with the type of its items, or a record's name.

    A unit is a dictionary from names of measures, and of unit variables such as `'a`, to powers.
    """

    kind: str
    unit: dict[str, int] | None = None
    item: "Type | None" = None
    name: str | None = None
    units: tuple[dict[str, int], ...] = ()


@dataclass(frozen=True)
class Scheme:
    """What a function takes and gives. The text is the line that `types` prints."""

    function: str
    text: str
    parameters: tuple[Type, ...]
    result: Type

    def __str__(self) -> str:
        return self.text


def _type(tree: dict[str, Any]) -> Type:
    return Type(tree["type"], tree.get("unit"), _type(tree["item"]) if "item" in tree else None, tree.get("name"),
                tuple(tree.get("units", ())))


def schemes(output: str) -> dict[str, Scheme]:
    """The schemes that `types` printed, by the names of their functions, in the order of the text."""
    found = {}
    for tree in printed.schemes(output):
        parameters = tuple(_type(part) for part in tree["parameters"])
        found[tree["function"]] = Scheme(tree["function"], tree["text"], parameters, _type(tree["result"]))
    return found
