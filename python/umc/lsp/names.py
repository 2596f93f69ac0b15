"""What the reading of a declaration finds: the names that it binds, and the types and holes that it has.

The places are counted from the beginning of the declaration, so that they stay right wherever it stands.
"""
from dataclasses import dataclass, field
from enum import Enum
from typing import Literal

from umc.lsp.tokens import Token, moved

# The spaces of names that are known in the whole text after their declaration.
Space = Literal["type", "function", "field"]
SPACES: tuple[Space, ...] = ("type", "function", "field")


class Sort(Enum):
    """What a name names."""

    __hash__ = object.__hash__  # that of Enum is slow

    MEASURE = "base measure"
    ABBREVIATION = "abbreviation"
    RECORD = "record"
    FUNCTION = "function"
    FIELD = "field"
    PARAMETER = "parameter"
    LOCAL = "local variable"
    UNIT = "unit variable"

    @property
    def space(self) -> Space | None:
        """The space of names of the whole text that it is in; None for a name of one declaration."""
        return SPACE_OF.get(self)

    @property
    def is_measure(self) -> bool:
        return self in (Sort.MEASURE, Sort.ABBREVIATION)

    @property
    def is_type(self) -> bool:
        """Whether the name is in the space of measures, abbreviations and records."""
        return self in (Sort.MEASURE, Sort.ABBREVIATION, Sort.RECORD)

    @property
    def is_variable(self) -> bool:
        return self in (Sort.PARAMETER, Sort.LOCAL)


SPACE_OF: dict[Sort, Space] = {Sort.MEASURE: "type", Sort.ABBREVIATION: "type", Sort.RECORD: "type",
                               Sort.FUNCTION: "function", Sort.FIELD: "field"}


@dataclass(eq=False)
class Annotation:
    """A type as it is written, from its first token to its last."""

    tokens: list[Token]

    @property
    def end(self) -> int:
        return self.tokens[-1].end

    @property
    def notes(self) -> list[list[Token]]:
        """The units between `<` and `>`, in order."""
        return notes(self.tokens)

    def moved(self, by: int) -> "Annotation":
        return Annotation(moved(self.tokens, by))


def notes(tokens: list[Token]) -> list[list[Token]]:
    """The units of a type between `<` and `>`, in order."""
    found: list[list[Token]] = []
    inside = False
    for token in tokens:
        if token.text in ("<", ","):
            found.append([])
            inside = True
        elif token.text == ">":
            inside = False
        elif inside:
            found[-1].append(token)
    return found


@dataclass(frozen=True)
class Hole:
    """A hole in a body: its token, the offset of the part whose type has it, and at which unit of that type."""

    token: Token
    part: int
    at: int


@dataclass(eq=False)
class Bound:
    """A name that a declaration binds: where, and in which part of the text it is known.

    `uses` are the places in the declaration at which a name of it alone is used.
    """

    sort: Sort
    token: Token
    known_from: int
    known_to: int
    annotation: Annotation | None = None
    is_parameter_of_units: bool = False
    uses: list[Token] = field(default_factory=list)

    @property
    def text(self) -> str:
        return self.token.text


@dataclass(eq=False)
class Parameter:
    """A parameter: its name or hole, and its type as it is written."""

    binder: Token
    annotation: Annotation | None

    def moved(self, by: int) -> "Parameter":
        return Parameter(self.binder.moved(by), self.annotation and self.annotation.moved(by))
