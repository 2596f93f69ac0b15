"""What is looked at before an image runs: its heads, and then each address of its code by the shapes on the stack."""
from __future__ import annotations

from fractions import Fraction

from front import Report
from grammar import HIGHEST
from image_form import Head, Image
from lexer import is_name


def is_name_bytes(name: bytes) -> bool:
    """The bytes are those of a name."""
    try:
        return is_name(name.decode())
    except UnicodeDecodeError:
        return False


class Verifier:
    """What is looked at before an image runs: the heads in order, and then each address of the code."""

    def __init__(self, image: Image) -> None:
        self.image = image
        self.heights: list[int] = []

    def height(self, shape: tuple) -> int:
        """The height of a shape through the fields of records."""
        if shape[0] == "list":
            return self.height(shape[1]) + 1
        return self.heights[shape[1]] if shape[0] == "rec" else 1

    def is_known(self, shape: tuple) -> bool:
        """It names records that are there, and isn't too high."""
        inner = shape
        while inner[0] == "list":
            inner = inner[1]
        return (inner[0] != "rec" or inner[1] < len(self.heights)) and self.height(shape) <= HIGHEST

    def heads(self) -> None:
        """The records and then the functions."""
        names: set[bytes] = set()
        fields: set[bytes] = set()
        for number, (name, parts) in enumerate(self.image.records):
            new = [part for part, _ in parts]
            once = name not in names and len(set(new) | fields) == len(new) + len(fields)
            good = once and 1 <= len(parts) <= 32 and all(is_name_bytes(part) for part in [name, *new])
            if not (good and all(self.is_known(shape) for _, shape in parts)):
                raise Report(22, f"head {number}")
            names.add(name)
            fields.update(new)
            self.heights.append(max(self.height(shape) for _, shape in parts) + 1)
        self.functions()

    def functions(self) -> None:
        """The heads of the functions."""
        names: set[bytes] = set()
        for number, (head, entry) in enumerate(zip(self.image.heads, self.image.entries), len(self.image.records)):
            good = is_name_bytes(head.name) and head.name not in names and len(head.params) <= 16
            shapes = head.params + [head.result]
            if not (good and entry.start < entry.end and all(self.is_known(shape) for shape in shapes)):
                raise Report(22, f"head {number}")
            names.add(head.name)

    def code(self) -> None:
        """Each address in order: what arrives there, and what its instruction passes on."""
        for head, entry in zip(self.image.heads, self.image.entries):
            arrived: dict[int, list[tuple] | None] = {entry.start: head.params}
            for at in range(entry.start, entry.end):
                state = arrived.get(at)
                passed = None if state is None else Rules(self, head, at, state).passed()
                if passed is None or not all(at < to < entry.end and self.is_low(sent) for to, sent in passed):
                    raise Report(22, f"code at {at}")
                for to, sent in passed:
                    arrived[to] = join_all(arrived[to], sent) if to in arrived else sent

    def is_low(self, state: list[tuple]) -> bool:
        """No shape of the state is too high."""
        return all(self.height(shape) <= HIGHEST for shape in state)


VOID = ("void",)


def fits(shape: tuple, other: tuple) -> bool:
    """Each value of the first shape is one of the second."""
    if shape[0] == other[0] == "list":
        return fits(shape[1], other[1])
    return shape == VOID or shape == other


def join(shape: tuple, other: tuple) -> tuple | None:
    """The least shape that both fit."""
    if shape[0] == other[0] == "list":
        inner = join(shape[1], other[1])
        return inner and ("list", inner)
    return other if shape == VOID else shape if other in (VOID, shape) else None


def join_all(states: list[tuple] | None, others: list[tuple]) -> list[tuple] | None:
    """The join of two states, place by place; none if their lengths or some shapes don't go together."""
    if states is None or len(states) != len(others):
        return None
    joined = [join(shape, other) for shape, other in zip(states, others)]
    return None if None in joined else joined


class Rules:
    """The rule of one instruction where a state arrives: the states that it passes on, or None if it fails."""

    def __init__(self, verifier: Verifier, head: Head, at: int, state: list[tuple]) -> None:
        self.verifier, self.image, self.head, self.at, self.state = verifier, verifier.image, head, at, state

    def passed(self) -> list[tuple[int, list[tuple]]] | None:
        """What the instruction passes on."""
        word, *operands = self.image.code[self.at]
        if word in ("add", "sub", "mul", "div", "lt", "le", "eq"):
            return self.takes([("num",), ("num",)], ("bool",) if word in ("lt", "le", "eq") else ("num",))
        if word in ("neg", "pown", "not"):
            shape = ("bool",) if word == "not" else ("num",)
            return self.takes([shape], shape)
        return getattr(self, "rule_" + word)(*operands)

    def split_at(self, count: int) -> tuple[list[tuple], list[tuple]] | None:
        """The lower part of the state and the last shapes, if there are so many."""
        cut = len(self.state) - count
        return (self.state[:cut], self.state[cut:]) if cut >= 0 else None

    def takes(self, asked: list[tuple], given: tuple) -> list | None:
        """Takes shapes that fit these, and pushes one."""
        parts = self.split_at(len(asked))
        if parts is None or not all(fits(shape, wanted) for shape, wanted in zip(parts[1], asked)):
            return None
        return [(self.at + 1, parts[0] + [given])]

    def rule_num(self, value: Fraction) -> list | None:
        """Pushes a number."""
        return self.takes([], ("num",))

    def rule_bool(self, value: bool) -> list | None:
        """Pushes a truth value."""
        return self.takes([], ("bool",))

    def rule_load(self, place: int) -> list | None:
        """Pushes what stands at a place."""
        return self.takes([], self.state[place]) if place < len(self.state) else None

    def rule_jump(self, address: int) -> list | None:
        """Passes the state on."""
        return [(address, self.state)]

    def rule_jumpifnot(self, address: int) -> list | None:
        """Takes a truth value."""
        parts = self.split_at(1)
        return [(self.at + 1, parts[0]), (address, parts[0])] if parts and fits(parts[1][0], ("bool",)) else None

    def rule_list(self, count: int) -> list | None:
        """The join of the items."""
        parts, shape = self.split_at(count), VOID
        for item in parts[1] if parts else []:
            shape = shape and join(shape, item)
        return [(self.at + 1, parts[0] + [("list", shape)])] if parts and shape else None

    def rule_cons(self) -> list | None:
        """A head and a list of such items."""
        parts = self.split_at(2)
        if not parts or parts[1][1][0] not in ("list", "void"):
            return None
        shape = join(parts[1][0], item_of(parts[1][1]))
        return [(self.at + 1, parts[0] + [("list", shape)])] if shape else None

    def rule_split(self, address: int) -> list | None:
        """Takes a list."""
        parts = self.split_at(1)
        if not parts or parts[1][0][0] not in ("list", "void"):
            return None
        return [(address, parts[0]), (self.at + 1, parts[0] + [item_of(parts[1][0]), parts[1][0]])]

    def rule_rec(self, record: int, count: int) -> list | None:
        """Takes the fields of a record."""
        if record >= len(self.image.records) or len(self.image.records[record][1]) != count:
            return None
        return self.takes([shape for _, shape in self.image.records[record][1]], ("rec", record))

    def rule_field(self, number: int) -> list | None:
        """Takes a record that has so many fields."""
        parts = self.split_at(1)
        if not parts or parts[1][0] == VOID:
            return parts and [(self.at + 1, parts[0] + [VOID])]
        fields = self.image.records[parts[1][0][1]][1] if parts[1][0][0] == "rec" else []
        return [(self.at + 1, parts[0] + [fields[number][1]])] if number < len(fields) else None

    def rule_slide(self, count: int) -> list | None:
        """Drops shapes below the top."""
        parts = self.split_at(count + 1)
        return parts and [(self.at + 1, parts[0] + parts[1][-1:])]

    def rule_call(self, function: int) -> list | None:
        """Takes the arguments of a function."""
        if function >= len(self.image.heads):
            return None
        return self.takes(self.image.heads[function].params, self.image.heads[function].result)

    def rule_ret(self) -> list | None:
        """Takes the result."""
        parts = self.split_at(1)
        return [] if parts and fits(parts[1][0], self.head.result) else None


def item_of(shape: tuple) -> tuple:
    """The shape of a list's items."""
    return shape[1] if shape[0] == "list" else VOID
