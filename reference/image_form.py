"""The form of an image: how it is written and read. The section "Code as bytes" of docs/LANGUAGE.md."""
from __future__ import annotations

import struct
from dataclasses import dataclass, field
from fractions import Fraction
from math import gcd
from typing import Any

from front import Report, Source
from grammar import HIGHEST
from lexer import WIDEST
from machine import Entry, compiled
from units import shape_of

WORDS = ("num bool load add sub mul div neg not lt le eq jump jumpifnot list cons split rec field slide call ret "
         "pown").split()
OPERANDS = {"num": "f", "bool": "b", "load": "u", "jump": "u", "jumpifnot": "u", "list": "u", "split": "u", "rec": "uu",
            "field": "u", "slide": "u", "call": "u", "pown": "i"}


@dataclass
class Head:
    """What a function takes and gives, as shapes."""

    name: bytes
    params: list[tuple]
    result: tuple


@dataclass
class Image:
    """Records with the shapes of their fields, functions, and the code of each."""

    records: list[tuple[bytes, list[tuple[bytes, tuple]]]] = field(default_factory=list)
    heads: list[Head] = field(default_factory=list)
    code: list[list] = field(default_factory=list)
    entries: list[Entry] = field(default_factory=list)


# ---- writing


def number_bytes(number: int) -> bytes:
    """A number of four bytes."""
    return struct.pack(">I", number)


def name_bytes(name: str) -> bytes:
    """A length and the bytes of a name."""
    return number_bytes(len(name.encode())) + name.encode()


def shape_bytes(shape: tuple) -> bytes:
    """A shape."""
    if shape[0] == "list":
        return b"\2" + shape_bytes(shape[1])
    return b"\3" + number_bytes(shape[1]) if shape[0] == "rec" else b"\0" if shape[0] == "bool" else b"\1"


def operand_bytes(kind: str, operand: Any) -> bytes:
    """An operand."""
    if kind == "f":
        return struct.pack(">qq", operand.numerator, operand.denominator)
    return bytes([operand]) if kind == "b" else struct.pack(">i" if kind == "i" else ">I", operand)


def instruction_bytes(instruction: list) -> bytes:
    """An instruction and its operands."""
    word, *operands = instruction
    parts = [operand_bytes(kind, operand) for kind, operand in zip(OPERANDS.get(word, ""), operands)]
    return bytes([WORDS.index(word)]) + b"".join(parts)


def image_of(source: Source) -> bytes:
    """The image of a program."""
    program, code = source.program, compiled(source.program)
    pieces = [b"UMI1", number_bytes(len(program.records))]
    for record in program.records:
        pieces += [name_bytes(record.name), number_bytes(len(record.fields))]
        pieces += [name_bytes(name) + shape_bytes(shape_of(kind)) for name, kind in record.fields]
    pieces.append(number_bytes(len(program.functions)))
    for function, (params, result), entry in zip(program.functions, source.shapes.functions, code.entries):
        pieces += [name_bytes(function.name), number_bytes(len(params)), *map(shape_bytes, params), shape_bytes(result)]
        pieces.append(number_bytes(entry.end - entry.start))
        pieces += [instruction_bytes(instruction) for instruction in code.code[entry.start:entry.end]]
    return b"".join(pieces)


# ---- reading


class Reader:
    """Reads an image item by item. The first item that can't stand where it does is refused at its first byte."""

    def __init__(self, data: bytes) -> None:
        self.data, self.at = data, 0

    def bad(self) -> Report:
        """The report line at the next byte."""
        return Report(22, f"image at byte {self.at}")

    def take(self, count: int) -> bytes:
        """The next bytes."""
        if self.at + count > len(self.data):
            raise self.bad()
        self.at += count
        return self.data[self.at - count:self.at]

    def number(self) -> int:
        """A number of four bytes."""
        return struct.unpack(">I", self.take(4))[0]

    def byte(self, most: int) -> int:
        """A byte of at most this value."""
        if self.at < len(self.data) and self.data[self.at] > most:
            raise self.bad()
        return self.take(1)[0]

    def name(self) -> bytes:
        """A name."""
        return self.take(self.number())

    def shape(self, levels: int = HIGHEST) -> tuple:
        """A shape of at most so many levels."""
        if levels == 0:
            raise self.bad()
        kind = self.byte(3)
        if kind == 2:
            return ("list", self.shape(levels - 1))
        return ("rec", self.number()) if kind == 3 else ("bool",) if kind == 0 else ("num",)

    def operand(self, kind: str) -> Any:
        """An operand. A fraction is one item of 16 bytes, in lowest terms."""
        if kind == "f":
            above, below = struct.unpack(">qq", self.take(16))
            if below < 1 or abs(above) > WIDEST or gcd(above, below) != 1:
                self.at -= 16
                raise self.bad()
            return Fraction(above, below)
        if kind == "b":
            return bool(self.byte(1))
        return struct.unpack(">i", self.take(4))[0] if kind == "i" else self.number()

    def instruction(self) -> list:
        """An instruction."""
        word = WORDS[self.byte(len(WORDS) - 1)]
        return [word] + [self.operand(kind) for kind in OPERANDS.get(word, "")]

    def function(self, image: Image) -> None:
        """A function with its instructions."""
        name, params = self.name(), [self.shape() for _ in range(self.number())]
        image.heads.append(Head(name, params, self.shape()))
        start = len(image.code)
        for _ in range(self.number()):
            image.code.append(self.instruction())
        image.entries.append(Entry(start, len(image.code), len(params)))

    def image(self) -> Image:
        """The image that the bytes are."""
        if self.data[:4] != b"UMI1":
            raise self.bad()
        self.take(4)
        image = Image()
        for _ in range(self.number()):
            image.records.append((self.name(), [(self.name(), self.shape()) for _ in range(self.number())]))
        for _ in range(self.number()):
            self.function(image)
        if self.at < len(self.data):
            raise self.bad()
        return image
