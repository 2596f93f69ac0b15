"""`image` and `exec`: the code of a program as bytes, and a call of such bytes."""
from __future__ import annotations

from calls import input_value, read_arguments, shown_value
from front import Report
from image_form import Image, Reader
from machine import Machine
from meaning import Stop
from notes import Program, Record
from units import BOOL
from verify import Verifier

MOST_BYTES = 16777216


def plain_type(shape: tuple) -> tuple:
    """The type of a shape whose numbers have the unit 1."""
    if shape[0] == "list":
        return ("list", plain_type(shape[1]))
    return ("rec", shape[1], []) if shape[0] == "rec" else ("num", {}) if shape[0] == "num" else BOOL


def execute(data: bytes, budget: int, name: str, texts: list[str]) -> str:
    """The value of a call of an image, which is verified first."""
    if len(data) > MOST_BYTES:
        raise Report(2, "text too long")
    image = Reader(data).image()
    verifier = Verifier(image)
    verifier.heads()
    verifier.code()
    records = [Record(record.decode(), 0, 0, [(part.decode(), plain_type(shape)) for part, shape in parts])
               for record, parts in image.records]
    program = Program(records=records)
    names = [head.name.decode() for head in image.heads]
    if name not in names:
        raise Report(11, "no such function")
    number = names.index(name)
    inputs = read_arguments(program, image.heads[number].params, texts)
    return run_image(image, program, number, inputs, budget)


def run_image(image: Image, program: Program, number: int, inputs: list, budget: int) -> str:
    """The line of a call of an image."""
    try:
        value = Machine(image.code, image.entries, budget).run(number, [input_value(node) for node in inputs])
    except Stop as stop:
        raise Report(13, "budget") if stop.kind == "budget" else Report(12, stop.kind) from None
    return shown_value(program, value, plain_type(image.heads[number].result)) + "\n"
