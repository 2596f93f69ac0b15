#!/usr/bin/env python3
"""Code images that are accepted, made for a size: `exec` verifies them before it runs them.

use: bench/images.py straight PUSHES > image       then: umc exec 1 f < image
     bench/images.py crossing PUSHES JUMPS > image
     bench/images.py pairs STACKS > image          then: umc exec 1 f '[1]' < image

`straight` pushes so many truth values and returns. `crossing` pushes PUSHES values and then jumps JUMPS times, each
time to an address of its own far ahead, where two stacks meet that have all values in common. `pairs` makes so many
stacks apart from one another, each of as many lists. Some of these are empty lists and some are lists of numbers. Then
each two of the stacks meet at an address of their own. There they are joined place by place, so the work grows with the
third power of STACKS, and the bytes with the second.
"""
import argparse
import inspect
import struct
import sys
from collections.abc import Callable
from pathlib import Path

sys.path.insert(0, str(Path(__file__).resolve().parent.parent / "tools"))
from repository import quietly  # noqa: E402

PUSH_TRUE, RETURN = b"\x01\x01", b"\x15"
LOAD_FIRST, EMPTY_LIST = b"\x02\0\0\0\0", b"\x0e\0\0\0\0"
TRUTH_VALUE, LIST_OF_NUMBERS = b"\0", b"\2\1"


def word(number: int) -> bytes:
    return struct.pack(">I", number)


def jump(address: int) -> bytes:
    return b"\x0c" + word(address)


def branch(address: int) -> list[bytes]:
    """The two instructions of a branch to an address."""
    return [PUSH_TRUE, b"\x0d" + word(address)]


def image(code: list[bytes], result: bytes = TRUTH_VALUE, *parameters: bytes) -> bytes:
    """An image of one function f."""
    head = b"UMI1" + word(0) + word(1) + word(1) + b"f" + word(len(parameters)) + b"".join(parameters) + result
    return head + word(len(code)) + b"".join(code)


def straight(pushes: int) -> bytes:
    return image([PUSH_TRUE] * pushes + [RETURN])


def crossing(pushes: int, jumps: int) -> bytes:
    meetings = pushes + 2 * jumps
    code = [PUSH_TRUE] * pushes
    for number in range(jumps):
        code += branch(meetings + number)
    code += [jump(meetings + number + 1) for number in range(jumps)]
    return image(code + [RETURN])


def pairs(stacks: int) -> bytes:
    forks, way = 2 * (stacks - 1), 3 * stacks - 1
    meetings = forks + stacks * way
    code = [step for number in range(1, stacks) for step in branch(forks + number * way)]
    for number in range(stacks):
        code += [LOAD_FIRST if is_full(number, place) else EMPTY_LIST for place in range(stacks)]
        for other in range(stacks):
            if other != number:
                code += branch(meetings + pair(min(number, other), max(number, other)))
        code.append(RETURN)
    return image(code + [RETURN] * pair(0, stacks), LIST_OF_NUMBERS, LIST_OF_NUMBERS)


def pair(low: int, high: int) -> int:
    """The number of a pair, counted from 0 by its higher stack."""
    return high * (high - 1) // 2 + low


def is_full(stack: int, place: int) -> bool:
    """Whether a stack has a list of numbers at a place; no rule is meant to be seen in it."""
    return (stack * 2654435761 ^ place * 2246822519) % (1 << 32) * 3266489917 % (1 << 32) >> 31 == 1


def count(text: str) -> int:
    """A count of at least one."""
    if not text.isdecimal() or int(text) < 1:
        raise argparse.ArgumentTypeError(f"{text!r} isn't a count of at least one")
    return int(text)


def main() -> None:
    """Carries out the words."""
    reader = argparse.ArgumentParser(description=__doc__, formatter_class=argparse.RawDescriptionHelpFormatter)
    shapes = reader.add_subparsers(dest="shape", required=True)
    makers: dict[str, Callable[..., bytes]] = {"straight": straight, "crossing": crossing, "pairs": pairs}
    for name, make in makers.items():
        shape = shapes.add_parser(name)
        for size in inspect.signature(make).parameters:
            shape.add_argument(size, metavar=size.upper(), type=count)
    asked = vars(reader.parse_args())
    sys.stdout.buffer.write(makers[asked.pop("shape")](**asked))


if __name__ == "__main__":
    sys.exit(quietly(main))
