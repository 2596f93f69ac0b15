#!/usr/bin/env python3
"""Checks certificates from a program's text alone: tools/check_certificate.py [--equations] PROGRAM.um CERTIFICATES

CERTIFICATES is what `umc prove` prints of the program, or - for the standard input:

  ./umc prove < examples/mean.um | tools/check_certificate.py examples/mean.um -

The text is read by the modules of reference/. Each function's equations are formed from it, with the schemes that were
certified of the functions before it, and each certificate is checked by sums of integers. What they show is printed,
the lines that `umc types` answers: the scheme of each function, and last a refusal if there is one.

--equations prints in their place the equations of each function, over its slots as variables ('a is slot 0):

  NAME SLOTS PARAMETERS           how many slots, and how many of them, the first, are unit parameters
    type: TYPE -> ..              the types of its parameters and its result
    row R at L:C: UNIT            each equation, counted from 0, and its place: the unit is 1

The status is 0 if the schemes of all functions, or those before a refusal and the refusal, follow from the equations.
Otherwise it is 1, and the first fault is told with its line. The status is 2 if a file can't be read, or the output
not written.
"""
from __future__ import annotations

import argparse
import os
import sys
from pathlib import Path

sys.path[:0] = [str(Path(__file__).resolve().parent.parent / "reference"), str(Path(__file__).resolve().parent)]

from certifying.judging import Question, check, program_of_text, shown_equations  # noqa: E402
from certifying.reading import Fault  # noqa: E402
from repository import quietly  # noqa: E402

MOST_BYTES = 2**28


def bytes_of(path: str) -> bytes:
    """The bytes of a file, or of the standard input."""
    with sys.stdin.buffer if path == "-" else open(path, "rb") as file:
        data = file.read(MOST_BYTES + 1)
    if len(data) > MOST_BYTES:
        raise Fault(0, f"{path} has more than {MOST_BYTES:,} bytes")
    return data


def text_of(data: bytes) -> str:
    """The text of certificates."""
    try:
        return data.decode()
    except UnicodeDecodeError as error:
        raise Fault(data[:error.start].count(b"\n") + 1, "the bytes aren't UTF-8") from None


def main() -> int:
    """Checks the files that are named."""
    parser = argparse.ArgumentParser(description=__doc__, formatter_class=argparse.RawDescriptionHelpFormatter)
    parser.add_argument("--equations", action="store_true", help="print the equations of each function")
    parser.add_argument("program", metavar="PROGRAM.um")
    parser.add_argument("certificates", metavar="CERTIFICATES")
    args = parser.parse_args()
    if args.program == args.certificates == "-":
        parser.error("only one of the two can be the standard input")
    sys.setrecursionlimit(10**6)

    def hear(question: Question) -> None:
        """Prints the equations of a function."""
        if args.equations:
            print(shown_equations(question), end="")

    try:
        program, certificates = bytes_of(args.program), bytes_of(args.certificates)
        lines = check(program_of_text(program), text_of(certificates), hear)
        if not args.equations:
            print("".join(line + "\n" for line in lines), end="")
        sys.stdout.flush()
    except BrokenPipeError:
        raise
    except OSError as error:
        print(f"{parser.prog}: {error.filename or 'the output'}: {error.strerror}", file=sys.stderr)
        os._exit(2)
    except Fault as fault:
        sys.stdout.flush()
        print(f"refused: {fault}", file=sys.stderr)
        return 1
    return 0


if __name__ == "__main__":
    sys.exit(quietly(main))
