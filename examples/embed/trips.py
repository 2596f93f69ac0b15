#!/usr/bin/env python3
"""Computes a column of a table with a program of the language: the kinetic energy of each car.

use: examples/embed/trips.py [TABLE.csv]

It needs Debian's python3-pandas. The table is read as text, so that each number is the one that was written; units
stand in the headers. From a checkout: PYTHONPATH=python examples/embed/trips.py
"""
import sys
from pathlib import Path

import pandas

import umc

HERE = Path(__file__).resolve().parent


def main() -> int:
    if sys.argv[1:] in (["--help"], ["-h"]):
        print(__doc__, end="")
        return 0
    table = pandas.read_csv(sys.argv[1] if sys.argv[1:] else HERE / "trips.csv", dtype=str)
    program = umc.Program.read(HERE.parent / "vehicle.um")
    try:
        energies = program.kinetic.each(table["mass [kg]"], table["speed [m/s]"])
    except umc.Error as error:
        print(f"trips.py: {error}", file=sys.stderr)
        return 1
    table["energy [J]"] = [energy.to("J", digits=2).decimal for energy in energies]
    print(table.to_csv(index=False), end="")
    return 0


if __name__ == "__main__":
    sys.exit(main())
