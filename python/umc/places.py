"""Answers that name places, told in the files of a text: what `explain`, `trace` and `annot` print.

For a text of one file the lines stay as they are. Otherwise each place `L:C` becomes one of its own file, which is
named if it isn't the file that the line stands under.
"""
import re
from collections.abc import Iterable

from umc import reports
from umc.texts import Place, Text

GUTTER = re.compile(r"(?P<line>[0-9]+) \| ")
# The lines with places: what stands before the place, the place, and what stands after it.
SINCE = re.compile(r"(?P<before>  )(?P<line>[0-9]+):(?P<column>[0-9]+)(?P<after> .*)", re.DOTALL)
SAID = re.compile(r"(?P<before>declared before at |the let at |called from \S+ at )(?P<line>[0-9]+):(?P<column>[0-9]+)"
                  r"(?P<after>| has no in)")


def told(place: Place, file: str) -> str:
    """A place under a line about this file."""
    return f"{place.line}:{place.column}" if place.file == file else str(place)


def excerpt(lines: list[str], text: Text, place: Place) -> list[str]:
    """The two lines of an excerpt with the number of the line in its own file."""
    gutter = GUTTER.match(lines[0]) if lines else None
    if gutter is None or len(lines) < 2:
        return lines
    old, new = len(gutter["line"]), str(place.line)
    return [new + lines[0][old:], " " * len(new) + lines[1][old:]]


def details(lines: Iterable[str], text: Text, file: str) -> list[str]:
    """Lines of an explanation or a trace, or nodes of a function, with their places in the files."""
    if text.is_one_file:
        return list(lines)
    return [_detail(line, text, file) for line in lines]


def _detail(line: str, text: Text, file: str) -> str:
    found = SAID.fullmatch(line) or SINCE.fullmatch(line)
    if not found:
        return line
    place = text.place(int(found["line"]), int(found["column"]))
    return found["before"] + told(place, file) + found["after"]


def explanation(lines: list[str], text: Text, place: Place) -> list[str]:
    """What stands after a report line with a place: the excerpt and the details."""
    if text.is_one_file:
        return lines
    two = 2 if lines and GUTTER.match(lines[0]) else 0
    return excerpt(lines[:two], text, place) + details(lines[two:], text, place.file)


def traced(output: str, text: Text) -> str:
    """What `trace` printed, with its places in the files."""
    lines = output.split("\n")
    report = reports.parse(lines[0])
    if text.is_one_file or report is None or report.line is None or report.column is None:
        return output
    place = text.place(report.line, report.column)
    first = f"error {report.status}: {report.message} at {place}"
    return "\n".join([first, *explanation(lines[1:], text, place)])


def annotated(output: str, text: Text) -> str:
    """What `annot` printed, with its places in the files: those of other files with their names."""
    if text.is_one_file:
        return output
    return "\n".join(details(output.split("\n"), text, text.name))
