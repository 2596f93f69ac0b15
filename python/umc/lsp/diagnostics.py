"""The refusal of a text as an editor shows it, with its explanation and the places that belong to it."""
import re

from umc.lsp.analysis import Refusal
from umc.lsp.documents import Snapshot
from umc.lsp.positions import Json
from umc.lsp.tokens import first, last

ERROR = 1
SOURCE = "umc"
# The places in an explanation: that of an equation, whose line stands after `since`, and one in the text of a line.
EQUATION = re.compile(r"  (?P<line>[0-9]+):(?P<column>[0-9]+) (?P<rest>.*)", re.DOTALL)
SAID = re.compile(r"(?:declared before at |the let at )(?P<line>[0-9]+):(?P<column>[0-9]+)")


def diagnostics(snapshot: Snapshot) -> list[Json]:
    """The refusal of a text, if it is refused. An editor that shows no places that belong to it has them as text."""
    if snapshot.library.fault:
        return [{"range": snapshot.range(0, snapshot.lines.end_of(0)), "severity": ERROR, "source": "um",
                 "message": snapshot.library.fault}]
    refusal = snapshot.analysis.outcome.refusal
    if refusal is None:
        return []
    report = refusal.report
    related = snapshot.workspace.client_can("textDocument", "publishDiagnostics", "relatedInformation")
    lines, places = _parted(snapshot, refusal) if related else (
        [_translated(snapshot, line) for line in refusal.details], [])
    diagnostic: Json = {"range": refused_range(snapshot, refusal), "severity": ERROR, "code": report.status,
                        "source": SOURCE, "message": "\n".join([_head(snapshot, refusal), *lines])}
    if places:
        diagnostic["relatedInformation"] = places
    return [diagnostic]


def _head(snapshot: Snapshot, refusal: Refusal) -> str:
    """The report without its place; with it if that is in a file which stands before the text."""
    report = refusal.report
    head = f"error {report.status}: {report.message}"
    if report.line is None or refusal.offset is not None:
        return head
    return f"{head} at {told(snapshot, report.line, report.column or 1)}"


def told(snapshot: Snapshot, line: int, column: int) -> str:
    """A place of the program: in the text, or with the name of the file that stands before it."""
    if snapshot.analysis.offset(line, column) is not None:
        return f"{line - snapshot.analysis.first_line}:{column}"
    for part in snapshot.library.parts:
        count = part.lines.text.count("\n") + (not part.lines.text.endswith("\n") and part.lines.text != "")
        if line <= count:
            return f"{part.path}:{line}:{column}"
        line -= count
    return f"{line}:{column}"


def _translated(snapshot: Snapshot, line: str) -> str:
    """A line of an explanation with its place as it is told."""
    found = EQUATION.fullmatch(line) or SAID.match(line)
    if not found:
        return line
    place = told(snapshot, int(found["line"]), int(found["column"]))
    return line[:found.start("line")] + place + line[found.end("column"):]


def refused_range(snapshot: Snapshot, refusal: Refusal) -> Json:
    """The token that is refused. At the end of a text it is the last one, so that something can be shown."""
    if refusal.offset is None:
        return snapshot.range(0, 0)
    return token_range(snapshot, refusal.offset)


def token_range(snapshot: Snapshot, offset: int) -> Json:
    """The range of the token that begins at an offset, or of the character there."""
    text = snapshot.text
    if offset >= len(text):
        token = last(text)
        return snapshot.range(token.start, token.end) if token else snapshot.range(offset, offset)
    token = first(text, offset)
    if token:
        return snapshot.range(offset, token.end)
    return snapshot.range(offset, offset + (text[offset] not in "\r\n"))


def _parted(snapshot: Snapshot, refusal: Refusal) -> tuple[list[str], list[Json]]:
    """The lines of the explanation that are the message, and the places that belong to it with what is said there."""
    message: list[str] = []
    places: list[Json] = []
    for line in refusal.details:
        equation = EQUATION.fullmatch(line)
        said = SAID.match(line)
        if equation:
            place = _place(snapshot, int(equation["line"]), int(equation["column"]), equation["rest"])
            places += [place] if place else []
        elif places and line.startswith("    "):
            places[-1]["message"] += "\n" + line.strip()
        elif said:
            message.append(_translated(snapshot, line))
            place = _place(snapshot, int(said["line"]), int(said["column"]), line[:said.start("line")].strip())
            places += [place] if place else []
        elif line != "since":
            message.append(line)
    return message, places


def _place(snapshot: Snapshot, line: int, column: int, message: str) -> Json | None:
    offset = snapshot.analysis.offset(line, column)
    if offset is None:
        return None
    return {"location": {"uri": snapshot.uri, "range": token_range(snapshot, offset)}, "message": message}
