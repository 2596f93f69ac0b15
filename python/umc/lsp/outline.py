"""The declarations of a text as an outline, and what can be folded away."""
from itertools import groupby

from umc.lsp import facts
from umc.lsp.analysis import Known
from umc.lsp.documents import Snapshot
from umc.lsp.names import Sort
from umc.lsp.placed import Declaration
from umc.lsp.positions import Json

FIELD, FUNCTION, CONSTANT, STRUCT, UNIT = 8, 12, 14, 23, 14
KINDS = {Sort.MEASURE: UNIT, Sort.ABBREVIATION: UNIT, Sort.RECORD: STRUCT, Sort.FUNCTION: FUNCTION}


def symbols(snapshot: Snapshot, params: Json) -> list[Json]:
    """Answers textDocument/documentSymbol."""
    known = snapshot.analysis.known
    return [_symbol(snapshot, known, made) for made in snapshot.reading.declarations if made.sort and made.name]


def _symbol(snapshot: Snapshot, known: Known, made: Declaration) -> Json:
    assert made.sort and made.name
    scheme = known.schemes.get(made.name.text) if made.sort is Sort.FUNCTION else None
    symbol: Json = {"name": made.name.text, "kind": CONSTANT if made.is_constant else KINDS[made.sort],
                    "detail": scheme.line.partition(" : ")[2] if scheme else _detail(made),
                    "range": snapshot.range(made.start, made.end),
                    "selectionRange": snapshot.range(made.name.start, made.name.end)}
    symbol["children"] = [_field(snapshot, member.token.start, member.token.end, member.text,
                                 member.annotation.end if member.annotation else member.token.end,
                                 facts.written(member.annotation.tokens) if member.annotation else "")
                          for member in made.members]
    return symbol


def _detail(made: Declaration) -> str:
    if made.sort is Sort.ABBREVIATION and made.equals:
        return facts.written([token for token in made.tokens if token.start >= made.equals.start])
    return made.sort.value if made.sort else ""


def _field(snapshot: Snapshot, start: int, name_end: int, name: str, end: int, detail: str) -> Json:
    return {"name": name, "kind": FIELD, "detail": detail, "range": snapshot.range(start, end),
            "selectionRange": snapshot.range(start, name_end)}


def folding(snapshot: Snapshot, params: Json) -> list[Json]:
    """Answers textDocument/foldingRange: declarations of several lines, and comments of several lines."""
    lines = snapshot.lines
    found = [_fold(lines.line_of(made.start), lines.line_of(made.end - 1), "region")
             for made in snapshot.reading.declarations]
    comments = [lines.line_of(token.start) for token in snapshot.reading.comments
                if not snapshot.text[lines.start_of(lines.line_of(token.start)):token.start].strip()]
    for _, run in groupby(enumerate(comments), lambda pair: pair[1] - pair[0]):
        rows = [row for _, row in run]
        found.append(_fold(rows[0], rows[-1], "comment"))
    return [fold for fold in found if fold["startLine"] < fold["endLine"]]


def _fold(first: int, last: int, kind: str) -> Json:
    return {"startLine": first, "endLine": last, "kind": kind}
