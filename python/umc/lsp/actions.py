"""Code actions: what an editor can put right. Each is tried on the program before it is offered."""
from collections.abc import Iterator

from umc import reports
from umc.lsp import facts
from umc.lsp.analysis import Refusal
from umc.lsp.diagnostics import diagnostics
from umc.lsp.documents import Snapshot
from umc.lsp.names import SPACES
from umc.lsp.placed import Declaration
from umc.lsp.positions import Json
from umc.lsp.rename import replaced
from umc.lsp.tokens import Kind, Token
from umc.similar import similar

QUICK_FIX, REWRITE = "quickfix", "refactor.rewrite"
SIMILAR = "similar: "
TRIED = 8


def code_actions(snapshot: Snapshot, params: Json) -> list[Json]:
    """Answers textDocument/codeAction."""
    start, end = (snapshot.offset(params["range"][side]) for side in ("start", "end"))
    only: list[str] = (params.get("context") or {}).get("only") or [QUICK_FIX, REWRITE]
    actions: list[Json] = []
    if any(QUICK_FIX.startswith(kind) for kind in only):
        actions += _fixes(snapshot, start, end)
    if any(REWRITE.startswith(kind) for kind in only):
        actions += _annotations(snapshot, start, end)
    return actions


def _action(snapshot: Snapshot, title: str, kind: str, edits: list[Json]) -> Json:
    return {"title": title, "kind": kind, "edit": {"changes": {snapshot.uri: edits}}}


def _edit(snapshot: Snapshot, start: int, end: int, new: str) -> Json:
    return {"range": snapshot.range(start, end), "newText": new}


# ---- units in the place of holes

def _annotations(snapshot: Snapshot, start: int, end: int) -> list[Json]:
    """The unit that was found, in the place of each `_` in the range; and of all in the declaration."""
    known = snapshot.analysis.known
    actions: list[Json] = []
    for made in snapshot.reading.declarations:
        if made.start > end or made.end < start:
            continue
        holes = facts.holes(known, made)
        for hole, unit in holes:
            if hole.start <= end and hole.end >= start and _stays(snapshot, made, [(hole, unit)]):
                actions.append(_put_in(snapshot, f"Write the inferred unit {unit}", [(hole, unit)]))
        chosen = _all_that_stay(snapshot, made, holes)
        if len(chosen) > 1 and made.name:
            actions.append(_put_in(snapshot, f"Write the inferred units of {made.name.text}", chosen))
    return actions


def _put_in(snapshot: Snapshot, title: str, chosen: list[tuple[Token, str]]) -> Json:
    return _action(snapshot, title, REWRITE, [_edit(snapshot, hole.start, hole.end, unit) for hole, unit in chosen])


def _all_that_stay(snapshot: Snapshot, made: Declaration, holes: list[tuple[Token, str]]) -> list[tuple[Token, str]]:
    """All holes with their units; without those in the body that have a variable if the program takes none there."""
    for chosen in (holes, [(hole, unit) for hole, unit in holes if hole.start < made.head_end or "'" not in unit]):
        if _stays(snapshot, made, chosen):
            return chosen
    return []


def _stays(snapshot: Snapshot, made: Declaration, chosen: list[tuple[Token, str]]) -> bool:
    """Whether the types of the program stay the same with these units."""
    text = snapshot.analysis.without(snapshot.analysis.known.left_out)
    for hole, unit in sorted(chosen, key=lambda pair: pair[0].start, reverse=True):
        text = replaced(text, [hole], unit)
    answer = snapshot.analysis.ask(["types"], text)
    before = [scheme.line for scheme in snapshot.analysis.known.schemes.values()]
    return answer.status == 0 and answer.output.decode().splitlines() == before


# ---- what a refusal can be put right with

def _fixes(snapshot: Snapshot, start: int, end: int) -> list[Json]:
    refusal = snapshot.analysis.outcome.refusal
    if refusal is None or refusal.offset is None or not _touches(snapshot, refusal.offset, start, end):
        return []
    found = [*_similar_names(snapshot, refusal), *_missing_in(snapshot, refusal)]
    told = diagnostics(snapshot)
    return [{**action, "diagnostics": told, "isPreferred": at == 0} for at, action in enumerate(found)]


def _touches(snapshot: Snapshot, offset: int, start: int, end: int) -> bool:
    """Whether a range is in the lines of a refusal; a token that is missing is refused one line later or more."""
    lines = snapshot.lines
    first, last = lines.line_of(start), lines.line_of(end)
    made = snapshot.reading.declaration_at(max(offset - 1, 0)) if snapshot.reading.declarations else None
    return first <= lines.line_of(offset) <= last or made is not None and made.start <= end and start <= max(
        made.end, offset)


def _similar_names(snapshot: Snapshot, refusal: Refusal) -> Iterator[Json]:
    """A name that is known, in the place of one that isn't."""
    report, offset = refusal.report, refusal.offset
    token = snapshot.reading.token_at(offset) if offset is not None else None
    if report.status != 7 or report.message != "unknown name" or token is None:
        return
    told = next((line.removeprefix(SIMILAR).split() for line in refusal.details if line.startswith(SIMILAR)), None)
    if told is None:
        told = [] if snapshot.analysis.program.has("explain") else _alike(snapshot, token)
    for name in told:
        if _is_better(snapshot, replaced(snapshot.text, [token], name), refusal, 0):
            yield _action(snapshot, f"Write {name} for {token.text}", QUICK_FIX,
                          [_edit(snapshot, token.start, token.end, name)])


def _alike(snapshot: Snapshot, token: Token) -> list[str]:
    """Names of the text that are like one, if the program names none."""
    sort = Kind.VARIABLE if token.kind is Kind.VARIABLE else Kind.NAME
    names = {name.text: None for name in snapshot.reading.names if name.token.kind is sort}
    names |= {name.text: None for space in SPACES for name in snapshot.reading.all_known(space) if sort is Kind.NAME}
    return similar(token.text, list(names))


def _missing_in(snapshot: Snapshot, refusal: Refusal) -> Iterator[Json]:
    """An `in` after a local `let` that has none: at the end of a line, or before what is refused."""
    offset = refusal.offset
    if refusal.report.status != 5 or offset is None:
        return
    lets = [let for made in snapshot.reading.declarations for let in made.open_lets if let.start < offset]
    expected = next((line for line in refusal.details if line.startswith("expected: ")), None)
    if not lets or expected is not None and "in" not in expected.split():
        return
    let = lets[-1]
    for at in _places_of_in(snapshot, let, offset)[:TRIED]:
        text = snapshot.text[:at] + " in" + snapshot.text[at:]
        if _is_better(snapshot, text, refusal, len(" in")):
            yield _action(snapshot, "Write the missing in", QUICK_FIX, [_edit(snapshot, at, at, " in")])
            return


def _places_of_in(snapshot: Snapshot, let: Token, offset: int) -> list[int]:
    """The ends of the lines from a `let` to what is refused, and the end of what stands before that."""
    tokens = snapshot.reading.tokens(let.start, offset)
    lines = snapshot.lines
    ends = [token.end for token, after in zip(tokens, tokens[1:])
            if lines.line_of(token.start) != lines.line_of(after.start)]
    return [*ends, tokens[-1].end] if tokens else []


def _is_better(snapshot: Snapshot, text: str, refusal: Refusal, longer: int) -> bool:
    """Whether the program accepts a text, or refuses it later than this one."""
    answer = snapshot.analysis.ask(["types"], text)
    if answer.status == 0:
        return True
    report = reports.of_answer(answer.status, answer.output)
    if report.status in (3, 4, 5) and refusal.report.status not in (3, 4, 5):
        return False
    if report.status in (3, 4, 5) and report.line is not None and refusal.report.line is not None:
        before = (refusal.report.line, (refusal.report.column or 0) + longer)
        return (report.line, report.column or 0) > before
    return report != refusal.report
