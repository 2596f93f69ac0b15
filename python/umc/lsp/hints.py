"""Inlay hints: the units that the program found for open holes."""
from umc.lsp import facts
from umc.lsp.documents import Snapshot
from umc.lsp.positions import Json

TYPE = 1


def inlay_hints(snapshot: Snapshot, params: Json) -> list[Json]:
    """Answers textDocument/inlayHint."""
    start, end = (snapshot.offset(params["range"][side]) for side in ("start", "end"))
    known = snapshot.analysis.known
    return [{"position": snapshot.lines.position(hole.end), "label": f": {unit}", "kind": TYPE}
            for made in snapshot.reading.declarations if made.start < end and made.end > start
            for hole, unit in facts.holes(known, made) if start <= hole.start < end]
