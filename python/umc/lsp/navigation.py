"""Where a name is declared, and where it is used."""
from umc.lsp.documents import Snapshot
from umc.lsp.placed import Name
from umc.lsp.positions import Json
from umc.lsp.tokens import Token

WRITE, READ = 3, 2


def name_at(snapshot: Snapshot, params: Json) -> tuple[Name, Token] | None:
    """The name at a position, and the token there."""
    token = snapshot.reading.token_at(snapshot.offset(params["position"]))
    name = snapshot.reading.name_of(token) if token else None
    return (name, token) if name and token else None


def here(snapshot: Snapshot, name: Name) -> list[Token]:
    """The places of a name in this text."""
    return name.tokens if name.is_of_text else name.uses


def definition(snapshot: Snapshot, params: Json) -> Json | None:
    """Answers textDocument/definition."""
    found = name_at(snapshot, params)
    return _declared(snapshot, found[0]) if found else None


def _declared(snapshot: Snapshot, name: Name) -> Json:
    uri = name.declaration.source
    return {"uri": uri, "range": snapshot.lines_of(uri).range(name.token.start, name.token.end)}


def references(snapshot: Snapshot, params: Json) -> list[Json] | None:
    """Answers textDocument/references."""
    found = name_at(snapshot, params)
    if not found:
        return None
    declared = [_declared(snapshot, found[0])] if params["context"].get("includeDeclaration") else []
    return declared + [{"uri": snapshot.uri, "range": snapshot.range(use.start, use.end)} for use in found[0].uses]


def highlights(snapshot: Snapshot, params: Json) -> list[Json] | None:
    """Answers textDocument/documentHighlight."""
    found = name_at(snapshot, params)
    if not found:
        return None
    return [{"range": snapshot.range(token.start, token.end), "kind": WRITE if token is found[0].token else READ}
            for token in here(snapshot, found[0])]
