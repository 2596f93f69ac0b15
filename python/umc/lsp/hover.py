"""What is shown at a place of a text: the type of the part there, or what the name there stands for."""
from dataclasses import dataclass, field

from umc.lsp import facts
from umc.lsp.analysis import Known
from umc.lsp.documents import Snapshot
from umc.lsp.names import Sort
from umc.lsp.placed import Name
from umc.lsp.positions import Json
from umc.lsp.tokens import Kind, Token


@dataclass
class Shown:
    """What is shown: lines in the language, and sentences."""

    code: list[str] = field(default_factory=list)
    said: list[str] = field(default_factory=list)

    def markup(self, markdown: bool) -> Json:
        if not markdown:
            return {"kind": "plaintext", "value": "\n".join([*self.code, *self.said])}
        block = ["```um\n" + "\n".join(self.code) + "\n```"] if self.code else []
        return {"kind": "markdown", "value": "\n\n".join([*block, *self.said])}


def hover(snapshot: Snapshot, params: Json) -> Json | None:
    """Answers textDocument/hover."""
    token = snapshot.reading.token_at(snapshot.offset(params["position"]))
    shown = described(snapshot, token) if token else None
    if token is None or shown is None:
        return None
    formats = snapshot.workspace.client_can("textDocument", "hover", "contentFormat") or ["markdown"]
    return {"contents": shown.markup("markdown" in formats), "range": snapshot.range(token.start, token.end)}


def described(snapshot: Snapshot, token: Token) -> Shown | None:
    """What is known of a token."""
    known = snapshot.analysis.known
    name = snapshot.reading.name_of(token)
    if name:
        return of_name(snapshot, known, name, token)
    if token.kind is Kind.HOLE:
        return _hole(snapshot, known, token)
    kind = known.parts.get(token.start)
    return Shown([kind]) if kind else None


def of_name(snapshot: Snapshot, known: Known, name: Name, token: Token | None = None) -> Shown:
    """What is known of a name, used at a token."""
    sort, made = name.sort, name.declaration
    if sort.is_type:
        shown = Shown([facts.written(made.tokens)], [_sentence(snapshot, known, name)])
    elif sort is Sort.FUNCTION:
        shown = _function(snapshot, known, name)
    elif sort is Sort.UNIT:
        what = "unit parameter" if name.is_parameter_of_units else "unit variable"
        return Shown([name.text], [f"{what} of {made.name.text}" if made.name else what])
    else:
        owner = f" of {made.name.text}" if made.name else ""
        kind = facts.of_name(known, name)
        shown = Shown([f"{name.text} : {kind}" if kind else name.text], [name.sort.value + owner])
        return _with_use(snapshot, known, shown, token, kind)
    above = facts.comment_above(snapshot, name)
    shown.said += [above] if above else []
    return _with_use(snapshot, known, shown, token, None)


def _with_use(snapshot: Snapshot, known: Known, shown: Shown, token: Token | None, kind: str | None) -> Shown:
    """Adds the type that a name has where it is used, if it is another than the one that is shown."""
    here = known.parts.get(facts.part(snapshot, token)) if token else None
    if here and here != kind:
        shown.said.insert(0, f"here `{here}`")
    return shown


def _sentence(snapshot: Snapshot, known: Known, name: Name) -> str:
    unit = facts.abbreviations(snapshot, known).get(name.text) if name.sort is Sort.ABBREVIATION else None
    return f"{name.sort.value}; stands for `{unit}`" if unit else str(name.sort.value)


def _function(snapshot: Snapshot, known: Known, name: Name) -> Shown:
    scheme = known.schemes.get(name.text)
    made = name.declaration
    if scheme:
        return Shown([scheme.line])
    head = [token for token in made.tokens if token.start < made.head_end]
    return Shown([facts.written(head)], ["its type isn't known, since it is refused"])


def _hole(snapshot: Snapshot, known: Known, token: Token) -> Shown | None:
    made = snapshot.reading.declaration_at(token.start)
    for hole, unit in facts.holes(known, made):
        if hole.start == token.start:
            return Shown([f"<{unit}>"], ["the unit that is inferred here"])
    for parameter, kind in zip(made.parameters, _parameters(known, made.name)):
        if parameter.binder.start == token.start:
            return Shown([f"_ : {kind}"], [Sort.PARAMETER.value])
    return None


def _parameters(known: Known, name: Token | None) -> tuple[str, ...]:
    scheme = known.schemes.get(name.text) if name else None
    return scheme.parameters if scheme else ()
