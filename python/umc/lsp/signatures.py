"""Signature help: the parameters of the function that is called at a place, and which of them is written."""
from dataclasses import dataclass

from umc.lsp import facts
from umc.lsp.cursor import CLOSING, OPENING
from umc.lsp.documents import Snapshot
from umc.lsp.names import Sort
from umc.lsp.placed import Declaration, Name
from umc.lsp.positions import Json, units
from umc.lsp.tokens import Kind, Token


@dataclass(frozen=True)
class Call:
    """A call that is written: the function, and how many arguments stand before the one at the place."""

    name: Name
    argument: int


def signature_help(snapshot: Snapshot, params: Json) -> Json | None:
    """Answers textDocument/signatureHelp."""
    call = call_at(snapshot, snapshot.offset(params["position"]))
    if call is None:
        return None
    label, parts = signature(snapshot, call.name)
    places = snapshot.workspace.client_can("textDocument", "signatureHelp", "signatureInformation",
                                           "parameterInformation", "labelOffsetSupport")
    texts = [f"({parameter.binder.text}" for parameter in call.name.declaration.parameters]
    information: Json = {"label": label, "parameters": [{"label": part if places else text}
                                                        for part, text in zip(parts, texts)]}
    above = facts.comment_above(snapshot, call.name)
    if above:
        information["documentation"] = above
    return {"signatures": [information], "activeSignature": 0, "activeParameter": min(call.argument, len(parts))}


def signature(snapshot: Snapshot, name: Name) -> tuple[str, list[list[int]]]:
    """A function with its parameters and their types, and where in this line each parameter stands."""
    made = name.declaration
    scheme = snapshot.analysis.known.schemes.get(name.text)
    label, parts = name.text, []
    for at, parameter in enumerate(made.parameters):
        kind = scheme.parameters[at] if scheme and at < len(scheme.parameters) else (
            facts.written(parameter.annotation.tokens) if parameter.annotation else "?")
        part = f"({parameter.binder.text}: {kind})"
        parts.append([units(label) + 1, units(label) + 1 + units(part)])
        label += " " + part
    return (f"{label} : {scheme.result}" if scheme else label), parts


def call_at(snapshot: Snapshot, offset: int) -> Call | None:
    """The innermost call whose arguments are written at an offset."""
    if not snapshot.reading.declarations:
        return None
    made = snapshot.reading.declaration_at(offset - 1)
    end = inside = made.index_at(offset - 1) + 1
    while True:
        call = _call(made, end, inside, offset)
        bracket = _opening(made.tokens, end)
        if call or bracket is None:
            return call
        # The bracket that is open here may be an argument itself.
        end, inside, offset = bracket, bracket + 1, made.tokens[bracket].end


def _call(made: Declaration, end: int, inside: int, offset: int) -> Call | None:
    """The call that goes up to the token with number `end`, if the offset is in its arguments, up to `inside`."""
    start = _segment(made, end)
    called = made.tokens[start] if start < end else None
    name = made.reading.name_of(called) if called else None
    if called is None or name is None or name.sort is not Sort.FUNCTION or made.name == called or offset <= called.end:
        return None
    return Call(name, _argument(made, made.tokens[start + 1:inside], offset))


def _opening(tokens: list[Token], end: int) -> int | None:
    """The number of the bracket that is open before the token with number `end`."""
    depth = 0
    for at in reversed(range(end)):
        if tokens[at].text in OPENING and depth == 0:
            return at
        depth += (tokens[at].text in CLOSING) - (tokens[at].text in OPENING)
    return None


def _segment(made: Declaration, end: int) -> int:
    """The number of the first token after the last sign or word before, outside of brackets."""
    depth = 0
    for at in reversed(range(end)):
        token = made.tokens[at]
        if made.is_in_unit(token):
            continue
        if token.text in CLOSING:
            depth += 1
        elif token.text in OPENING:
            if depth == 0:
                return at + 1
            depth -= 1
        elif depth == 0 and _ends(token):
            return at + 1
    return 0


def _ends(token: Token) -> bool:
    """Whether an application doesn't go past this token."""
    if token.kind is Kind.WORD:
        return token.text not in ("true", "false")
    return token.kind is Kind.SIGN and token.text != "."


def _argument(made: Declaration, tokens: list[Token], offset: int) -> int:
    """How many arguments end before an offset."""
    count = depth = 0
    after_point = False
    last = 0
    for token in tokens:
        begins = depth == 0 and token.text != "." and not after_point and not made.is_in_unit(token) and (
            token.text not in CLOSING)
        count += begins
        depth += (token.text in OPENING) - (token.text in CLOSING)
        after_point = token.text == "."
        last = token.end
    return max(count - 1, 0) if depth > 0 or last >= offset else count
