"""The types of names, parts and holes, as the program tells them."""
from umc.lsp.analysis import Known
from umc.lsp.documents import Snapshot
from umc.lsp.names import Sort
from umc.lsp.placed import Declaration, Name
from umc.lsp.tokens import Kind, Token


def written(tokens: list[Token]) -> str:
    """Tokens as they stand in the text, with runs of white space as one space and without comments."""
    return "".join((" " if before and before.end < token.start else "") + token.text
                   for before, token in zip([None, *tokens], tokens))


def of_name(known: Known, name: Name) -> str | None:
    """The type of a variable or a field; None if it isn't known."""
    if name.sort is Sort.PARAMETER:
        inferred = of_parameter(known, name)
        if inferred:
            return inferred
    if name.annotation:
        return written(name.annotation.tokens)
    return next((kind for kind in (known.parts.get(use.start) for use in name.uses) if kind), None)


def of_parameter(known: Known, name: Name) -> str | None:
    """The type of a parameter as the scheme of its function has it."""
    made = name.declaration
    scheme = known.schemes.get(made.name.text) if made.name else None
    binders = [parameter.binder for parameter in made.parameters]
    if scheme is None or len(binders) != len(scheme.parameters) or name.token not in binders:
        return None
    return scheme.parameters[binders.index(name.token)]


def units_of(kind: str) -> list[str]:
    """The units of a printed type, in order. A number without one has the unit 1."""
    if "<" in kind:
        return kind[kind.index("<") + 1:kind.rindex(">")].split(", ")
    return ["1"] if kind.startswith("num") else []


def holes(known: Known, made: Declaration) -> list[tuple[Token, str]]:
    """The holes of a function, each with the unit that the program found for it."""
    scheme = known.schemes.get(made.name.text) if made.name and made.sort is Sort.FUNCTION else None
    if scheme is None:
        return []
    found: list[tuple[Token, str]] = []
    noted = [*(parameter.annotation for parameter in made.parameters), made.result]
    for annotation, kind in zip(noted, [*scheme.parameters, scheme.result]):
        if annotation:
            found += [(note[0], unit) for note, unit in zip(annotation.notes, units_of(kind)) if _is_hole(note)]
    for hole in made.holes:
        units = units_of(known.parts.get(hole.part) or "")
        found += [(hole.token, units[hole.at])] if hole.at < len(units) else []
    return found


def _is_hole(note: list[Token]) -> bool:
    return len(note) == 1 and note[0].kind is Kind.HOLE


def abbreviations(snapshot: Snapshot, known: Known) -> dict[str, str]:
    """The units in base units that abbreviations stand for."""
    return snapshot.workspace.abbreviations.of(snapshot.reading, known.left_out)


def part(snapshot: Snapshot, token: Token) -> int:
    """The offset that the program tells for the part which a token names: of a field that is taken, its point."""
    if token.kind is Kind.NAME:
        made = snapshot.reading.declaration_at(token.start)
        at = made.index_at(token.start) - 1
        if at >= 0 and made.tokens[at].text == ".":
            return made.tokens[at].start
    return token.start


def comment_above(snapshot: Snapshot, name: Name) -> str:
    """The comment in the lines directly above a declaration."""
    lines = snapshot.lines_of(name.declaration.source)
    line = lines.line_of(name.declaration.start) - 1
    found: list[str] = []
    while line >= 0:
        text = lines.text[lines.start_of(line):lines.end_of(line)].strip()
        if not text.startswith("//"):
            break
        found.append(text.lstrip("/").strip())
        line -= 1
    return "\n".join(reversed(found))
