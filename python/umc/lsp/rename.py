"""A new name for what a name stands for. The program judges whether the text with it is the same program."""
import re
from collections.abc import Iterable
from concurrent.futures import ThreadPoolExecutor

from umc import reports
from umc.lsp.documents import Snapshot
from umc.lsp.names import Sort
from umc.lsp.navigation import here, name_at
from umc.lsp.placed import Name
from umc.lsp.positions import Json
from umc.lsp.refused import Refused
from umc.lsp.tokens import Kind, Token, only

PRINTED_NAME = re.compile(r"'?[^\W\d]\w*")
UNIT = re.compile(r"(?<=<)[^<>]*(?=>)|(?<=: )[^:<>]*$")


def order_for(sort: Sort) -> str:
    """The command whose answer tells whether a name of this sort still stands for the same.

    Code has each variable by its place in the frame, each field by its place, and the names of functions and records.
    A certificate has each equation, with the unit variables by number. Measures have one space of names with nothing
    that hides another, so that a name which stands for something else is refused.
    """
    return "prove" if sort is Sort.UNIT else "types" if sort.is_measure else "code"


def prepare(snapshot: Snapshot, params: Json) -> Json | None:
    """Answers textDocument/prepareRename."""
    found = name_at(snapshot, params)
    if not found:
        return None
    name, token = found
    _check_own(name)
    return {"range": snapshot.range(token.start, token.end), "placeholder": token.text}


def rename(snapshot: Snapshot, params: Json) -> Json | None:
    """Answers textDocument/rename: the edits, if the text stays the same program."""
    found = name_at(snapshot, params)
    if not found:
        return None
    name, new = found[0], params["newName"]
    _check_own(name)
    if name.sort is Sort.UNIT and not new.startswith("'"):
        new = "'" + new
    if new == name.text:
        return {"changes": {}}
    judge(snapshot, name, new)
    edits = [{"range": snapshot.range(token.start, token.end), "newText": new} for token in here(snapshot, name)]
    return {"changes": {snapshot.uri: edits}}


def _check_own(name: Name) -> None:
    if not name.is_of_text:
        raise Refused(f"{name.text} is declared in another file")


def replaced(text: str, tokens: Iterable[Token], new: str) -> str:
    """A text with a new name in the place of these tokens."""
    pieces, at = [], 0
    for token in sorted(tokens, key=lambda token: token.start):
        pieces += [text[at:token.start], new]
        at = token.end
    return "".join([*pieces, text[at:]])


def judge(snapshot: Snapshot, name: Name, new: str) -> None:
    """Raises Refused unless the program says that the text with the new name is the same program."""
    if only(new) is not (Kind.VARIABLE if name.sort is Sort.UNIT else Kind.NAME):
        raise Refused(f"{new} is no {'unit variable' if name.sort is Sort.UNIT else 'name'}")
    analysis = snapshot.analysis
    refusal = analysis.outcome.refusal
    if refusal:
        raise Refused("the program is refused, so that it can't be told whether it stays the same: "
                      f"{refusal.report.message}")
    if name.sort is Sort.UNIT and any(token.text == new for token in name.declaration.tokens):
        raise Refused(f"{name.declaration.name.text if name.declaration.name else 'it'} has {new} already")
    text = replaced(snapshot.text, here(snapshot, name), new)
    order = order_for(name.sort)
    with ThreadPoolExecutor(2) as pool:
        before = pool.submit(analysis.ask, [order], snapshot.text)
        after = pool.submit(analysis.ask, [order], text)
        answer = after.result()
        if answer.status != 0:
            said = reports.of_answer(answer.status, answer.output)
            raise Refused(f"with the name {new} the program is refused: {said.message}")
        printed = [part.output.decode() for part in (before.result(), answer)]
    if not are_alike(printed[0], printed[1], name.text, new):
        raise Refused(f"with the name {new} it is another program: a name stands for something else")


def are_alike(before: str, after: str, old: str, new: str) -> bool:
    """Whether what was printed is the same but for the name. Lines with the same letters need no second look."""
    lines, new_lines = before.splitlines(), after.splitlines()
    return len(lines) == len(new_lines) and all(
        line == new_line or alike(line, old, new) == alike(new_line, old, new)
        for line, new_line in zip(lines, new_lines))


def alike(printed: str, old: str, new: str) -> list[str]:
    """The lines that were printed, with the old name as the new one, and the measures of each unit in that order."""
    return [UNIT.sub(lambda found: _ordered(found[0]), PRINTED_NAME.sub(
        lambda found: new if found[0] == old else found[0], line)) for line in printed.splitlines()]


def _ordered(units: str) -> str:
    """Units with the measures above the `/` and those below it in the order of their names."""
    parts = [part.partition("/") for part in units.split(", ")]
    return ", ".join("/".join(" ".join(sorted(side.split())) for side in (above, below)) for above, _, below in parts)
