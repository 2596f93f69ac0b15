"""The layout of a text by the program's `tidy`, as edits of the lines that change."""
import difflib
import re
from itertools import accumulate

from umc.lsp.documents import Snapshot
from umc.lsp.positions import Json

LINE = re.compile(r"[^\n]*\n|[^\n]+")


def formatting(snapshot: Snapshot, params: Json) -> list[Json] | None:
    """Answers textDocument/formatting. A refused text stays as it is."""
    analysis = snapshot.analysis
    answer = analysis.ask_alone(["tidy"], snapshot.text)
    if answer.status != 0:
        return None
    return edits(snapshot, answer.output.decode())


def edits(snapshot: Snapshot, new: str) -> list[Json]:
    """The edits of whole lines that turn the text into a new one."""
    old_lines, new_lines = LINE.findall(snapshot.text), LINE.findall(new)
    starts = [0, *accumulate(map(len, old_lines))]
    matcher = difflib.SequenceMatcher(None, old_lines, new_lines, autojunk=False)
    return [{"range": snapshot.range(starts[i], starts[j]), "newText": "".join(new_lines[k:m])}
            for tag, i, j, k, m in matcher.get_opcodes() if tag != "equal"]
