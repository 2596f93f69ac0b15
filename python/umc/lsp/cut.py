"""Where the declarations of a text begin."""
from umc.lsp.kept import Row

# An expression can begin after one of these, so that a `let` there is a local one.
BEFORE_EXPRESSION = frozenset(["=", "in", "if", "then", "else", "match", "->", "(", "[", ";", "{"])


def beginnings(rows: list[Row]) -> list[tuple[int, int]]:
    """For each declaration its line, and the number of its first token there.

    What stands before the first one is one without a name.
    """
    tokens: list[str] = []
    found: list[tuple[int, int]] = []
    waiting: list[tuple[int, int, int]] = []
    for number, row in enumerate(rows):
        if row.texts and not tokens:
            waiting.append((number, 0, 0))
        if row.starts:
            waiting += [(number, at, len(tokens) + at) for at in row.starts if len(tokens) + at > 0]
        tokens += row.texts
    for number, at, whole in waiting:
        if whole == 0 or _begins(tokens, whole, at == 0 and not rows[number].is_indented):
            found.append((number, at))
    return found


def _begins(tokens: list[str], at: int, is_in_front: bool) -> bool:
    """Whether a declaration begins with this token, which isn't the first one, but may be in front of a line."""
    word, before = tokens[at], tokens[at - 1]
    if word == "[<":
        return before not in ("<", ",") and "type" in tokens[at + 1:at + 5]
    if word == "type":
        return before != "]"
    return before not in BEFORE_EXPRESSION or is_in_front and _is_cut_off(tokens, at)


def _is_cut_off(tokens: list[str], at: int) -> bool:
    """Whether a `let` in front of a line has no `in`, so that an expression is missing before it."""
    waiting = 0
    for ahead in range(at, len(tokens)):
        text = tokens[ahead]
        waiting += (text == "let") - (text == "in")
        if waiting == 0 or text in ("type", "[<"):
            return waiting > 0
    return True
