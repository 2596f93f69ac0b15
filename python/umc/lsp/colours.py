"""The semantic tokens of a text: what each token is, for an editor's colours."""
from collections.abc import Iterable, Iterator
from typing import NamedTuple

from umc.lsp.documents import Snapshot
from umc.lsp.names import Bound, Sort, Space
from umc.lsp.piece import Piece
from umc.lsp.placed import Declaration
from umc.lsp.positions import Json, Lines, units
from umc.lsp.tokens import Kind, Token

TYPES = ["keyword", "comment", "number", "operator", "function", "parameter", "variable", "property", "struct", "type",
         "enumMember", "typeParameter", "decorator"]
MODIFIERS = ["declaration", "readonly"]
DECLARED, READONLY = 1, 2
OF_SORT = {Sort.MEASURE: "enumMember", Sort.ABBREVIATION: "enumMember", Sort.RECORD: "struct",
           Sort.FUNCTION: "function", Sort.FIELD: "property", Sort.PARAMETER: "parameter", Sort.LOCAL: "variable",
           Sort.UNIT: "typeParameter"}
OF_WORD = {"num": "type", "bool": "type", "list": "type", "Measure": "decorator", "not": "operator",
           "pown": "operator"}
OF_KIND = {Kind.COMMENT: "comment", Kind.NUMBER: "number", Kind.HOLE: "typeParameter", Kind.NAME: "variable",
           Kind.VARIABLE: "typeParameter", Kind.WORD: "keyword", Kind.SIGN: "operator"}
BRACKETS = frozenset(["(", ")", "[", "]", "{", "}", ";", ",", "[<", ":"])
NUMBERS = {name: number for number, name in enumerate(TYPES)}


class Colour(NamedTuple):
    """The type of a token and its modifiers, as numbers."""

    type: int
    modifiers: int = 0


# What each name of the whole text that a piece uses is; None for a name that isn't known.
Meanings = dict[tuple[Space, str], Colour | None]
OF_TEXT = {text: Colour(NUMBERS[name]) for text, name in OF_WORD.items()} | dict.fromkeys(BRACKETS)
OTHERWISE = {kind: Colour(NUMBERS[name]) for kind, name in OF_KIND.items()}


class Coloured(NamedTuple):
    """The tokens of a piece, five numbers each, and the line and column of the last one, counted from its beginning."""

    numbers: list[int]
    line: int
    column: int


def semantic_tokens(snapshot: Snapshot, params: Json) -> Json:
    """Answers textDocument/semanticTokens/full."""
    data: list[int] = []
    line = column = 0
    for made in [snapshot.reading.head, *snapshot.reading.declarations]:
        numbers, last_line, last_column = _coloured(made)
        if numbers:
            # Where the piece begins in the text, after the last token before.
            row, indent = snapshot.lines.place(made.start)
            first_line, first_column = row + numbers[0], numbers[1] + (0 if numbers[0] else indent)
            data += [first_line - line, first_column - (0 if first_line > line else column), *numbers[2:]]
            line, column = row + last_line, last_column + (0 if last_line else indent)
    return {"data": data}


def semantic_tokens_in(snapshot: Snapshot, params: Json) -> Json:
    """Answers textDocument/semanticTokens/range."""
    start, end = (snapshot.offset(params["range"][side]) for side in ("start", "end"))
    found = [(token.moved(made.start), colour)
             for made in [snapshot.reading.head, *snapshot.reading.declarations_in(start, end)]
             for token, colour in _colours(made.piece, _meanings(made))
             if made.start + token.start < end and made.start + token.end > start]
    return {"data": _encoded(snapshot.lines, found).numbers}


def _coloured(made: Declaration) -> Coloured:
    """The tokens of a piece, which stay with it for as long as the names that it uses are the same."""
    meanings = _meanings(made)
    key = tuple(meanings.values())
    kept = made.piece.coloured
    if kept is None or kept[0] != key:
        kept = made.piece.coloured = key, _encoded(Lines(made.piece.text), _colours(made.piece, meanings))
    return kept[1]


def _meanings(made: Declaration) -> Meanings:
    found: Meanings = {}
    for space, text in made.piece.used:
        name = made.reading.resolved(made, space, text)
        found[space, text] = _of_sort(name.sort, name.declaration.piece) if name else None
    return found


def _of_sort(sort: Sort, piece: Piece, modifiers: int = 0) -> Colour:
    """What a name of this sort is that a piece declares."""
    constant = sort.is_measure or sort is Sort.FUNCTION and not piece.parameters
    return Colour(NUMBERS[OF_SORT[sort]], modifiers | (READONLY if constant else 0))


def _colours(piece: Piece, meanings: Meanings) -> Iterator[tuple[Token, Colour]]:
    """The tokens of a piece that have a colour."""
    for token in piece.every:
        name = piece.of_token.get(token.start)
        if isinstance(name, Bound):
            colour: Colour | None = _of_sort(name.sort, piece, DECLARED if name.token is token else 0)
        else:
            colour = meanings[name, token.text] if name else None
            colour = colour or OF_TEXT.get(token.text, OTHERWISE.get(token.kind))
        if colour:
            yield token, colour


def _encoded(lines: Lines, found: Iterable[tuple[Token, Colour]]) -> Coloured:
    """Five numbers a token: lines and UTF-16 units since the one before, units of its own, type, modifiers."""
    numbers: list[int] = []
    line = column = 0
    for token, colour in found:
        row, indent = lines.place(token.start)
        numbers += row - line, indent - (column if row == line else 0), units(token.text), *colour
        line, column = row, indent
    return Coloured(numbers, line, column)
