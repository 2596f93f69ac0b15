"""The body of a function by its tokens: which names are bound where, and what is used.

A stack has the brackets and the words that are open: a `let` that waits for its `in`, an `if` for its `else`, a
`match` for its second arm. What closes one of them ends the scopes that were opened after it.
"""
from collections.abc import Callable
from dataclasses import dataclass
from typing import TYPE_CHECKING

from umc.lsp.cursor import Cursor
from umc.lsp.names import Bound, Hole, Sort, notes
from umc.lsp.tokens import Kind, Token

if TYPE_CHECKING:
    from umc.lsp.piece import Piece

PAIRS = {")": "(", "]": "[", "}": "{"}


@dataclass
class Open:
    """What is open: a bracket, a word, or a scope, with the number of names that were known before it."""

    what: str
    known: int
    token: Token
    binder: Token | None = None


class Body:
    """Reads one body."""

    def __init__(self, piece: "Piece", cursor: Cursor, scope: list[Bound], variables: dict[str, Bound]):
        self.piece, self.cursor = piece, cursor
        self.scope = list(scope)
        self.variables = variables
        self.open: list[Open] = []

    def read(self) -> None:
        """Reads all tokens from the cursor on."""
        while not self.cursor.ended:
            self._token(self.cursor.next())
        self.piece.open_lets += [one.token for one in self.open if one.what == "let"]
        self._close_to(0, self.piece.end)

    def _token(self, token: Token) -> None:
        if token.kind is Kind.NAME:
            self._name(token)
        elif token.kind is Kind.NUMBER:
            self._number(token)
        else:
            carry_out = ACTIONS.get(token.text)
            if carry_out:
                carry_out(self, token)

    def _opening(self, token: Token) -> None:
        self._push(token.text, token)

    def _closing(self, token: Token) -> None:
        self._close(PAIRS[token.text], token.start, keep=False)

    def _let(self, token: Token) -> None:
        self._push("let", token, self.cursor.take_kind(Kind.NAME) or self.cursor.take_kind(Kind.HOLE))

    def _then(self, token: Token) -> None:
        self._close("if", token.start, keep=True)

    def _else(self, token: Token) -> None:
        self._close("if", token.start, keep=False)

    def _semicolon(self, token: Token) -> None:
        self._close_to_bracket(token.start)

    # ---- what is open

    def _push(self, what: str, token: Token, binder: Token | None = None) -> None:
        self.open.append(Open(what, len(self.scope), token, binder))

    def _close_to(self, size: int, end: int) -> None:
        """Ends what was opened after the first so many, with its scopes."""
        if len(self.open) > size:
            known = self.open[size].known
            for name in self.scope[known:]:
                name.known_to = end
            del self.scope[known:], self.open[size:]

    def _last(self, *what: str) -> int | None:
        for at in range(len(self.open) - 1, -1, -1):
            if self.open[at].what in what:
                return at
        return None

    def _close(self, what: str, end: int, keep: bool) -> None:
        at = self._last(what)
        if at is not None:
            self._close_to(at + keep, end)

    def _close_to_bracket(self, end: int) -> None:
        at = self._last("(", "[", "{")
        if at is not None:
            self._close_to(at + 1, end)

    def _bind(self, binder: Token | None, known_from: int) -> None:
        if binder and binder.kind is Kind.NAME:
            self.scope.append(self.piece.bind(Bound(Sort.LOCAL, binder, known_from, self.piece.end)))

    # ---- words

    def _in(self, token: Token) -> None:
        at = self._last("let")
        if at is None:
            return
        opened = self.open[at]
        self._close_to(at, token.start)
        self._push("scope", token)
        self._bind(opened.binder, token.end)

    def _arm(self, token: Token) -> None:
        if token.text == "|":
            self._close("match", token.start, keep=True)
        elif self._last("match") is not None:
            self._close("match", token.start, keep=True)
            self.cursor.take("|")
        cursor = self.cursor
        if cursor.at("::", 1) and cursor.at("->", 3):
            head, _, tail, arrow = (cursor.next() for _ in range(4))
            at = self._last("match")
            if at is not None:
                self._close_to(at, token.start)
            self._push("scope", token)
            self._bind(head, arrow.end)
            self._bind(tail, arrow.end)
        elif cursor.at("[") and cursor.at("]", 1):
            cursor.index += 2

    def _nil_type(self, token: Token) -> None:
        tokens = self.cursor.until_closed()
        opened = self._last("(")
        if opened is not None:
            self._holes(notes(tokens), self.open[opened].token)
        self.piece.type(tokens, self.variables)

    # ---- names and numbers

    def _number(self, token: Token) -> None:
        """A number, and its unit if one follows directly."""
        cursor = self.cursor
        if cursor.at("<") and cursor.tokens[cursor.index].start == token.end:
            opening = cursor.next()
            tokens = cursor.until({">"})
            closing = cursor.take(">")
            self.piece.unit([opening, *tokens, *([closing] if closing else [])], self.variables)
            self._holes([tokens], token)

    def _holes(self, found: list[list[Token]], part: Token) -> None:
        """Takes down the holes among the units of a part."""
        for at, tokens in enumerate(found):
            if len(tokens) == 1 and tokens[0].kind is Kind.HOLE:
                self.piece.holes.append(Hole(tokens[0], part.start, at))

    def _field(self, point: Token) -> None:
        token = self.cursor.take_kind(Kind.NAME)
        if token:
            self.piece.use_of_text("field", token)

    def _name(self, token: Token) -> None:
        before = self.cursor.tokens[self.cursor.index - 2].text
        if before in ("{", ";") and self.open and self.open[-1].what == "{" and self.cursor.at("="):
            self.piece.use_of_text("field", token)
            self.cursor.next()
            return
        local = next((name for name in reversed(self.scope) if name.token.text == token.text), None)
        if local:
            self.piece.use(local, token)
        else:
            self.piece.use_of_text("function", token)


ACTIONS: dict[str, Callable[[Body, Token], None]] = {
    **dict.fromkeys(["(", "[", "{", "match", "if"], Body._opening), **dict.fromkeys(PAIRS, Body._closing),
    "let": Body._let, "in": Body._in, "then": Body._then, "else": Body._else, ";": Body._semicolon,
    "with": Body._arm, "|": Body._arm, ":": Body._nil_type, ".": Body._field,
}
