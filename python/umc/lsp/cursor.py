"""A place in a list of tokens that moves forward."""
from umc.lsp.names import Annotation
from umc.lsp.tokens import Kind, Token

OPENING, CLOSING = frozenset("([{"), frozenset(")]}")


class Cursor:
    """Reads tokens one after another."""

    def __init__(self, tokens: list[Token]):
        self.tokens = tokens
        self.index = 0

    @property
    def ended(self) -> bool:
        return self.index >= len(self.tokens)

    def at(self, text: str, ahead: int = 0) -> bool:
        """Whether the token here, or so many further on, has this text."""
        at = self.index + ahead
        return at < len(self.tokens) and self.tokens[at].text == text

    def next(self) -> Token:
        """The token here; the next one is here then."""
        self.index += 1
        return self.tokens[self.index - 1]

    def take(self, text: str) -> Token | None:
        """The token here if it has this text."""
        return self.next() if self.at(text) else None

    def take_kind(self, kind: Kind) -> Token | None:
        """The token here if it is of this kind."""
        return self.next() if not self.ended and self.tokens[self.index].kind is kind else None

    def skip_past(self, text: str) -> None:
        """Goes on to the token after the next one with this text, or to the end."""
        while not self.ended and not self.take(text):
            self.index += 1

    def until(self, texts: set[str]) -> list[Token]:
        """The tokens up to the next one with one of these texts."""
        start = self.index
        while not self.ended and self.tokens[self.index].text not in texts:
            self.index += 1
        return self.tokens[start:self.index]

    def until_closed(self) -> list[Token]:
        """The tokens up to the bracket that closes what is open here."""
        start, depth = self.index, 0
        while not self.ended:
            text = self.tokens[self.index].text
            if text in CLOSING and depth == 0:
                break
            depth += (text in OPENING) - (text in CLOSING)
            self.index += 1
        return self.tokens[start:self.index]

    def rest(self) -> list[Token]:
        """The tokens from here to the end."""
        start, self.index = self.index, len(self.tokens)
        return self.tokens[start:]


def annotation(tokens: list[Token]) -> Annotation | None:
    """A type as it is written; None if there is none."""
    return Annotation(tokens) if tokens else None
