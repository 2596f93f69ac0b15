"""A split of a text into tokens, comments among them. It never fails: what begins no token is a token of its own.

No token goes on in the next line, so that a line has the same tokens in every text, except after the byte order mark.
"""
import re
from enum import Enum
from string import ascii_letters, digits
from typing import NamedTuple

WORDS = frozenset("let rec in if then else match with type true false not num bool list Measure pown".split())
MARK = "\ufeff"
LETTERS = r"A-Za-z_\u0080-\U0010ffff"
WIDE = r"\u0080-\U0010ffff"
TOKEN = re.compile(rf"""[A-Za-z_][A-Za-z0-9_]*+(?![{WIDE}])
    |\[<|<=|<>|->|::|\|\||&&|//[^\n]*
    |[0-9]+(?:[.r][0-9]+)?
    |'[A-Za-z_][A-Za-z0-9_]*+(?![{WIDE}])
    |'?[{LETTERS}][{LETTERS}0-9]*
    |[^ \t\r\n]""", re.VERBOSE)


class Kind(Enum):
    """What a token is."""

    __hash__ = object.__hash__  # that of Enum is slow

    NAME = "name"
    VARIABLE = "variable"
    NUMBER = "number"
    WORD = "word"
    HOLE = "hole"
    SIGN = "sign"
    COMMENT = "comment"
    BAD = "bad"


SIGNS = "[< <= <> -> :: || && [ ] ( ) { } < > = + - * ^ ; : , . | /".split()
OF_TEXT = {"_": Kind.HOLE, **dict.fromkeys(WORDS, Kind.WORD), **dict.fromkeys(SIGNS, Kind.SIGN), "'": Kind.BAD}
OF_FIRST = {**dict.fromkeys(ascii_letters + "_", Kind.NAME), **dict.fromkeys(digits, Kind.NUMBER),
            "'": Kind.VARIABLE, "/": Kind.COMMENT}


class Token(NamedTuple):
    """A token: what it is, its text, and the offsets at which it begins and ends."""

    kind: Kind
    text: str
    start: int
    end: int

    def moved(self, by: int) -> "Token":
        """The token with the offsets that it has if so many characters stand before it."""
        return Token(self.kind, self.text, self.start + by, self.end + by)


def split(text: str) -> list[Token]:
    """The tokens of a text in order, with its comments."""
    return split_after(text, text.startswith(MARK))


def split_after(text: str, count: int) -> list[Token]:
    """The tokens after so many characters of a text, of which a byte order mark is a token as well."""
    found: list[Token] = []
    at: int | None = count
    while at is not None:
        at = _split_from(text, at, found)
    return found


def texts(line: str) -> list[str]:
    """The texts of the tokens of a line, without its comment."""
    if not line.isascii():
        return [token.text for token in split_after(line, 0) if token.kind is not Kind.COMMENT]
    found: list[str] = TOKEN.findall(line)
    if found and found[-1].startswith("//"):
        found.pop()
    return found


def comment(line: str) -> Token | None:
    """The comment of a line."""
    at = line.find("//")
    return Token(Kind.COMMENT, line[at:].rstrip("\r"), at, len(line.rstrip("\r"))) if at >= 0 else None


def end_of(text: str) -> int:
    """Where the last token of a text ends, comments left out; 0 if there is none."""
    end = len(text)
    while end > 0:
        start = text.rfind("\n", 0, end) + 1
        tokens = text[start:end].partition("//")[0].rstrip(" \t\r")
        if tokens:
            return start + len(tokens)
        end = start - 1
    return 0


def start_of(line: str, number: int) -> int:
    """Where a token of a line begins, by its number."""
    if number == 0:
        return len(line) - len(line.lstrip(" \t\r"))
    return split_after(line, 0)[number].start


def moved(tokens: list[Token], by: int) -> list[Token]:
    """Tokens with the offsets that they have if so many characters stand before them."""
    make = tuple.__new__
    return [make(Token, (kind, text, start + by, end + by)) for kind, text, start, end in tokens]


def first(text: str, at: int) -> Token | None:
    """The token that begins at an offset; None if white space or a comment stands there."""
    end = text.find("\n", at)
    found = split(text[at:end if end >= 0 else len(text)])
    if not found or found[0].start > 0 or found[0].kind is Kind.COMMENT:
        return None
    return found[0]._replace(start=at, end=at + found[0].end)


def last(text: str) -> Token | None:
    """The last token of a text, comments left out. No token goes on in the next line."""
    end = len(text)
    while end > 0:
        start = text.rfind("\n", 0, end) + 1
        found = [token for token in split(text[start:end]) if token.kind is not Kind.COMMENT]
        if found:
            return found[-1]._replace(start=start + found[-1].start, end=start + found[-1].end)
        end = start - 1
    return None


def _split_from(text: str, at: int, found: list[Token]) -> int | None:
    """Goes on at a place up to the first token that ends earlier than its characters beyond ASCII let it seem."""
    take, of_text, of_first, make = found.append, OF_TEXT.get, OF_FIRST.get, tuple.__new__
    for match in TOKEN.finditer(text, at):
        piece, start = match[0], match.start()
        kind = of_text(piece) or of_first(piece[0], Kind.BAD)
        if kind is Kind.COMMENT:
            piece = piece.rstrip("\r")
        elif not piece.isascii():
            wide = _wide(piece, start)
            take(wide)
            if wide.end < match.end():
                return wide.end
            continue
        take(make(Token, (kind, piece, start, start + len(piece))))
    return None


def _wide(piece: str, start: int) -> Token:
    """The token at the start of characters of which some are beyond ASCII."""
    mark = piece.startswith("'")
    length = mark + identifier(piece[mark:])
    if length == mark:
        return Token(Kind.BAD, piece[0], start, start + 1)
    return Token(Kind.VARIABLE if mark else Kind.NAME, piece[:length], start, start + length)


def identifier(text: str) -> int:
    """How many characters of a text are a name at its start. Letters are those of Unicode Standard Annex 31."""
    length = 0
    while length < len(text) and (text[0] if length == 0 else "a" + text[length]).isidentifier():
        length += 1
    return length


def only(text: str) -> Kind | None:
    """The kind of the one token that a text is; None for a text that is another number of tokens, or has spaces."""
    tokens = split(text)
    return tokens[0].kind if len(tokens) == 1 and tokens[0].text == text else None
