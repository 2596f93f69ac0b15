"""Tokens of a text, by the section "Tokens" of docs/LANGUAGE.md.

A text is a string of characters. Places are numbers of characters before, counted from 0.
"""
from __future__ import annotations

from collections.abc import Callable
from dataclasses import dataclass
from fractions import Fraction

WORDS = "let rec in if then else match with type true false not num bool list Measure pown".split()
SIGNS = "( ) [ ] { } [< < > = <= <> + - * / ^ ; : :: , . | || && ->".split()
WIDEST = 2**63 - 1
HIGHEST_POWER = 2147483647


class LexFault(Exception):
    """The text has no tokens: `kind` is character, number or power, at a place. A `letter` follows a number."""

    def __init__(self, kind: str, at: int, letter: bool = False) -> None:
        super().__init__(kind, at)
        self.kind, self.at, self.letter = kind, at, letter


@dataclass
class Token:
    """A token: its kind is name, var, number, word or sign; `text` its spelling, a variable's without the quote."""

    kind: str
    text: str
    start: int
    end: int
    glued: bool
    value: Fraction | None = None
    after_number: bool = False

    @property
    def whole(self) -> bool:
        """It is a number of digits alone."""
        return self.kind == "number" and self.text.isdigit()


def starts_name(char: str) -> bool:
    """The character begins a name."""
    return char.isidentifier()


def continues_name(char: str) -> bool:
    """The character goes on a name."""
    return ("a" + char).isidentifier()


def is_digit(char: str) -> bool:
    """It is one of the ten digits."""
    return "0" <= char <= "9" and len(char) == 1


def run_end(text: str, at: int, test: Callable[[str], bool]) -> int:
    """Where the characters that pass the test end."""
    while at < len(text) and test(text[at]):
        at += 1
    return at


def in_range(value: Fraction) -> bool:
    """Both parts fit into 64 bits."""
    return abs(value.numerator) <= WIDEST and value.denominator <= WIDEST


def number_end(text: str, at: int) -> int:
    """The end of the number that begins here: digits, and after `.` or `r` further digits."""
    end = run_end(text, at, is_digit)
    if text[end:end + 1] in (".", "r") and is_digit(text[end + 1:end + 2]):
        end = run_end(text, end + 1, is_digit)
    return end


def number_value(text: str) -> Fraction | None:
    """The value of a number's text; none with more than 38 digits, the denominator 0 or a part past 64 bits."""
    if sum(is_digit(char) for char in text) > 38:
        return None
    above, _, below = text.partition("r")
    if below and int(below) == 0:
        return None
    value = Fraction(int(above), int(below)) if below else Fraction(text)
    return value if in_range(value) else None


def power_value(text: str) -> Fraction | None:
    """The value of a number after `^`: digits alone, at most 2147483647."""
    if not text.isdigit() or len(text.lstrip("0")) > 10 or int(text) > HIGHEST_POWER:
        return None
    return Fraction(int(text))


def is_power_place(tokens: list[Token]) -> bool:
    """A number after these tokens is a power: they end with `^`, or with `^` and `-`."""
    last = [token.text if token.kind == "sign" else "" for token in tokens[-2:]]
    return last[-1:] == ["^"] or last == ["^", "-"]


def skip_gap(text: str, at: int) -> int:
    """The place after white space and comments."""
    while at < len(text):
        if text.startswith("//", at):
            end = text.find("\n", at)
            at = len(text) if end < 0 else end
        elif text[at] in " \t\r\n":
            at += 1
        else:
            break
    return at


def word_token(text: str, at: int) -> tuple[str, str, int]:
    """The name, the reserved word or the `_` that begins here, and its end."""
    end = run_end(text, at, continues_name)
    spelled = text[at:end]
    kind = "word" if spelled in WORDS else "sign" if spelled == "_" else "name"
    return kind, spelled, end


def variable_token(text: str, at: int) -> tuple[str, str, int]:
    """The unit variable that begins here. Of a longest one that is a reserved word the last letter is left out."""
    if not starts_name(text[at + 1:at + 2]):
        raise LexFault("character", at)
    end = run_end(text, at + 1, continues_name)
    if text[at + 1:end] in WORDS:
        end -= 1
    if text[at + 1:end] == "_":
        raise LexFault("character", at)
    return "var", text[at + 1:end], end


def sign_token(text: str, at: int) -> tuple[str, str, int]:
    """The longest sign that begins here."""
    for length in (2, 1):
        if text[at:at + length] in SIGNS:
            return "sign", text[at:at + length], at + length
    raise LexFault("character", at)


def number_token(text: str, at: int, power: bool) -> tuple[str, str, int, Fraction]:
    """The number that begins here, as a power or not. No character that goes on a name may follow it."""
    end = number_end(text, at)
    value = power_value(text[at:end]) if power else number_value(text[at:end])
    if value is None:
        raise LexFault("power" if power else "number", at)
    if end < len(text) and continues_name(text[end]):
        raise LexFault("character", end, True)
    return "number", text[at:end], end, value


def tokens_of(text: str) -> list[Token]:
    """The tokens of a text, or LexFault at the first place where none can be taken."""
    tokens: list[Token] = []
    at = skip_gap(text, 1 if text.startswith("\ufeff") else 0)
    while at < len(text):
        value = None
        if is_digit(text[at]):
            kind, spelled, end, value = number_token(text, at, is_power_place(tokens))
        elif text[at] == "'":
            kind, spelled, end = variable_token(text, at)
        elif starts_name(text[at]):
            kind, spelled, end = word_token(text, at)
        else:
            kind, spelled, end = sign_token(text, at)
        glued = bool(tokens) and tokens[-1].end == at
        after = bool(tokens) and tokens[-1].kind == "number"
        tokens.append(Token(kind, spelled, at, end, glued, value, after))
        at = skip_gap(text, end)
    return tokens


def is_name(text: str) -> bool:
    """The text is a name, and nothing else."""
    return text.isidentifier() and text != "_" and text not in WORDS


def line_and_column(text: str, at: int) -> str:
    """`L:C` of a place."""
    before = text[:at]
    return f"{before.count(chr(10)) + 1}:{at - (before.rfind(chr(10)) + 1) + 1}"
