"""`tidy`: a layout that keeps spelling, comments and line breaks."""
from __future__ import annotations

from front import Source
from grammar import Node
from layout import Layout
from lexer import Token

WHITE = " \t\r\n"


def spaces(tree: Node) -> list[bool]:
    """For each token of the program, whether a space stands before it in the layout."""
    before = []
    for node in tree.parts[0]:
        space = True
        for piece in Layout(all_tokens=True).declaration(node):
            if piece != " ":
                before.append(space)
            space = piece == " "
    return before


def openers(source: Source) -> set[int]:
    """The places of tokens that begin a declaration, and of the `type` after its attribute."""
    numbers = {token.start: number for number, token in enumerate(source.tokens)}
    places = set()
    for node in source.tree.parts[0]:
        name = numbers[node.at]
        back = {"base": [5, 1], "short": [5, 1], "struct": [1], "rec": [2]}.get(node.kind, [1])
        places.update(source.tokens[name - step].start for step in back)
    return places


def column(gap: str) -> int:
    """The indentation of a line as a number of spaces."""
    width = 0
    for char in gap:
        width += 4 - width % 4 if char == "\t" else 1
    return width


class Tidy:
    """Lays out the lines of a text."""

    def __init__(self, source: Source) -> None:
        self.text, self.openers = source.text, openers(source)
        self.spaced = dict(zip([token.start for token in source.tokens], spaces(source.tree)))
        self.tokens = source.tokens

    def line(self, start: int, end: int, tokens: list[Token]) -> str:
        """A line: its indentation, its tokens, its comment."""
        after = tokens[-1].end if tokens else start
        comment = self.text.find("//", after, end)
        first = tokens[0].start if tokens else comment if comment >= 0 else end
        text = "".join((" " if number and self.spaced[token.start] else "") + self.text[token.start:token.end]
                       for number, token in enumerate(tokens))
        if comment >= 0:
            text += (" " if tokens else "") + self.text[comment:end].rstrip(WHITE)
        indent = column(self.text[start:first])
        if tokens:
            indent = 0 if tokens[0].start in self.openers else max(indent, 2)
        return " " * indent + text if text else ""

    def lines(self) -> list[str]:
        """All lines, the blank ones empty."""
        start = 1 if self.text.startswith("\ufeff") else 0
        found, next_token = [], 0
        while start <= len(self.text):
            end = self.text.find("\n", start)
            end = len(self.text) if end < 0 else end
            first = next_token
            while next_token < len(self.tokens) and self.tokens[next_token].start < end:
                next_token += 1
            found.append(self.line(start, end, self.tokens[first:next_token]))
            start = end + 1
        return found


def tidied(source: Source) -> str:
    """The text laid out anew. Of several blank lines one stays, and none at the start and the end."""
    kept: list[str] = []
    for line in Tidy(source).lines():
        if line or (kept and kept[-1]):
            kept.append(line)
    while kept and not kept[-1]:
        kept.pop()
    return "".join(line + "\n" for line in kept)
