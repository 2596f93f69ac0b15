"""The layout of a program: one declaration a line, as a list of the texts of tokens and of spaces between them.

Brackets stand in the raw tree, so none is added or left out. With `all_tokens` the pieces are, one for one, the tokens
of the text: the bar before `[]` and the sign of a power -0 too, which `fmt` leaves out.
"""
from __future__ import annotations

from grammar import Node
from lexer import Token
from show import number_text

Pieces = list[str]
ATTRIBUTE = ["[<", "Measure", ">", "]"]
BETWEEN = ("+", "-", "*", "/", "<", "<=", "=", "<>", ">", ">=", "&&", "||", "::")


def joined(parts: list[Pieces], between: Pieces) -> Pieces:
    """The parts with something between each two."""
    whole: Pieces = []
    for number, part in enumerate(parts):
        whole += (between if number else []) + part
    return whole


def spaced(*parts: Pieces | str) -> Pieces:
    """The parts with a space between each two; those that are empty are left out."""
    return joined([[part] if isinstance(part, str) else part for part in parts if part], [" "])


class Layout:
    """Lays out the nodes of a raw tree."""

    def __init__(self, all_tokens: bool = False) -> None:
        self.all_tokens = all_tokens

    def power(self, token: Token, negative: bool) -> Pieces:
        """The digits of a power, and whether `-` stands before them."""
        signed = negative and (self.all_tokens or int(token.text) != 0)
        return (["-"] if signed else []) + [str(int(token.text))]

    def unit(self, node: Node) -> Pieces:
        """A unit text."""
        kind, parts = node.kind, node.parts
        if kind in ("measure", "variable", "one"):
            return [{"variable": "'"}.get(kind, "") + parts[0].text]
        if kind in ("power", "root"):
            return self.unit(parts[0]) + ["^"] + self.power(parts[1], kind == "root")
        if kind == "side":
            return spaced(*[self.unit(part) for part in parts[0]])
        if kind in ("times", "over"):
            return self.unit(parts[0]) + ["*" if kind == "times" else "/"] + self.unit(parts[1])
        inner = self.unit(parts[0])
        return ["/"] + inner if kind == "inverse" else ["("] + inner + [")"]

    def notes(self, nodes: list[Node]) -> Pieces:
        """Notes in angle brackets, if there are some."""
        texts = [["_"] if node.kind == "hole" else self.unit(node.parts[0]) for node in nodes]
        return ["<"] + joined(texts, [",", " "]) + [">"] if texts else []

    def type(self, node: Node) -> Pieces:
        """A type text."""
        kind, parts = node.kind, node.parts
        if kind == "tbool":
            return ["bool"]
        if kind == "tnum":
            return ["num"] + self.notes(parts)
        if kind == "trecord":
            return [parts[0].text] + self.notes(parts[1])
        inner = self.type(parts[0])
        return inner + [" ", "list"] if kind == "tlist" else ["("] + inner + [")"]

    def binder(self, node: Node) -> Pieces:
        """A name that is bound, or `_`."""
        return [node.parts[0].text if node.parts else "_"]

    def expression(self, node: Node) -> Pieces:
        """An expression."""
        kind, parts = node.kind, node.parts
        if kind in BETWEEN:
            sign = [">", "="] if kind == ">=" else [kind]
            return spaced(self.expression(parts[0]), sign, self.expression(parts[1]))
        if kind in ("true", "false"):
            return [kind]
        return getattr(self, "layout_" + kind)(parts)

    def layout_name(self, parts: list) -> Pieces:
        """A name."""
        return [parts[0].text]

    def layout_number(self, parts: list) -> Pieces:
        """A number in lowest terms, with its unit."""
        return [number_text(parts[0].value)] + self.notes(parts[1:])

    def layout_call(self, parts: list) -> Pieces:
        """A call."""
        return spaced(parts[0].text, *[self.expression(part) for part in parts[1]])

    def layout_negate(self, parts: list) -> Pieces:
        """A negation."""
        return ["-"] + self.expression(parts[0])

    def layout_not(self, parts: list) -> Pieces:
        """A negated truth value."""
        return spaced("not", self.expression(parts[0]))

    def layout_pown(self, parts: list) -> Pieces:
        """A whole power."""
        return spaced("pown", self.expression(parts[0]), self.power(parts[1], False))

    def layout_rootn(self, parts: list) -> Pieces:
        """A whole power that is negative, in brackets; the power -0 is 0."""
        power = self.power(parts[1], True)
        power = ["("] + power + [")"] if power[0] == "-" else power
        return spaced("pown", self.expression(parts[0]), power)

    def layout_if(self, parts: list) -> Pieces:
        """A condition."""
        condition, one, other = [self.expression(part) for part in parts]
        return spaced("if", condition, "then", one, "else", other)

    def layout_let(self, parts: list) -> Pieces:
        """A local definition."""
        binder, value, body = parts
        return spaced("let", self.binder(binder), "=", self.expression(value), "in", self.expression(body))

    def layout_match(self, parts: list) -> Pieces:
        """The two arms of a list."""
        value, bar, empty, head, tail, full = parts
        start = spaced("match", self.expression(value), "with", ["|"] if bar and self.all_tokens else [], ["[", "]"])
        second = spaced("|", self.binder(head), "::", self.binder(tail), "->", self.expression(full))
        return spaced(start, "->", self.expression(empty), second)

    def layout_nil(self, parts: list) -> Pieces:
        """The empty list with its type."""
        return ["("] + spaced(["[", "]"], ":", self.type(parts[0])) + [")"]

    def layout_items(self, parts: list) -> Pieces:
        """A list with items."""
        return ["["] + joined([self.expression(part) for part in parts[0]], [";", " "]) + ["]"]

    def layout_record(self, parts: list) -> Pieces:
        """A record text."""
        fields = [spaced(part.parts[0].text, "=", self.expression(part.parts[1])) for part in parts[0]]
        return spaced("{", joined(fields, [";", " "]), "}")

    def layout_field(self, parts: list) -> Pieces:
        """A field of a record."""
        return self.expression(parts[0]) + [".", parts[1].text]

    def layout_bracket(self, parts: list) -> Pieces:
        """Brackets."""
        return ["("] + self.expression(parts[0]) + [")"]

    def parameters(self, nodes: list[Node]) -> Pieces:
        """Unit parameters in angle brackets, if there are some."""
        texts = [spaced(ATTRIBUTE, "'" + node.parts[-1].text) for node in nodes]
        return ["<"] + joined(texts, [",", " "]) + [">"] if texts else []

    def declaration(self, node: Node) -> Pieces:
        """A declaration."""
        if node.kind in ("base", "short"):
            unit = ["="] + [" "] + self.unit(node.parts[2]) if node.kind == "short" else []
            return spaced(ATTRIBUTE, "type", node.parts[1].text, unit)
        if node.kind == "struct":
            name, units, fields = node.parts
            texts = [[part.parts[0].text, ":", " "] + self.type(part.parts[1]) for part in fields]
            return spaced("type", [name.text] + self.parameters(units), "=", "{", joined(texts, [";", " "]), "}")
        name, units, params, *others = node.parts
        result = spaced(":", self.type(others[0])) if len(others) > 1 else []
        texts = [["("] + self.binder(part.parts[0]) + [":", " "] + self.type(part.parts[1]) + [")"] for part in params]
        head = spaced("let", "rec" if node.kind == "rec" else [], [name.text] + self.parameters(units))
        return spaced(head, *texts, result, "=", self.expression(others[-1]))


def layout(tree: Node) -> str:
    """The text of a program in its layout."""
    return "".join("".join(Layout().declaration(node)) + "\n" for node in tree.parts[0])
