"""An Earley recogniser: the texts that tokens begin, their tree, and the least height of what they begin.

J. Earley, An efficient context-free parsing algorithm, 1970. Set k holds each rule that can stand there after k tokens,
with how much of it was read and where that began. So the tokens begin a text if their set isn't empty.
"""
from __future__ import annotations

import heapq
from collections import defaultdict
from collections.abc import Callable
from typing import Any

from grammar import HIGHEST, TOO_HIGH, Rule
from lexer import HIGHEST_POWER, Token


class SyntaxFault(Exception):
    """The token of this number is the first through which no text begins; or none that is low enough."""

    def __init__(self, kind: str, number: int, chart: Chart | None = None) -> None:
        super().__init__(kind, number)
        self.kind, self.number, self.chart = kind, number, chart


class Item:
    """A rule of which the first `dot` symbols were read, from token `origin` on; the last of them made `part`."""

    __slots__ = ("rule", "dot", "origin", "before", "part", "height", "at")

    def __init__(self, rule: Rule, dot: int, origin: int, before: Item | None, part: Token | Item | None, height: int,
                 at: int) -> None:
        self.rule, self.dot, self.origin = rule, dot, origin
        self.before, self.part, self.height, self.at = before, part, height, at

    def next(self) -> str | None:
        """The symbol after the dot; None after the last."""
        return self.rule.following[self.dot]

    def parts(self) -> list:
        """What was read as the symbols, without words and signs: tokens, and the items that are complete there."""
        found, item = [], self
        while item.before is not None:
            if not item.before.next().startswith('"'):
                found.append(item.part)
            item = item.before
        return found[::-1]

    def tree(self) -> Any:
        """What the rule makes of its parts. The chain of a long list is followed in a loop."""
        item, after = self, []
        while item.rule.action == "more":
            first, *others = item.parts()
            after += [made(part) for part in reversed(others)]
            item = first
        whole = item.rule.made([made(part) for part in item.parts()], item.at)
        return whole + after[::-1] if after else whole


def made(part: Token | Item) -> Any:
    """The token itself, or what the item makes."""
    return part.tree() if isinstance(part, Item) else part


def terminals(token: Token) -> set[str]:
    """The symbols of the grammar that the token is."""
    if token.kind == "name":
        return {"Name", "Name:" + token.text}
    if token.kind == "var":
        return {"Var"}
    if token.kind == "number":
        power = token.whole and token.value <= HIGHEST_POWER
        return {"Number"} | ({"Whole"} if power else set()) | ({"One"} if token.text == "1" else set())
    if token.text == "<" and token.glued and token.after_number:
        return {'"<#"'}
    return {f'"{token.text}"'} | ({'"=#"'} if token.text == "=" and token.glued else set())


class Grammar:
    """Rules by what they derive, and the least height of each symbol."""

    def __init__(self, rules: list[Rule]) -> None:
        self.rules: dict[str, list[Rule]] = defaultdict(list)
        for rule in rules:
            self.rules[rule.left].append(rule)
        self.least = {left: TOO_HIGH for left in self.rules}
        changed = True
        while changed:
            changed = False
            for rule in rules:
                height = rule.height(max((self.least.get(name, 0) for name in rule.symbols), default=0))
                if height < self.least[rule.left]:
                    self.least[rule.left], changed = height, True


class Chart:
    """The sets of a text's tokens, from a start symbol."""

    def __init__(self, grammar: Grammar, start: str) -> None:
        self.grammar, self.start = grammar, start
        self.waiting: list[dict[str, list[Item]]] = []
        self.ends: list[list[Item]] = []
        self.whole: Item | None = None
        self.fill([Item(rule, 0, 0, None, None, 0, -1) for rule in grammar.rules[start]], None)

    def fill(self, items: list[Item], token: Token | None) -> None:
        """Adds the set that grows from these items: what they ask for, and what is complete."""
        here = len(self.waiting)
        waiting: dict[str, list[Item]] = {}
        seen = {(item.rule, item.dot, item.origin) for item in items}
        empty: dict[str, Item] = {}
        self.waiting.append(waiting)
        self.ends.append(items)
        self.whole = None

        def add(item: Item) -> None:
            """Adds an item once."""
            key = (item.rule, item.dot, item.origin)
            if key not in seen:
                seen.add(key)
                items.append(item)

        for item in items:
            symbol = item.rule.following[item.dot]
            if symbol is None:
                self.complete(item, here, empty, add)
            elif symbol not in waiting:
                waiting[symbol] = [item]
                items += [Item(rule, 0, here, None, None, 0, -1) for rule in self.grammar.rules.get(symbol, ())]
            else:
                waiting[symbol].append(item)
                if symbol in empty:
                    add(self.after(item, empty[symbol]))

    def complete(self, item: Item, here: int, empty: dict[str, Item], add: Callable[[Item], None]) -> None:
        """Puts a rule that is read wholly into those that wait for it."""
        if item.origin == here:
            empty[item.rule.left] = item
        if item.origin == 0 and item.rule.left == self.start:
            self.whole = item
        for waiter in list(self.waiting[item.origin].get(item.rule.left, ())):
            add(self.after(waiter, item))

    def after(self, waiter: Item, done: Item) -> Item:
        """The waiting item after what is complete."""
        at = done.at if waiter.dot == waiter.rule.marked or waiter.at < 0 else waiter.at
        height = max(waiter.height, done.rule.height(done.height))
        return Item(waiter.rule, waiter.dot + 1, waiter.origin, waiter, done, height, at)

    def feed(self, token: Token) -> bool:
        """Reads a token; false if no text begins with it after the others."""
        items = []
        for symbol in terminals(token):
            for waiter in self.waiting[-1].get(symbol, ()):
                at = token.start if waiter.dot == waiter.rule.marked or waiter.at < 0 else waiter.at
                items.append(Item(waiter.rule, waiter.dot + 1, waiter.origin, waiter, token, waiter.height, at))
        if items:
            self.fill(items, token)
        return bool(items)

    def expected(self) -> set[str]:
        """The symbols of tokens with which a text goes on."""
        return {symbol for symbol in self.waiting[-1] if symbol not in self.grammar.rules}

    def is_low(self, count: int) -> bool:
        """A text that isn't too high begins with the first `count` tokens. The lowest are followed first."""
        least: dict[tuple[str, int], int] = {}
        work: list[tuple] = []

        def take(item: Item, height: int, dot: int) -> None:
            """Keeps the least height of what an item is of."""
            rest = max((self.grammar.least.get(name, 0) for name in item.rule.symbols[dot:]), default=0)
            whole = item.rule.height(max(height, rest))
            if whole <= HIGHEST and whole < least.get((item.rule.left, item.origin), TOO_HIGH):
                least[item.rule.left, item.origin] = whole
                heapq.heappush(work, (whole, item.rule.left, item.origin))

        for item in self.ends[count]:
            take(item, item.height, item.dot)
        while work:
            whole, left, origin = heapq.heappop(work)
            for waiter in self.waiting[origin].get(left, ()):
                take(waiter, max(waiter.height, whole), waiter.dot + 1)
        return (self.start, 0) in least


def first_high(chart: Chart, count: int) -> int | None:
    """The first token of these through which no text begins that is low enough: heights never fall."""
    if count < HIGHEST // 2 or chart.is_low(count):
        return None
    low, high = 0, count
    while high - low > 1:
        middle = (low + high) // 2
        low, high = (middle, high) if chart.is_low(middle) else (low, middle)
    return high - 1


def read(grammar: Grammar, start: str, tokens: list[Token]) -> Any:
    """The tree of the tokens, or SyntaxFault at the first token that can't stand there or makes the text too high."""
    chart, count = Chart(grammar, start), 0
    while count < len(tokens) and chart.feed(tokens[count]):
        count += 1
        if count % 2000 == 0 and not chart.is_low(count):
            break
    high = first_high(chart, count)
    if high is not None:
        raise SyntaxFault("height", high)
    if count < len(tokens) or chart.whole is None:
        raise SyntaxFault("syntax", count, chart)
    return chart.whole.tree()
