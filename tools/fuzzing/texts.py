"""Texts that are made from others: with faults, mutated, cut, at the limits; and sentences of the grammar."""
from __future__ import annotations

import random
import re
from collections.abc import Callable
from typing import Any

WORDS = "let rec in if then else match with type true false not num bool list Measure pown".split()
SIGNS = "( ) [ ] { } [< < > = <= <> + - * / ^ ; : :: , . | || && ->".split()
UNITS = ["<m>", "<s>", "<kg>", "<m^2>", "", "</s>", "<m/s>", "<_>", "<'u>", "<A m^3>", "<m^1073741824>", "<1>"]
UNIT = r"(?<!\[)<[^<>=]*>"
TOKEN = re.compile(r"//[^\n]*|[\w']+(?:\.\d+)?|\[<|<=|<>|::|\|\||&&|->|[^\w\s]|\s+")
ODD = ["é", "_", "'u", "0<_>", "1x", "@", "\t", "\r\n", "//c", "9223372036854775808", "^-0", "^ 2147483648", "1.",
       "'let", "(-2)", "[]", "1r0", "\ufeff", "00007", "rec", "ªª", "x.y", "<_>", "-", ";", "ⅷ"]


def tokens_of(text: str) -> list[str]:
    """Rough tokens and white space, one after another."""
    return TOKEN.findall(text)


def mutated_tokens(rng: random.Random, text: str) -> str:
    """One to three tokens left out, doubled, exchanged, replaced or put in."""
    parts = tokens_of(text)
    for _ in range(rng.choice([1, 1, 2, 3])):
        if not parts:
            break
        at, other = rng.randrange(len(parts)), rng.randrange(len(parts))
        choice = rng.randrange(5)
        if choice == 0:
            del parts[at]
        elif choice == 1:
            parts.insert(at, parts[other])
        elif choice == 2:
            parts[at], parts[other] = parts[other], parts[at]
        elif choice == 3:
            parts[at] = rng.choice(parts)
        else:
            parts.insert(at, " " + rng.choice(WORDS + SIGNS + ODD) + rng.choice(["", " "]))
    return "".join(parts)


def mutated_lines(rng: random.Random, text: str) -> str:
    """Lines left out, doubled or exchanged."""
    lines = text.split("\n")
    at, other = rng.randrange(len(lines)), rng.randrange(len(lines))
    choice = rng.randrange(3)
    if choice == 0:
        del lines[at]
    elif choice == 1:
        lines.insert(at, lines[other])
    else:
        lines[at], lines[other] = lines[other], lines[at]
    return rng.choice(["\n", "\n", "\n", "\r\n"]).join(lines)


def mutated_bytes(rng: random.Random, data: bytes) -> bytes:
    """One to three bytes changed, left out or put in, or the end cut off."""
    changed = bytearray(data)
    for _ in range(rng.choice([1, 1, 2, 3])):
        at, choice = rng.randrange(len(changed) + 1), rng.randrange(4)
        if choice == 0:
            del changed[at:at + 1]
        elif choice == 1:
            changed[at:at] = bytes([rng.randrange(256)])
        elif choice == 2:
            changed[at:at + 1] = bytes([rng.choice([0, 9, 13, 32, 39, 47, 60, 61, 62, 94, 95, 128, 192, 239, 255, 65])])
        elif rng.random() < 0.2:
            del changed[at:]
    return bytes(changed)


def spaced(rng: random.Random, text: str) -> str:
    """The same tokens with other white space and comments."""
    gaps = [" ", " ", "  ", "\n", "\t", "\r\n", " // c\n", "\n\n\n", "\n  ", "\n    ", "\n\t"]
    parts = [rng.choice(gaps) if part.isspace() and rng.random() < 0.4 else part for part in tokens_of(text)]
    return rng.choice(["", "", "\ufeff", "\n", "// a\n"]) + "".join(parts) + rng.choice(["", "", "\n\n", "//", " \t"])


def with_faults(rng: random.Random, text: str) -> str:
    """One to three faults that stay near the grammar, often on one line."""
    lines = text.split("\n")
    at = rng.randrange(len(lines))
    for _ in range(rng.choice([1, 1, 2, 2, 3])):
        lines[at] = faulty(rng, lines[at])
        if rng.random() < 0.3:
            at = rng.randrange(len(lines))
    return "\n".join(lines)


def replaced_once(rng: random.Random, line: str, pattern: str, change: Callable[[str], str]) -> str:
    """One of the places where the pattern stands, changed."""
    found = list(re.finditer(pattern, line))
    if not found:
        return line
    match = rng.choice(found)
    return line[:match.start()] + change(match.group()) + line[match.end():]


def misspelled(rng: random.Random, name: str) -> str:
    """A name with a character changed, left out, put in or exchanged."""
    at = rng.randrange(len(name))
    return rng.choice([name[:at] + name[at + 1:], name[:at] + "q" + name[at:], name[:at] + name[at:][::-1], name + "s"])


def other_unit(rng: random.Random, text: str) -> str:
    """One to three units or signs changed, so that most often units disagree and nothing else is wrong."""
    lines = text.split("\n")
    functions = [at for at, line in enumerate(lines) if line.startswith("let")]
    names = set(re.findall(r"^\[<Measure>\] type (\w+)", text, re.M))
    known = [unit for unit in UNITS if set(re.findall(r"(?<!')[a-zA-Z]+", unit)) <= names]
    for _ in range(rng.choice([1, 1, 2, 3])):
        at = rng.choice(functions)
        unit = rng.choice(known)
        sign = rng.choice([" * ", " / ", " + ", " < ", " - "])
        pattern, new = rng.choice([(UNIT, unit), (UNIT, unit), (r" [-+*/<] ", sign)])
        lines[at] = replaced_once(rng, lines[at], pattern, lambda old: new)
    return "\n".join(lines)


def faulty(rng: random.Random, line: str) -> str:
    """One fault: a name, a unit, a number, a sign, a part more or less."""
    unit = lambda old: rng.choice(["<m>", "<s>", "<_>", "<'u>", "<m^2147483647>", "<q>", "", "<m^2>", "<1>", "</s>"])
    sign = lambda old: rng.choice([" + ", " - ", " * ", " / ", " < ", " && ", " :: ", " = ", " || "])
    number = lambda old: rng.choice(["0", "1", "true", "x", "[]", "pown 2 3", "1.5", "(1)", "([] : num list)", "2<_>"])
    choices = [(r"\b[a-z]\w*", lambda name: misspelled(rng, name) or "q"), (UNIT, unit), (r" [-+*/<] ", sign),
               (r"\b\d+(\.\d+)?\b", number), (r" \S+ ", lambda old: " "), (r" \S+ ", lambda old: old + old[1:]),
               (r"\blet (rec )?", lambda old: rng.choice(["let ", "let rec "])), (r" : [^=]*=", lambda old: " ="),
               (r"bool|num", lambda old: rng.choice(["bool", "num", "num list", "V"]))]
    return replaced_once(rng, line, *rng.choice(choices))


class Sentences:
    """Sentences of the reference's table of rules, by chance, with small names."""

    def __init__(self, rng: random.Random, rules: dict) -> None:
        self.rng, self.rules, self.left = rng, rules, 0
        self.shortest = {symbol: 10**6 for symbol in rules}
        changed = True
        while changed:
            changed = False
            for symbol, choices in rules.items():
                length = min(map(self.length, choices))
                changed |= length < self.shortest[symbol]
                self.shortest[symbol] = length

    def length(self, rule: Any) -> int:
        """The least number of tokens that a rule gives."""
        return sum(self.shortest.get(symbol, 1) for symbol in rule.symbols)

    def terminal(self, symbol: str) -> str:
        """A token for a symbol."""
        pools = {"Name": ["x", "f", "m", "R", "a", "q1"], "Var": ["'u", "'v"], "Number": ["0", "1", "2.5", "7r2", "12"],
                 "Whole": ["0", "1", "2", "3", "2147483647"], "One": ["1"]}
        return self.rng.choice(pools[symbol]) if symbol in pools else symbol.strip('"').removesuffix("#")

    def derive(self, symbol: str) -> list[str]:
        """The tokens of a symbol. Once enough tokens were made, the shortest rules are taken."""
        if symbol not in self.rules:
            self.left -= 1
            return [("\0" if symbol.endswith('#"') else "") + self.terminal(symbol)]
        choices = self.rules[symbol]
        rule = self.rng.choice(choices) if self.left > 0 else min(choices, key=self.length)
        return [token for part in rule.symbols for token in self.derive(part)]

    def text(self) -> str:
        """A text of one to four declarations."""
        tokens = []
        for _ in range(self.rng.choice([1, 1, 2, 4])):
            self.left = self.rng.randint(5, 60)
            tokens += self.derive("decl")
        return " ".join(tokens).replace(" \0", "") + "\n"


def product(rng: random.Random, names: str, top: int) -> str:
    """A product of whole powers of some names, and a unit."""
    units = ["", "", "<m>", "<s/m^2>", f"<m^{rng.choice([2, 3, 6, 2147483647])}>", "<s^4>"]
    powers = [(name, rng.randint(-top, top)) for name in names if rng.random() < 0.6]
    return " * ".join([f"pown {name} {power if power >= 0 else f'({power})'}" for name, power in powers]
                      + ["1" + rng.choice(units)])


def equations(rng: random.Random) -> str:
    """A function whose body is a list of comparisons of products, so that its equations are any that one likes."""
    names = "abcdef"[:rng.choice([1, 2, 3, 4, 6])]
    top, declared = rng.choice([1, 3, 6, 30, 1000, 70000]), min(rng.choice([0, 0, 1, 2]), len(names))
    count = rng.choice([1, 2, 3, 4, 6])
    rows = [f"{product(rng, names, top)} < {product(rng, names, top)}" for _ in range(count)]
    units = [f"'p{number}" if number < declared else "_" for number in range(len(names))]
    heads = [f"({name}: num<{unit}>)" for name, unit in zip(names, units)]
    params = ", ".join(f"[<Measure>] 'p{number}" for number in range(declared))
    head = " ".join([f"let f{f'<{params}>' if params else ''}"] + heads)
    return f"[<Measure>] type m\n[<Measure>] type s\n{head} = [{'; '.join(rows)}]\n"


def at_limit(rng: random.Random) -> str:
    """A text at a limit or one step past it."""
    more = rng.choice([0, 1])
    listed = lambda count, item, between="; ": between.join(item.replace("#", str(number)) for number in range(count))
    forms = [
        lambda: "let k = " + "(" * (399 + more) + "1" + ")" * (399 + more),
        lambda: "let k = " + "[" * (399 + more) + "1" + "]" * (399 + more),
        lambda: "let k = " + "-" * (399 + more) + "1",
        lambda: "let k = " + " + ".join(["1"] * (400 + more)),
        lambda: "let k = " + " :: ".join(["1"] * (399 + more)) + " :: ([] : num list)",
        lambda: "let k (x: num" + " list" * (399 + more) + ") = 1",
        lambda: "[<Measure>] type m\n[<Measure>] type A = " + "(" * (399 + more) + "m" + ")" * (399 + more),
        lambda: "let k = 1<" + "1*" * (399 + more) + "1>",
        lambda: "let k " + listed(16 + more, "(x#: num)", " ") + " = 1",
        lambda: "type R = { " + listed(32 + more, "a#: num") + " }",
        lambda: "type R<" + listed(4 + more, "[<Measure>] 'u#", ", ") + "> = { a: num }",
        lambda: "let f<" + listed(4 + more, "[<Measure>] 'u#", ", ") + "> (x: num) = x",
        lambda: "let k = [" + listed(2000 + more, "0<_>") + "]",
        lambda: listed(2000 + more, "let f# = #", "\n"),
        lambda: "let k = [" + listed(19999 + more, "1") + "]",
        lambda: "type R0 = { a0: num }\n" + "\n".join(
            f"type R{k} = {{ a{k}: R{k - 1} list }}" for k in range(1, 199 + 2 * more)) + "\nlet k (x: R198 list) = x",
        lambda: f"[<Measure>] type m\nlet f (x: num<m^{2147483646 + more}>) = x * 1<m>",
        lambda: f"[<Measure>] type m\nlet f (x: num<m^{1073741823 + more}>) = pown x 2",
        lambda: f"let k = {9223372036854775807 + more}",
        lambda: "let k = 1" + "0" * (18 + more) + ".0" + "0" * (17 + rng.choice([0, 1])),
        lambda: "let k = 0<_>\nlet g (x: num<_>) (y: num<_>) = pown x 46341 < pown y " + str(46340 + more),
    ]
    return rng.choice(forms)() + rng.choice(["", "\n"])
