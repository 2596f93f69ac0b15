"""Words of commands about a generated program: calls with arguments of the intended types, sizes, signatures."""
from __future__ import annotations

import random

from programs import Kind, Program, put
from texts import mutated_tokens

PLAIN = ["types", "fmt", "code", "prove", "explain", "annot", "tidy"]
CALLS = ["run", "eval", "steps", "trace"]
BUDGETS = ["0", "1", "2", "3", "5", "9", "20", "200", "2000", "00000009"]


class Words:
    """Makes words for one program."""

    def __init__(self, rng: random.Random, program: Program) -> None:
        self.rng, self.program = rng, program

    def chance(self, part: float) -> bool:
        """True in this part of the cases."""
        return self.rng.random() < part

    def unit(self, unit: dict) -> str:
        """A unit in angle brackets, or nothing."""
        parts = " ".join(name + (f"^{power}" if power != 1 else "") for name, power in unit.items())
        if self.chance(0.03):
            parts = self.rng.choice(["q", "'u", "_", "m^2147483647 m", "m s", "(m)", "N", "1"])
        return f"<{parts}>" if parts else ""

    def value(self, kind: Kind) -> str:
        """A value of a type."""
        if kind == "bool":
            return self.rng.choice(["true", "false"])
        if kind[0] == "num":
            number = self.rng.choice(["0", "1", "2", "3", "2.5", "1r3", "12", "4000000000", "9223372036854775807"])
            if self.chance(0.05):
                return self.rng.choice(["0<_>", "-0<_>", "5<_>"])
            return ("-" if self.chance(0.2) else "") + number + self.unit(kind[1])
        if kind[0] == "list":
            return "[" + "; ".join(self.value(kind[1]) for _ in range(self.rng.choice([0, 1, 2, 3]))) + "]"
        variables, fields = self.program.records[kind[1]]
        units = dict(zip(variables, kind[2]))
        return "{ " + "; ".join(f"{name} = {self.value(put(part, units))}" for name, part in fields) + " }"

    def arguments(self) -> list[str]:
        """The name of a function and arguments for it, with a fault now and then."""
        if not self.program.functions or self.chance(0.02):
            return [self.rng.choice(["nope", "", "f0", "let"])]
        function = self.rng.choice(self.program.functions)
        some = lambda: {name: self.rng.choice([-1, 1, 2]) for name in self.program.bases if self.chance(0.5)}
        units = {"'u": some(), "'v": some()}
        texts = [self.value(put(param, units)) for param in function.params]
        if self.chance(0.05):
            texts = (texts + ["1"]) if self.chance(0.5) else texts[:-1]
        if texts and self.chance(0.1):
            at = self.rng.randrange(len(texts))
            texts[at] = mutated_tokens(self.rng, texts[at]).replace("\0", "")
        return [function.name] + texts

    def sizes(self) -> str:
        """Sizes of base units."""
        numbers = ["2", "100", "0.01", "1r3", "1250r381", "1000000000000", "1", "9223372036854775807", "0", "x"]
        names = [name for name in self.program.bases if self.chance(0.7)] or self.program.bases[:1]
        if self.chance(0.05):
            names.append(self.rng.choice(["q", "N", "m", "num", "_"]))
        return ",".join(f"{name}={self.rng.choice(numbers if self.chance(0.2) else numbers[:5])}" for name in names)

    def signature(self) -> list[str]:
        """The name of a function and a signature near its intended one."""
        if not self.program.functions:
            return ["nope", "num"]
        function = self.rng.choice(self.program.functions)
        text = " -> ".join(self.type(kind) for kind in function.params + [function.result])
        if self.chance(0.3):
            text = mutated_tokens(self.rng, text).replace("\0", "")
        return [function.name, text]

    def type(self, kind: Kind) -> str:
        """The text of a type."""
        if kind == "bool":
            return "bool"
        if kind[0] == "num":
            return "num" + (self.unit(kind[1]) if self.chance(0.9) else self.rng.choice(["<'w>", "<m>", "<_>", ""]))
        if kind[0] == "list":
            return self.type(kind[1]) + " list"
        units = [self.unit(unit).strip("<>") or "1" for unit in kind[2]]
        return kind[1] + (f"<{', '.join(units)}>" if units else "")

    def chosen(self) -> str:
        """Units in which numbers are shown."""
        name = self.rng.choice(self.program.bases)
        good = [name, "1", f"{name}^2", f"{name} {self.program.bases[-1]}", f"ft=0.3048<{name}>", "dozen=12<1>"]
        odd = ["N", "J", f"x=1r3<{name}/{self.program.bases[0]}>", f"big=9223372036854775807<{name}>", "_", "q",
               f"a=0<{name}>", " m", f"{name}^2147483647 {name}"]
        parts = [self.rng.choice(odd if self.chance(0.2) else good) for _ in range(self.rng.choice([1, 1, 2, 3]))]
        return "-" if self.chance(0.2) else ",".join(parts)

    def call(self) -> list[str]:
        """A call by one of the commands that call functions."""
        command, budget = self.rng.choice(CALLS + ["twin", "show"]), self.rng.choice(BUDGETS)
        if command == "twin":
            return ["twin", budget, self.sizes()] + self.arguments()
        if command == "show":
            return ["show", self.rng.choice(["0", "1", "2", "4", "18", "19"]), self.chosen(), budget] + self.arguments()
        return [command, budget] + self.arguments()

    def some(self, new: bool) -> list[str]:
        """Words of any command that takes a text. Not `new` leaves out the commands for people."""
        choice = self.rng.random()
        words = [self.rng.choice(PLAIN)] if choice < 0.35 else self.call() if choice < 0.8 else (
            ["conform"] + self.signature()) if choice < 0.9 else ["rescale", self.sizes()]
        if self.chance(0.01):
            big = ["big", self.rng.choice(["1", "2", "5", "9", "0012", "0", "2001", "x"])]
            words = self.rng.choice([words + ["x"], words[:-1], ["run", "10000001", "f0"], ["run", "x", "f0"], [], big])
        if not new and words and words[0] in ("explain", "annot", "tidy", "trace", "show"):
            return ["types"]
        return [word for word in words if "\0" not in word]
