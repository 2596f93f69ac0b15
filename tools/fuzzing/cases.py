"""A case: words and the bytes that are read. Each is made from a seed and a number alone."""
from __future__ import annotations

import random
from collections.abc import Callable, Sequence
from dataclasses import dataclass

import programs
import texts
from words import BUDGETS, Words


@dataclass
class Case:
    """Words and bytes, and what kind of case it is."""

    kind: str
    words: list[str]
    data: bytes


class Cases:
    """Makes cases. `image_of` gives the image of a text, or nothing; `rules` are those of the reference's grammar."""

    def __init__(self, seed: str, rules: dict, image_of: Callable[[bytes], bytes | None], new: bool,
                 kinds: Sequence[str] = ()) -> None:
        self.seed, self.rules, self.image_of, self.new = seed, rules, image_of, new
        often = {self.typed: 6, self.faulty: 4, self.units: 4, self.equations: 2, self.sentence: 2, self.tokens: 3,
                 self.lines: 1, self.bytes: 2, self.image: 3, self.batch: 2, self.limit: 1}
        self.makers = [maker for maker, times in often.items() for _ in range(times)
                       if not kinds or maker.__name__ in kinds]

    def case(self, number: int) -> Case:
        """The case of a number."""
        rng = random.Random(f"{self.seed}:{number}")
        maker = rng.choice(self.makers)
        return maker(rng)

    def typed(self, rng: random.Random) -> Case:
        """A program that is well typed around an intended typing, in some spelling."""
        program = programs.program(rng)
        text = texts.spaced(rng, program.text) if rng.random() < 0.3 else program.text
        return Case("typed", Words(rng, program).some(self.new), text.encode())

    def changed(self, rng: random.Random, kind: str, change: Callable[[str], str]) -> Case:
        """A generated program, changed."""
        program = programs.program(rng)
        return Case(kind, Words(rng, program).some(self.new), change(program.text).encode())

    def faulty(self, rng: random.Random) -> Case:
        """Faults close to each other."""
        return self.changed(rng, "faults", lambda text: texts.with_faults(rng, text))

    def units(self, rng: random.Random) -> Case:
        """Units and signs changed."""
        return self.changed(rng, "units", lambda text: texts.other_unit(rng, text))

    def tokens(self, rng: random.Random) -> Case:
        """Tokens changed."""
        return self.changed(rng, "tokens", lambda text: texts.mutated_tokens(rng, text))

    def lines(self, rng: random.Random) -> Case:
        """Lines changed."""
        return self.changed(rng, "lines", lambda text: texts.mutated_lines(rng, text))

    def bytes(self, rng: random.Random) -> Case:
        """Bytes changed."""
        program = programs.program(rng)
        return Case("bytes", Words(rng, program).some(self.new), texts.mutated_bytes(rng, program.text.encode()))

    def sentence(self, rng: random.Random) -> Case:
        """A sentence of the grammar, whole or with a token changed."""
        text = texts.Sentences(rng, self.rules).text()
        text = texts.mutated_tokens(rng, text) if rng.random() < 0.5 else text
        plain = ["types", "fmt"] + (["explain", "tidy"] if self.new else [])
        return Case("sentence", [rng.choice(plain)], text.encode())

    def limit(self, rng: random.Random) -> Case:
        """A text at a limit."""
        words = [rng.choice(["types", "fmt", "explain" if self.new else "types"])]
        return Case("limit", words, texts.at_limit(rng).encode())

    def equations(self, rng: random.Random) -> Case:
        """Equations of units with any powers."""
        words = rng.choice(["types", "prove"] + (["explain", "annot"] if self.new else []))
        return Case("equations", [words], texts.equations(rng).encode())

    def image(self, rng: random.Random) -> Case:
        """An image, whole or with bytes changed."""
        program = programs.program(rng)
        data = self.image_of(program.text.encode())
        if data is None or rng.random() < 0.2:
            return Case("image", ["image"], program.text.encode())
        data = texts.mutated_bytes(rng, data) if rng.random() < 0.6 else data
        return Case("image", ["exec", rng.choice(BUDGETS)] + Words(rng, program).arguments(), data)

    def batch(self, rng: random.Random) -> Case:
        """Many calls of one program."""
        program = programs.program(rng)
        words = Words(rng, program)
        if not self.new:
            return Case("batch", words.some(False), program.text.encode())
        lines = ["\t".join(words.arguments()) + rng.choice(["\n", "\n", "\r\n"]) for _ in range(rng.choice([0, 1, 3]))]
        lines += rng.choice([[], ["\n"], ["\t\n"], ["f0"]])
        cut = rng.choice(["---\n", "---\n", "---\r\n", "----\n", ""])
        return Case("batch", ["calls", rng.choice(BUDGETS)], (program.text + cut + "".join(lines)).encode())
