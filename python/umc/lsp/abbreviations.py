"""What an abbreviation of a unit stands for, which the program is asked."""
from umc.lsp.names import Sort
from umc.lsp.placed import Declaration, Name
from umc.lsp.reading import Reading
from umc.program import Program

KEPT = 16


class Abbreviations:
    """The units of abbreviations, kept for the declarations that they were asked with."""

    def __init__(self, program: Program):
        self.program = program
        self._kept: dict[str, dict[str, str]] = {}
        self._last: tuple[Reading, frozenset[int], dict[str, str]] | None = None

    def of(self, reading: Reading, left_out: frozenset[int]) -> dict[str, str]:
        """For each abbreviation that is known the unit that it stands for, in base units."""
        last = self._last
        if last and last[0] is reading and last[1] == left_out:
            return last[2]
        names = [name for name in reading.measures if name.declaration.source != reading.source
                 or name.declaration.start not in left_out]
        lines = [_line(name.declaration) for name in names]
        text = "\n".join([*lines, ""])
        kept = self._kept.get(text)
        if kept is None:
            kept = self._ask(text, [name for name in names if name.sort is Sort.ABBREVIATION])
            while len(self._kept) >= KEPT:
                self._kept.pop(next(iter(self._kept)))
            self._kept[text] = kept
        self._last = (reading, left_out, kept)
        return kept

    def _ask(self, text: str, names: list[Name]) -> dict[str, str]:
        """Asks for the types of functions, each of which takes a number with one of these units."""
        functions = "".join(f"let f{at} (x: num<{name.text}>) = x\n" for at, name in enumerate(names))
        answer = self.program.ask(["types"], (text + functions).encode("utf-8", "surrogatepass"))
        if answer.status != 0:
            return {}
        types = [line.rpartition(" -> ")[2] for line in answer.output.decode().splitlines()]
        return {name.text: unit_of(kind) for name, kind in zip(names, types)}


def unit_of(kind: str) -> str:
    """The unit of the type of a number, as it is printed."""
    return kind[kind.index("<") + 1:kind.rindex(">")] if "<" in kind else "1"


def _line(declaration: Declaration) -> str:
    """A declaration in one line."""
    return " ".join(token.text for token in declaration.tokens)
