"""A reading of a text by its tokens: its declarations, and the name that each token stands for.

It is no grammar. It reads any text, also one that the program refuses, and looks at brackets and at the words
`let in if then else match with` alone. The program decides whether a text is right: see `rename`.
"""
from bisect import bisect_left, bisect_right
from collections.abc import Sequence
from functools import cached_property
from itertools import accumulate

from umc.lsp.cut import beginnings
from umc.lsp.kept import Kept
from umc.lsp.names import SPACES, Bound, Space
from umc.lsp.placed import Declaration, Name
from umc.lsp.tokens import MARK, Kind, Token, comment, moved, split_after, start_of


class Reading:
    """A version of a text as its tokens tell it. `before` are the readings of the files that stand before it.

    It finds where the declarations begin and what each declares for the whole text. What stands inside of one is read
    when something there is asked.
    """

    def __init__(self, text: str, before: Sequence["Reading"] = (), source: str = "", kept: Kept | None = None):
        self.source = source
        kept = kept or Kept()
        begun = int(text.startswith(MARK))
        self._lines = text.removeprefix(MARK).split("\n")
        self._row_starts = [*accumulate((len(line) + 1 for line in self._lines[:-1]), initial=begun)]
        starts = [self._row_starts[row] + start_of(self._lines[row], at)
                  for row, at in beginnings(kept.rows(self._lines))]
        # The comments before the first declaration are a section as well.
        self._bases = [begun, *starts]
        sections = kept.sections([text[start:end] for start, end in zip(self._bases, [*starts, len(text)])])
        self.head = Declaration(sections[0], begun, -1, self)
        self.declarations = [Declaration(section, start, at, self)
                             for at, (section, start) in enumerate(zip(sections[1:], starts))]
        self._declaring: dict[Space, dict[str, Declaration]] = {space: {} for space in SPACES}
        for earlier in before:
            self._know(earlier.declarations)
        self._know(self.declarations)
        self._found: dict[tuple[Space, str], Name] = {}

    def _know(self, declarations: list[Declaration]) -> None:
        """Knows what is declared here. The first declaration of a name stays."""
        for made in declarations:
            for space, text in made.section.declares:
                self._declaring[space].setdefault(text, made)

    def known(self, space: Space, text: str) -> Name | None:
        """The first name with these letters that is declared for the whole text."""
        name = self._found.get((space, text))
        if name is None and (made := self._declaring[space].get(text)):
            bound = next(bound for its_space, bound in made.piece.declared if its_space == space and bound.text == text)
            name = self._found.setdefault((space, text), Name(bound, made, self))
        return name

    def all_known(self, space: Space) -> list[Name]:
        """The names that are declared for the whole text, those of files before it among them, in order."""
        return [name for text in self._declaring[space] if (name := self.known(space, text))]

    @property
    def measures(self) -> list[Name]:
        """The base measures and abbreviations in order."""
        return [name for name in self.all_known("type") if name.sort.is_measure]

    # ---- tokens

    def _rows_in(self, start: int, end: int) -> range:
        """The lines between two offsets, also in part."""
        return range(self._row_at(start), bisect_left(self._row_starts, end))

    def _row_at(self, offset: int) -> int:
        return max(bisect_right(self._row_starts, offset) - 1, 0)

    def every(self, start: int, end: int) -> list[Token]:
        """The tokens that stand between two offsets, also in part, comments among them."""
        found: list[Token] = []
        for row in self._rows_in(start, end):
            found += moved(split_after(self._lines[row], 0), self._row_starts[row])
        return [token for token in found if token.start < end and start < token.end]

    def tokens(self, start: int, end: int) -> list[Token]:
        """The tokens that stand between two offsets, also in part."""
        return [token for token in self.every(start, end) if token.kind is not Kind.COMMENT]

    @property
    def comments(self) -> list[Token]:
        """The comments of the text in order."""
        found = ((comment(line), start) for line, start in zip(self._lines, self._row_starts))
        return [token.moved(start) for token, start in found if token]

    def is_in_comment(self, offset: int) -> bool:
        """Whether a comment begins before an offset and goes on to it or further."""
        row = self._row_at(offset)
        token = comment(self._lines[row])
        return token is not None and token.start < offset - self._row_starts[row] <= token.end

    def token_at(self, offset: int) -> Token | None:
        """The token that holds the character at an offset; otherwise the name, number or word that ends there."""
        found = self.tokens(offset - 1, offset + 1)
        if found and found[-1].start <= offset < found[-1].end:
            before = found[-2] if len(found) > 1 else None
            if found[-1].kind is Kind.SIGN and before and before.kind in (Kind.NAME, Kind.VARIABLE):
                return before
            return found[-1]
        return found[-1] if found and found[-1].kind is not Kind.SIGN else None

    def declaration_at(self, offset: int) -> Declaration:
        """The declaration that holds an offset; before the first one it is the first."""
        return self.declarations[max(bisect_right(self._bases, offset, 1) - 2, 0)]

    def declarations_in(self, start: int, end: int) -> list[Declaration]:
        """The declarations that stand between two offsets, also in part, with what follows them."""
        first = bisect_right(self._bases, start, 1) - 2
        return [made for made in self.declarations[max(first, 0):] if made.start < end]

    # ---- names

    def name_of(self, token: Token) -> Name | None:
        """The name that a token declares or uses."""
        if not self.declarations:
            return None
        made = self.declaration_at(token.start)
        found = made.piece.of_token.get(token.start - made.start)
        if isinstance(found, Bound):
            return next(name for name in made.names if name.bound is found)
        return self.resolved(made, found, token.text) if found else None

    def resolved(self, made: Declaration, space: Space, text: str) -> Name | None:
        """The name of the whole text that a declaration means; None if none is declared before it."""
        name = self.known(space, text)
        if name is None or not name.is_of_text or name.declaration.number < made.number:
            return name
        return name if name.declaration is made and made.piece.is_recursive else None

    def uses(self, name: Name) -> list[Token]:
        """The places at which a name is used."""
        space = name.sort.space
        if space is None:
            return moved(name.bound.uses, name.declaration.start)
        first = self.known(space, name.text)
        if first is None or first.bound is not name.bound or first.declaration is not name.declaration:
            return []
        found: list[Token] = []
        for made in self.declarations[name.declaration.number if name.is_of_text else 0:]:
            used = made.piece.used.get((space, name.text)) if name.text in made.section.text else None
            if used and self.resolved(made, space, name.text):
                found += moved(used, made.start)
        return found

    @cached_property
    def names(self) -> list[Name]:
        """All names that the text declares."""
        return [name for made in self.declarations for name in made.names]

    @property
    def unknown(self) -> list[Token]:
        """The places of names that are declared nowhere before."""
        found: list[Token] = []
        for made in self.declarations:
            found += moved(made.piece.unknown, made.start)
            for (space, text), used in made.piece.used.items():
                found += [] if self.resolved(made, space, text) else moved(used, made.start)
        return sorted(found, key=lambda token: token.start)
