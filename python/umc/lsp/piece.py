"""A piece of a text: one declaration, read by itself. The same piece is the same in each text, wherever it stands.

All its places are counted from its first token. Of a name that the whole text knows it tells that it is used, and not
what it stands for: see `reading`.
"""
from typing import Any

from umc.lsp.body import Body
from umc.lsp.cursor import Cursor, annotation
from umc.lsp.names import Annotation, Bound, Hole, Parameter, Sort, Space
from umc.lsp.tokens import Kind, Token


class Piece:
    """A declaration with the comments in it and after it, up to the next declaration."""

    def __init__(self, text: str, every: list[Token]):
        self.text, self.every = text, every
        self.tokens = [token for token in every if token.kind is not Kind.COMMENT]
        self.end = self.tokens[-1].end if self.tokens else 0
        self.sort: Sort | None = None
        self.name: Token | None = None
        self.is_recursive = False
        self.parameters: list[Parameter] = []
        self.result: Annotation | None = None
        self.equals: Token | None = None
        self.names: list[Bound] = []
        self.declared: list[tuple[Space, Bound]] = []
        self.used: dict[tuple[Space, str], list[Token]] = {}
        self.of_token: dict[int, Bound | Space] = {}
        self.unknown: list[Token] = []
        self.holes: list[Hole] = []
        self.open_lets: list[Token] = []
        self.units: set[int] = set()
        # What `colours` found, for the meanings that the names in it had.
        self.coloured: tuple[Any, Any] | None = None
        self._read(Cursor(self.tokens))

    # ---- names

    def bind(self, name: Bound) -> Bound:
        """Takes down a name that is bound."""
        self.names.append(name)
        self.of_token[name.token.start] = name
        if space := name.sort.space:
            self.declared.append((space, name))
        return name

    def use(self, name: Bound, token: Token) -> None:
        """Takes down a place where a name of this piece is used."""
        name.uses.append(token)
        self.of_token[token.start] = name

    def use_of_text(self, space: Space, token: Token) -> None:
        """Takes down a place where a name is used that the whole text may know."""
        self.used.setdefault((space, token.text), []).append(token)
        self.of_token[token.start] = space

    # ---- declarations

    def _read(self, cursor: Cursor) -> None:
        if cursor.take("[<"):
            cursor.skip_past("]")
            cursor.take("type")
            self._measure(cursor)
        elif cursor.take("type"):
            self._record(cursor)
        elif cursor.take("let"):
            self._function(cursor)
        else:
            Body(self, cursor, [], {}).read()

    def _head(self, cursor: Cursor, sort: Sort) -> Bound | None:
        """The name of the declaration."""
        self.sort, self.name = sort, cursor.take_kind(Kind.NAME)
        return self.bind(Bound(sort, self.name, self.end, self.end)) if self.name else None

    def _measure(self, cursor: Cursor) -> None:
        name = self._head(cursor, Sort.MEASURE)
        if cursor.at("="):
            self.equals, self.sort = cursor.next(), Sort.ABBREVIATION
            if name:
                name.sort = Sort.ABBREVIATION
            self.unit(cursor.rest(), {})

    def _record(self, cursor: Cursor) -> None:
        self._head(cursor, Sort.RECORD)
        variables = self._parameters_of_units(cursor)
        if cursor.at("="):
            self.equals = cursor.next()
        cursor.take("{")
        while not cursor.ended and not cursor.at("}"):
            token = cursor.take_kind(Kind.NAME)
            if token is None or not cursor.take(":"):
                cursor.skip_past(";")
                continue
            noted = annotation(cursor.until({";", "}"}))
            self.bind(Bound(Sort.FIELD, token, self.end, self.end, noted))
            if noted:
                self.type(noted.tokens, variables)
            cursor.take(";")

    def _function(self, cursor: Cursor) -> None:
        self.is_recursive = cursor.take("rec") is not None
        name = self._head(cursor, Sort.FUNCTION)
        variables = self._parameters_of_units(cursor)
        scope: list[Bound] = []
        while cursor.at("("):
            cursor.next()
            self._parameter(cursor, variables, scope)
        if cursor.take(":"):
            self.result = annotation(cursor.until({"="}))
            if self.result:
                self.type(self.result.tokens, variables)
        if cursor.at("="):
            self.equals = cursor.next()
        if name and self.is_recursive:
            name.known_from = name.token.end
        for parameter in scope:
            parameter.known_from = self.equals.start if self.equals else self.end
        Body(self, cursor, scope, variables).read()

    def _parameter(self, cursor: Cursor, variables: dict[str, Bound], scope: list[Bound]) -> None:
        binder = cursor.take_kind(Kind.NAME) or cursor.take_kind(Kind.HOLE)
        noted = annotation(cursor.until_closed()) if cursor.take(":") else None
        cursor.skip_past(")")
        if binder is None:
            return
        self.parameters.append(Parameter(binder, noted))
        if noted:
            self.type(noted.tokens, variables)
        if binder.kind is Kind.NAME:
            scope.append(self.bind(Bound(Sort.PARAMETER, binder, self.end, self.end, noted)))

    def _parameters_of_units(self, cursor: Cursor) -> dict[str, Bound]:
        """The unit parameters between `<` and `>`. A variable that stands twice keeps its first place."""
        variables: dict[str, Bound] = {}
        if not cursor.take("<"):
            return variables
        while cursor.take("[<"):
            cursor.skip_past("]")
            token = cursor.take_kind(Kind.VARIABLE)
            if token and token.text not in variables:
                variables[token.text] = self.bind(Bound(Sort.UNIT, token, 0, self.end, is_parameter_of_units=True))
            elif token:
                self.use(variables[token.text], token)
            cursor.take(",")
        cursor.take(">")
        return variables

    # ---- types and units

    def type(self, tokens: list[Token], variables: dict[str, Bound]) -> None:
        """The names of a type: records outside of `<` and `>`, and units inside."""
        depth = 0
        for token in tokens:
            depth += (token.text == "<") - (token.text == ">")
            if depth > 0:
                self.unit([token], variables)
            elif token.kind is Kind.NAME:
                self.use_of_text("type", token)

    def unit(self, tokens: list[Token], variables: dict[str, Bound]) -> None:
        """The names and variables of a unit."""
        for token in tokens:
            self.units.add(token.start)
            if token.kind is Kind.NAME:
                self.use_of_text("type", token)
            elif token.kind is Kind.VARIABLE:
                if token.text in variables:
                    self.use(variables[token.text], token)
                elif self.sort is Sort.FUNCTION:
                    variables[token.text] = self.bind(Bound(Sort.UNIT, token, 0, self.end))
                else:
                    self.unknown.append(token)
