"""`explain`: the answer of `types`, and after a refusal the line of the text and why it is refused."""
from __future__ import annotations

from collections.abc import Callable
from fractions import Fraction

from earley import SyntaxFault, terminals
from equations import Agreement, Row, equations_of
from front import LimitFault, Report, Source, typed_into
from lexer import LexFault, SIGNS, Token, WORDS, line_and_column
from notes import Function, NameFault
from shapes import ShapeFault
from show import letter, naming, type_text, unit_text
from solving import NoSolution, PowerRange, Refusal, eliminate, own_variables, rigid_units
from units import BASE, VAR, Unit, by_list, fits, power_of, put, put_unit, type_fits, units_in, variables

EXPLAINED = (3, 4, 5, 6, 7, 8, 9, 10, 19)
OPERATORS = "< <= = <> > + - * / :: || &&".split()
MOST_ROWS = 17
LEXICAL = {"character": "no token begins with this character", "power": "a power is digits alone, at most 2147483647",
           "number": "a number has at most 38 digits, no denominator 0, and parts that fit 64 bits"}
LIMITS = {"height": "400 levels", "functions": "2000 functions", "parameters": "16 parameters", "fields": "32 fields",
          "unit parameters": "4 unit parameters", "nodes": "20000 nodes", "depth": "400 levels of types",
          "slots": "2000 open units"}


# ---- the line of the text


def excerpt(source: Source, at: int, whole: bool = True) -> list[str]:
    """The line of a place, cut to a window, and a caret below the place. Not `whole` is a text that breaks off."""
    text = source.text
    start = text.rfind("\n", 0, at) + 1
    start += start == 0 and text.startswith("\ufeff")
    end = text.find("\n", at)
    line = text[start:] if end < 0 else text[start:end]
    if whole and line.endswith("\r"):
        line = line[:-1]
    column = at - start
    first = 0 if column < 100 else column - 80
    window = line[first:first + 120]
    number = str(text.count("\n", 0, at) + 1)
    shown = "".join("\ufffd" if char != "\t" and (char < " " or "\x7f" <= char <= "\x9f") else char for char in window)
    blank = "".join("\t" if char == "\t" else " " for char in window[:max(column - first, 0)])
    return [f"{number} | {shown}", f"{' ' * len(number)} | {blank}^"]


# ---- what could stand at a place


def can_stand(fault: SyntaxFault, glued: bool, after: bool, kind: str, text: str,
              value: Fraction | None = None) -> bool:
    """A token of this kind and text can stand in the place of the refused one."""
    token = Token(kind, text, 0, 0, glued, value, after)
    return bool(terminals(token) & fault.chart.expected())


def expected(source: Source, fault: SyntaxFault) -> list[str]:
    """The words for what can stand in the place of the refused token, in their order."""
    tokens = source.tokens
    glued = fault.number < len(tokens) and tokens[fault.number].glued
    after = 0 < fault.number <= len(tokens) and tokens[fault.number - 1].kind == "number"
    symbols = fault.chart.expected()
    words = [word for word, symbol in (("NAME", "Name"), ("VARIABLE", "Var"), ("_", '"_"')) if symbol in symbols]
    numbers = (("NUMBER", "Number"), ("WHOLE", "Whole"), ("1", "One"))
    words += [word for word, symbol in numbers if symbol in symbols][:1]
    words += [word for word in WORDS if can_stand(fault, glued, after, "word", word)]
    signs = [sign for sign in SIGNS if can_stand(fault, glued, after, "sign", sign)]
    if all(sign in signs for sign in OPERATORS):
        signs = ["OPERATOR"] + [sign for sign in signs if sign not in OPERATORS]
    return words + signs + ["end"] * (fault.chart.whole is not None)


def open_let(source: Source, number: int) -> Token | None:
    """The last `let` before a token with as many `in` as `let` after it, up to the token."""
    depth = 0
    for token in reversed(source.tokens[:number]):
        if token.kind == "word" and token.text == "let" and depth == 0:
            return token
        if token.kind == "word":
            depth += {"in": 1, "let": -1}.get(token.text, 0)
    return None


def syntax_details(source: Source, fault: SyntaxFault) -> list[str]:
    """What is expected, and a `let` without its `in`."""
    words = expected(source, fault)
    lines = ["expected: " + " ".join(words)]
    refused = source.tokens[fault.number].text if fault.number < len(source.tokens) else "let"
    let = open_let(source, fault.number)
    if "in" in words and refused in ("let", "type", "[<") and let:
        lines.append(f"the let at {line_and_column(source.text, let.start)} has no in")
    return lines


# ---- names


def is_similar(name: str, other: str) -> bool:
    """They differ by one character, or by two neighbours that are exchanged."""
    if len(name) == len(other):
        places = [place for place in range(len(name)) if name[place] != other[place]]
        if len(places) == 2 and places[1] == places[0] + 1:
            return name[places[0]] == other[places[1]] and name[places[1]] == other[places[0]]
        return len(places) == 1
    short, long = sorted((name, other), key=len)
    return len(long) == len(short) + 1 and any(long[:k] + long[k + 1:] == short for k in range(len(long)))


def similar(name: str, candidates: list[str]) -> list[str]:
    """At most four of the names that are known, in their order, that are similar to an unknown one."""
    if len(name.lstrip("'")) < 2:
        return []
    return [other for other in candidates if is_similar(name.lstrip("'"), other.lstrip("'"))][:4]


def name_details(source: Source, fault: NameFault) -> list[str]:
    """What is told of a fault of names."""
    about = fault.about
    if fault.kind == "declared twice":
        return [f"declared before at {line_and_column(source.text, about['earlier'])}"]
    if fault.kind == "hole":
        return [about["hole"]]
    if "counts" in about:
        return ["expected {}, found {}".format(*about["counts"])]
    if "fields" in about:
        return ["expected: " + " ".join(about["fields"][0]), "found: " + " ".join(about["fields"][1])]
    if about.get("own"):
        return [f"{about['name']} is known in its own body after let rec"]
    names = similar(about["name"], about["candidates"])
    return ["similar: " + " ".join(names)] if names else []


def shape_details(source: Source, fault: ShapeFault) -> list[str]:
    """The agreement of shapes that fails."""
    line, left, one, right, other = fault.told
    texts = [kind if isinstance(kind, str) else type_text(kind, source.program) for kind in (one, other)]
    return [line, f"  {left}: {texts[0]}", f"  {right}: {texts[1]}"]


# ---- units


def solvable(units: list[Unit], rows: list[Row]) -> list[Unit] | None:
    """The units of the slots after these rows, over powers without bound; none if there is no solution."""
    try:
        for row in rows:
            units = eliminate(units, row.unit, False)
    except NoSolution:
        return None
    return units


def core_of(rows: list[Row], start: list[Unit]) -> tuple[list[int], bool]:
    """Numbers of rows that have no solution and of which none can be left out; and whether there are more."""
    core = [len(rows) - 1]
    while (units := solvable(start, [rows[number] for number in core])) is not None:
        if len(core) == MOST_ROWS:
            return core, True
        for number, row in enumerate(rows):
            units = solvable(units, [row])
            if units is None:
                core.append(number)
                break
    return core, False


class Letters:
    """The texts of units: base units, then named variables by their first occurrence, then lettered ones."""

    def __init__(self, source: Source, function: Function) -> None:
        self.source, self.function = source, function
        self.named: dict[tuple, int] = {}
        self.letters: dict[tuple, int] = {}
        self.next = 0

    def begin(self, named: dict[tuple, int]) -> None:
        """From here on these atoms are named variables, and all others are new."""
        self.named, self.letters = named, {}

    def take(self, kind: tuple) -> None:
        """Gives a letter to each new variable of a type, unit by unit and by number. Names are passed over."""
        for unit in units_in(kind):
            for number in variables(unit):
                if (VAR, number) not in self.named and (VAR, number) not in self.letters:
                    while letter(self.next)[1:] in self.function.variables:
                        self.next += 1
                    self.letters[VAR, number] = self.next
                    self.next += 1

    def atom(self, key: tuple) -> tuple[tuple, str]:
        """The order and the text of an atom."""
        if key in self.named:
            return (1, self.named[key]), "'" + self.function.variables[self.named[key]]
        if key in self.letters:
            return (2, self.letters[key]), letter(self.letters[key])
        return naming(self.source.program.bases)(key)

    def unit(self, unit: Unit) -> str:
        """The text of a unit."""
        return unit_text(unit, self.source.program.bases, self.atom)

    def agreement(self, agreement: Agreement, one: tuple, other: tuple, indent: str) -> list[str]:
        """The two lines of an agreement at these types."""
        self.take(one)
        self.take(other)
        texts = [type_text(kind, self.source.program, self.unit) for kind in (one, other)]
        return [f"{indent}{agreement.left}: {texts[0]}", f"{indent}{agreement.right}: {texts[1]}"]


def unit_details(source: Source, refusal: Refusal) -> list[str]:
    """Why units disagree: the agreement of the refused row, and the others that ask for it."""
    function = source.program.functions[len(source.schemes)]
    equations = equations_of(source.program, source.schemes, function)
    bases, general = len(source.program.bases), refusal.kind == "general"
    start = rigid_units(bases, function.units, equations.slots) if general else own_variables(equations.slots)
    rows = equations.rows()[:refusal.row + 1]
    core, more = core_of(rows, start)
    others = [rows[number] for number in sorted(core) if number != refusal.row]
    agreement = rows[-1].agreement
    try:
        units = start
        for row in others:
            units = eliminate(units, row.unit)
        types = [put(kind, by_list(units)) for kind in (agreement.one, agreement.other)]
        if not all(type_fits(kind) for kind in types):
            raise PowerRange
    except PowerRange:
        return ["the units pass the range of powers"]
    letters = Letters(source, function)
    letters.begin({(BASE, bases + number): number for number in range(function.units)})
    lines = [agreement.line] + letters.agreement(agreement, *types, "  ")
    factor = power_of(put_unit(rows[-1].unit, by_list(units)), -1)
    if fits(factor) and all(key[0] == BASE and key[1] < bases for key in factor):
        lines.append("  factor: " + letters.unit(factor))
    letters.begin({(VAR, slot): number for number, slot in equations.named.items()})
    rest = list(dict.fromkeys(row.agreement for row in others if row.agreement is not agreement))
    lines += ["since"] * bool(rest)
    for since in rest:
        lines.append(f"  {line_and_column(source.text, since.at)} {since.line}")
        lines += letters.agreement(since, since.one, since.other, "    ")
    return lines + ["and more"] * more


# ---- the answer


def details(source: Source, report: Report) -> list[str]:
    """What is told after the report line and the excerpt."""
    cause = report.cause
    if isinstance(cause, LexFault):
        return ["no letter follows a number" if cause.letter else LEXICAL[cause.kind]]
    if isinstance(cause, SyntaxFault):
        return syntax_details(source, cause)
    if isinstance(cause, LimitFault):
        return ["at most " + LIMITS[cause.kind]]
    if report.status == 10:
        return ["powers go from -2147483647 to 2147483647"]
    if isinstance(cause, NameFault):
        return name_details(source, cause)
    if isinstance(cause, ShapeFault):
        return shape_details(source, cause)
    return unit_details(source, cause) if isinstance(cause, Refusal) else []


def explained(data: bytes, types: Callable[[Source], str]) -> str:
    """The answer of `types`, or a refusal with its excerpt and its details."""
    source = Source()
    try:
        typed_into(source, data)
    except Report as report:
        if report.status not in EXPLAINED:
            raise
        lines = [report.line]
        if report.at is not None:
            lines += excerpt(source, report.at, report.status != 3)
        return "".join(line + "\n" for line in lines + details(source, report))
    return types(source)
