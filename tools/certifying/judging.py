"""Whether certificates show what they say, by sums of integers.

A function's equations are formed from its text and from the certified schemes of the functions before it. Nothing is
asked of the program that made the certificates.

Two facts are needed that no line of a refusal shows: that the equations before the named one have a solution, and, for
`not general`, that those up to it have one if unit parameters may be any units. Units for the slots are searched for,
and what is found is put into the equations. So nothing rests on how it was found.
"""
from __future__ import annotations

from collections.abc import Callable
from dataclasses import dataclass

from certifying.reading import Certificate, Fault, Reader
from equations import Equations, Row, Scheme, equations_of
from front import Report, Source, parse, read_text, refuse, resolve
from lexer import WIDEST, line_and_column
from notes import Function
from show import scheme_text, type_text, unit_text
from solving import MOST_SLOTS, NoSolution, Refusal, eliminate, own_variables, rigid_units, solution_of
from units import BASE, VAR, Unit, atom, by_list, mul, over, power_of, put, put_unit, type_fits, units_in, variables


@dataclass
class Question:
    """A function whose equations were formed, and its certificate."""

    source: Source
    function: Function
    equations: Equations
    certificate: Certificate

    def refused(self, what: str, word: str = "", number: int = 0) -> Fault:
        """The fault of a line of the certificate."""
        return Fault(self.certificate.place(word, number), f"{self.certificate.name}: {what}")

    def text(self, unit: Unit) -> str:
        """A unit as it is printed, over unit parameters too."""
        names = self.source.program.bases + [f"${number}" for number in range(self.function.units)]
        return unit_text(unit, names)

    def rigid(self) -> list[Unit]:
        """Each slot as itself, but those of unit parameters as units of their own."""
        return rigid_units(len(self.source.program.bases), self.function.units, self.equations.slots)


def combined(rows: list[Unit], parts: dict[int, int]) -> Unit:
    """The product of rows to powers."""
    product: Unit = {}
    for row, power in parts.items():
        product = mul(product, rows[row], power)
    return product


def solved(unit: Unit, units: list[Unit]) -> Unit:
    """The unit with units in the place of its variables."""
    return put_unit(unit, by_list(units))


# ---- a scheme


def check_numbers(question: Question) -> None:
    """As many lines of each word as there must be, over variables that there are."""
    certificate, slots = question.certificate, question.equations.slots
    count = certificate.numbers[0]
    rigid = slots if question.function.units else 0
    for word, expected, below in (("slot", slots, count), ("back", count, slots), ("rigid", rigid, 0)):
        units = certificate.units[word]
        if len(units) != expected:
            raise question.refused(f"{len(units)} lines `{word}`, and there must be {expected}")
        for number, unit in enumerate(units):
            if any(variable >= below for variable in variables(unit)):
                what = f"{word} {number} has a variable that isn't among the first {below}"
                raise question.refused(what, word, number)
    for slot, parts in certificate.rows.items():
        if slot >= slots:
            raise question.refused(f"there is no slot {slot}", "rows", slot)
        if max(parts) >= len(question.equations.rows()):
            raise question.refused(f"there is no row {max(parts)}", "rows", slot)


def check_rows(question: Question, units: list[Unit], word: str) -> None:
    """With these units each equation is 1."""
    for number, row in enumerate(question.equations.rows()):
        left = solved(row.unit, units)
        if left:
            raise question.refused(f"with the units of `{word}` row {number} is {question.text(left)}, not 1")


def check_back(question: Question) -> None:
    """Each variable is its way back, and each slot comes back, but for the rows that are named."""
    certificate, rows = question.certificate, [row.unit for row in question.equations.rows()]
    slots, back, divisor = certificate.units["slot"], certificate.units["back"], certificate.numbers[1]
    if divisor < 1:
        raise question.refused(f"the divisor {divisor} isn't positive")
    for number, unit in enumerate(back):
        if solved(unit, slots) != atom(VAR, number):
            what = f"with the units of `slot` back {number} isn't the variable {number}"
            raise question.refused(what, "back", number)
    for number, unit in enumerate(slots):
        returned = over(solved(unit, back), atom(VAR, number))
        product = combined(rows, certificate.rows.get(number, {}))
        word = "rows" if number in certificate.rows else "slot"
        if any(abs(power) > WIDEST for power in returned.values()):
            raise question.refused(f"slot {number} comes back with a number out of range", "slot", number)
        if power_of(returned, divisor) != product:
            what = f"slot {number} comes back to the power {divisor} as {question.text(power_of(returned, divisor))} "
            raise question.refused(what + f"times itself, and its rows are {question.text(product)}", word, number)
        if number in certificate.rows and not product:
            raise question.refused(f"rows {number} say nothing", "rows", number)


def check_rigid(question: Question) -> None:
    """Each unit parameter is a unit of its own, and each equation is 1."""
    rigid = question.certificate.units["rigid"]
    for number, unit in enumerate(question.rigid()[:question.function.units]):
        if rigid[number] != unit:
            raise question.refused(f"the unit parameter {number} isn't {question.text(unit)}", "rigid", number)
    if rigid:
        check_rows(question, rigid, "rigid")


def scheme_of_slots(question: Question) -> Scheme:
    """What the units of the slots give for the function's types, with variables numbered as they occur."""
    slots = question.certificate.units["slot"]
    types = [put(kind, by_list(slots)) for kind in question.equations.params + [question.equations.result]]
    order = list(dict.fromkeys(number for kind in types for unit in units_in(kind) for number in variables(unit)))
    if order != list(range(len(order))):
        raise question.refused("the variables of the scheme aren't numbered in the order in which they occur")
    if not all(type_fits(kind) for kind in types):
        raise question.refused("a power of the scheme is out of range")
    return Scheme(types[:-1], types[-1], len(order))


def certified_scheme(question: Question) -> Scheme:
    """The scheme that the certificate shows."""
    check_numbers(question)
    check_rows(question, question.certificate.units["slot"], "slot")
    check_back(question)
    check_rigid(question)
    return scheme_of_slots(question)


# ---- a refusal


def check_product(question: Question) -> None:
    """Each slot's power is a multiple of the modulus, and that of some base unit isn't."""
    (last, modulus), product = question.certificate.numbers, question.certificate.product
    rows = question.equations.rows()
    if modulus < 2:
        raise question.refused(f"the modulus {modulus} is less than 2")
    if not 1 <= last <= len(rows):
        raise question.refused(f"there is no equation {last}, counted from 1, of {len(rows)}")
    if max(product) >= last:
        raise question.refused(f"row {max(product)} comes after equation {last}, counted from 1")
    own = question.rigid() if question.certificate.kind == "not general" else own_variables(question.equations.slots)
    left = combined([solved(row.unit, own) for row in rows[:last]], product)
    for (kind, number), power in left.items():
        if kind == VAR and power % modulus:
            raise question.refused(f"slot {number} has the power {power}, which is no multiple of {modulus}")
    if not any(kind == BASE and power % modulus for (kind, _), power in left.items()):
        raise question.refused(f"each base unit's power is a multiple of {modulus}")


def is_solvable(rows: list[Row], units: list[Unit]) -> bool:
    """Units for the slots were found that are these but for variables, and with which each equation is 1."""
    found = units
    try:
        for row in rows:
            found = eliminate(found, row.unit, False)
    except NoSolution:
        return False
    kept = all(new == old for new, old in zip(found, units) if not variables(old))
    return kept and all(not solved(row.unit, found) for row in rows)


def certified_refusal(question: Question) -> Refusal:
    """The refusal that the certificate shows."""
    check_product(question)
    last, rows = question.certificate.numbers[0], question.equations.rows()
    general = question.certificate.kind == "not general"
    if not is_solvable(rows[:last - 1], question.rigid()):
        raise question.refused(f"equation {last} isn't the first, counted from 1: those before it have no solution")
    if general and not is_solvable(rows[:last], own_variables(question.equations.slots)):
        raise question.refused(f"the equations up to {last} have no solution for any unit parameters either")
    return Refusal("general" if general else "units", rows[last - 1].at, last - 1)


# ---- a program


def program_of_text(data: bytes) -> Source:
    """The program of a text, its names and shapes looked at."""
    source = Source()
    try:
        read_text(source, data)
        parse(source)
        resolve(source)
    except Report as report:
        raise Fault(0, f"there is nothing to certify, the program has {report.line}") from None
    return source


def check_range(question: Question) -> None:
    """No function is certified that is refused for its slots or for the range of powers."""
    source, equations = question.source, question.equations
    if equations.slots > MOST_SLOTS:
        raise question.refused(f"it has {equations.slots} slots, and at most {MOST_SLOTS} are answered")
    try:
        solution_of(source.program, question.function, equations)
    except Refusal as refusal:
        if refusal.kind == "range":
            where = line_and_column(source.text, refusal.at)
            raise question.refused(f"its equations pass the range of powers at {where}") from None


def shown_equations(question: Question) -> str:
    """The equations of a function, over its slots."""
    program, equations = question.source.program, question.equations
    head = f"{question.function.name} {equations.slots} {question.function.units}\n"
    kind = " -> ".join(type_text(each, program) for each in [*equations.params, equations.result])
    lines = f"  type: {kind}\n"
    for number, row in enumerate(equations.rows()):
        place = line_and_column(question.source.text, row.at)
        lines += f"  row {number} at {place}: {unit_text(row.unit, program.bases)}\n"
    return head + lines


def check(source: Source, text: str, hear: Callable[[Question], None] = lambda question: None) -> list[str]:
    """The lines that the certificates show: the schemes, and the refusal; a Fault if they don't. The schemes and the
    refusal are then the source's. `hear` is told of each function before its certificate is judged."""
    source.schemes, source.refusal, shown = [], None, []
    certificates = Reader(source.program, text).certificates()
    for function, certificate in zip(source.program.functions, certificates):
        if certificate.name != function.name:
            raise Fault(certificate.line, f"this must be the certificate of {function.name}")
        equations = equations_of(source.program, source.schemes, function)
        question = Question(source, function, equations, certificate)
        hear(question)
        check_range(question)
        if certificate.kind != "yes":
            source.refusal = certified_refusal(question)
            shown.append(refuse(source).line)
            break
        source.schemes.append(certified_scheme(question))
        shown.append(scheme_text(function.name, source.schemes[-1], source.program))
    if len(certificates) > len(shown):
        raise Fault(certificates[len(shown)].line, "a certificate follows the last one")
    if not source.refusal and len(shown) < len(source.program.functions):
        raise Fault(0, f"the certificate of {source.program.functions[len(shown)].name} is missing")
    return shown
