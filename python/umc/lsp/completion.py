"""What could be written at a place: names with their types, units, fields, and words of the language."""
from dataclasses import dataclass

from umc import reports
from umc.lsp import facts
from umc.lsp.analysis import Known
from umc.lsp.documents import Snapshot
from umc.lsp.hover import of_name
from umc.lsp.names import Sort
from umc.lsp.placed import Declaration, Name
from umc.lsp.positions import Json, Lines
from umc.lsp.reading import Reading
from umc.lsp.tokens import WORDS, Kind, Token

FUNCTION, FIELD, VARIABLE, UNIT, KEYWORD, CONSTANT, STRUCT, PARAMETER = 3, 5, 6, 11, 14, 21, 22, 25
KINDS = {Sort.FUNCTION: FUNCTION, Sort.FIELD: FIELD, Sort.PARAMETER: VARIABLE, Sort.LOCAL: VARIABLE,
         Sort.MEASURE: UNIT, Sort.ABBREVIATION: UNIT, Sort.RECORD: STRUCT, Sort.UNIT: PARAMETER}
# What stands before a name that is new.
BEFORE_NEW_NAME = frozenset(["let", "rec", "type", "::"])
IN_UNIT = frozenset(["*", "/", "^", "-", "(", ")", ",", "_"])
EXPECTED = "expected: "
# No program goes on with this at any place at which it may end.
NO_CONTINUATION = "\n)"


@dataclass
class Place:
    """A place at which something is written: the offset at which the word begins, and the tokens before it."""

    start: int
    offset: int
    before: list[Token]

    def last(self, back: int = 1) -> str:
        """The text of a token before the word, the last one first."""
        return self.before[-back].text if len(self.before) >= back else ""


def completion(snapshot: Snapshot, params: Json) -> Json | None:
    """Answers textDocument/completion."""
    place = place_at(snapshot, snapshot.offset(params["position"]))
    if place is None:
        return None
    known = snapshot.analysis.known_soon
    if place.last() == "." and len(place.before) > 1:
        items = [_item(snapshot, known, name, place, "0") for name in _fields(snapshot, known, place)]
    else:
        expected = words_at(snapshot, place)
        names = [] if expected and not {"NAME", "VARIABLE"} & set(expected) else names_at(snapshot, place)
        items = [_item(snapshot, known, name, place, str(at and 1)) for at, name in enumerate(names)]
        items += [_word(snapshot, word, place) for word in _words(expected, place)]
    return {"isIncomplete": False, "items": items}


def place_at(snapshot: Snapshot, offset: int) -> Place | None:
    """The place at an offset; None inside a comment."""
    reading = snapshot.reading
    if reading.is_in_comment(offset):
        return None
    before = _before(reading, offset)
    last = before[-1] if before else None
    if last and last.end >= offset and (last.kind in (Kind.NAME, Kind.VARIABLE, Kind.WORD, Kind.HOLE)
                                        or last.text == "'"):
        return Place(last.start, offset, _before(reading, last.start))
    return Place(offset, offset, before)


def _before(reading: Reading, offset: int) -> list[Token]:
    """The tokens that begin before an offset in the declaration of the last one of them."""
    if not reading.declarations:
        return []
    made = reading.declaration_at(offset - 1)
    return made.tokens[:made.index_at(offset - 1) + 1]


# ---- names

def names_at(snapshot: Snapshot, place: Place) -> list[Name]:
    """The names that may be meant at a place, the nearest first."""
    reading = snapshot.reading
    if place.last() in BEFORE_NEW_NAME or not place.before:
        return []
    made = reading.declaration_at(place.before[-1].start)
    if in_unit(snapshot, place):
        own = [name for name in made.names if name.sort is Sort.UNIT]
        return own + [name for name in reading.measures if _is_before(name, made)]
    if in_type(place):
        return [name for name in reading.all_known("type") if name.sort is Sort.RECORD and _is_before(name, made)]
    if made.sort is not Sort.FUNCTION or made.equals is None or place.start <= made.head_end:
        return []
    fields = reading.all_known("field") if place.last() == "{" else []
    local = [name for name in made.names if name.sort.is_variable and name.known_from <= place.start
             and (place.start <= name.known_to or name.known_to >= made.end)]
    known = [name for name in reading.all_known("function")
             if _is_before(name, made) or name.declaration is made and name.known_from < made.end]
    hidden = {name.text: name for name in [*known, *local]}
    return fields + [name for name in reversed(hidden.values())]


def _is_before(name: Name, made: Declaration) -> bool:
    """Whether a name is declared before a declaration: in the text, or in a file before it."""
    return not name.is_of_text or name.declaration.number < made.number


def in_unit(snapshot: Snapshot, place: Place) -> bool:
    """Whether a unit is written here: after a `<` that opens one, or after the `=` of an abbreviation."""
    at = len(place.before) - 1
    while at >= 0 and (place.before[at].text in IN_UNIT or place.before[at].kind in (
            Kind.NAME, Kind.VARIABLE, Kind.NUMBER)):
        at -= 1
    if at < 1:
        return False
    opening, before = place.before[at], place.before[at - 1]
    if opening.text == "<":
        record = snapshot.reading.known("type", before.text)
        return before.text == "num" or before.kind is Kind.NUMBER and before.end == opening.start or (
            record is not None and record.sort is Sort.RECORD and in_type(Place(0, 0, place.before[:at - 1])))
    return opening.text == "=" and at >= 3 and [token.text for token in place.before[at - 3:at - 1]] == ["]", "type"]


def in_type(place: Place) -> bool:
    """Whether a type is written here: after a single colon and opening brackets."""
    back = 1
    while place.last(back) == "(":
        back += 1
    return place.last(back) == ":"


def _fields(snapshot: Snapshot, known: Known, place: Place) -> list[Name]:
    """The fields of the record before the point, if that is known; otherwise all fields."""
    reading = snapshot.reading
    owner = reading.name_of(place.before[-2])
    record = None
    if owner and owner.sort is not Sort.FUNCTION:
        kind = facts.of_name(known, owner) or ""
        record = reading.known("type", kind.partition("<")[0])
    every = reading.all_known("field")
    return [name for name in every if name.declaration.name and name.declaration.name.text == record.text] if (
        record and record.sort is Sort.RECORD and "list" not in kind) else every


# ---- words

def words_at(snapshot: Snapshot, place: Place) -> list[str] | None:
    """What the program says could stand here; None if it doesn't tell.

    It is asked about the declaration up to here by itself, so that a fault of form in another one doesn't matter.
    """
    analysis = snapshot.analysis
    if not analysis.program.has("explain"):
        return None
    own = snapshot.text[place.before[0].start if place.before else place.start:place.start]
    for text in (own, own + NO_CONTINUATION):
        answer = analysis.ask_alone(["explain"], text)
        first, *lines = answer.output.decode("utf-8", "replace").split("\n")
        report = reports.parse(first)
        if report and report.status == 5:
            is_here = Lines(text).at(report.line or 1, report.column or 1) >= len(own)
            found = next((line for line in lines if line.startswith(EXPECTED)), "") if is_here else ""
            return found.removeprefix(EXPECTED).split() or None
    return None


def _words(expected: list[str] | None, place: Place) -> list[str]:
    """The words of the language that could stand here."""
    if expected is None:
        return sorted(WORDS) if place.offset > place.start else []
    return [word for word in expected if word in WORDS]


# ---- items

def _item(snapshot: Snapshot, known: Known, name: Name, place: Place, order: str) -> Json:
    kind = KINDS[name.sort]
    if name.declaration.is_constant and name.sort is Sort.FUNCTION:
        kind = CONSTANT
    return {"label": name.text, "kind": kind, "detail": _detail(snapshot, known, name), "sortText": order + name.text,
            "textEdit": {"range": snapshot.range(place.start, place.offset), "newText": name.text}}


def _detail(snapshot: Snapshot, known: Known, name: Name) -> str:
    if name.sort is Sort.FUNCTION:
        scheme = known.schemes.get(name.text)
        return scheme.line.partition(" : ")[2] if scheme else ""
    if name.sort is Sort.ABBREVIATION:
        return f"= {facts.abbreviations(snapshot, known).get(name.text, '?')}"
    if name.sort.is_variable or name.sort is Sort.FIELD:
        return facts.of_name(known, name) or ""
    return of_name(snapshot, known, name).said[-1] if name.sort is Sort.UNIT else str(name.sort.value)


def _word(snapshot: Snapshot, word: str, place: Place) -> Json:
    return {"label": word, "kind": KEYWORD, "sortText": "2" + word,
            "textEdit": {"range": snapshot.range(place.start, place.offset), "newText": word}}
