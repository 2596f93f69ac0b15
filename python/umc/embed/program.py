"""A program of the language, and its functions."""
import os
import re
from collections.abc import Iterable, Sequence
from dataclasses import dataclass, field
from decimal import Decimal
from fractions import Fraction
from functools import lru_cache
from typing import TYPE_CHECKING, Any

from umc import reports
from umc.embed import quantity, refused
from umc.embed.engines import Engine, Process, line_words, words_line
from umc.embed.library import Library, find
from umc.embed.quantity import Quantity, value_of
from umc.embed.refused import Refused
from umc.embed.schemes import Scheme, schemes
from umc.embed.texts_of import Step, ValueRefused, Writer, column_unit, every_writer, exact_step, writer, writers
from umc.errors import InputError, UmError
from umc.limits import NONE, Limits
from umc.options import BUDGET
from umc.program import Answer
from umc.program import Program as ProgramFile
from umc.texts import Gathering, Source, Text, library_file, needs, read

NAME = "<text>"
LIBRARY_NAME = re.compile(r"[A-Za-z_][A-Za-z0-9_]*")
Units = str | Sequence[str | None] | None


def engine_of(limits: Limits) -> Engine:
    """The shared library if it is there, otherwise the program. Only a process can be held within limits."""
    if limits == NONE and find() is not None:
        return Library()
    return Process(limits=limits)


class Program:
    """A program of the language that was accepted. Its functions are attributes (`p.mean`) and items (`p["mean"]`).

    text: the program, as a string or bytes; `Program.read(path)` reads a file
    library: files of the library that stand before it, as ["si", "list"]
    budget: how many calls a call may make at most
    limits: `umc.Limits(time=2, memory=500 << 20, output=1 << 20)` of each question, which takes a process for each
    file: the file's name, if the text is that of a file: its first line may ask for other files
    engine: `umc.Process(path)` or `umc.Library(path)`; otherwise the library, or the program if it isn't there

    Raises `umc.Refused` if the text is refused.
    """

    def __init__(self, text: str | bytes, library: Iterable[str] = (), *, budget: int = int(BUDGET),
                 limits: Limits = NONE, engine: Engine | None = None, file: str | None = None):
        if isinstance(library, str):
            raise TypeError("library takes a list of names, as library=['si']")
        if engine is not None and limits != NONE:
            raise TypeError("an engine that is named has limits of its own, as umc.Process(limits=..)")
        self.engine = engine_of(limits) if engine is None else engine
        self.budget = budget
        data = text.encode("utf-8", "surrogatepass") if isinstance(text, str) else bytes(text)
        self._text = self._gathered(Source(file or NAME, data), library, file is not None)
        self._handle = self.engine.open(self._text.data)
        answer = self._handle.ask(["types"])
        if answer.status != 0:
            raise refused.of_text(self._handle, self._text, answer, self.engine.has("explain"))
        self._schemes = schemes(answer.output.decode())
        self._functions = {name: Function(self, scheme) for name, scheme in self._schemes.items()}
        self._ratio: "Program | None" = None
        self._convert = self.convert    # made once for all values
        # Python finds these as attributes; the others are items alone.
        self.__dict__.update({name: it for name, it in self._functions.items() if not hasattr(Program, name)
                              and name not in self.__dict__})

    @classmethod
    def read(cls, path: str | os.PathLike[str], library: Iterable[str] = (), **how: Any) -> "Program":
        """The program in a file."""
        return cls(read(os.fspath(path)).data, library, file=os.fspath(path), **how)

    def _gathered(self, source: Source, library: Iterable[str], is_file: bool) -> Text:
        """The text after the files of the library. A text that anybody may have sent names no other file."""
        asked = needs(source)
        if not is_file and not all(map(LIBRARY_NAME.fullmatch, asked)):
            raise InputError("the first line asks for a file that isn't one of the library", source.name)
        beside = ProgramFile(self.engine.path)
        gathering = Gathering(beside, follows=True)
        for part in [*library, *asked]:
            gathering.add(library_file(part, beside))
        return Text([*gathering.sources.values(), source])

    def __repr__(self) -> str:
        return f"umc.Program({self._text.name}: {', '.join(self._schemes)})"

    def types(self) -> dict[str, Scheme]:
        """What each function takes and gives, by its name."""
        return dict(self._schemes)

    def __getitem__(self, name: str) -> "Function":
        return self._functions[name]

    if TYPE_CHECKING:
        def __getattr__(self, name: str) -> "Function":
            """Functions are attributes."""

    def __dir__(self) -> list[str]:
        return sorted({*object.__dir__(self), *self._schemes})

    def close(self) -> None:
        """Lets go of what the engine keeps."""
        self._handle.close()

    def __enter__(self) -> "Program":
        return self

    def __exit__(self, *fault: object) -> None:
        self.close()

    # ---- what functions and quantities ask

    def answers(self, name: str, columns: Sequence[list[str]]) -> list[Any]:
        """The values, or the refusals, of calls of a function with each row of columns of arguments, as texts."""
        lines = self._handle.calls(self.budget, name, columns)
        if isinstance(lines, Answer):
            raise refused.of_call(lines, [], None)
        convert = self._convert
        return [self._refused(name, number, columns, line) if line.startswith(REFUSAL)
                else value_of(line, convert) for number, line in enumerate(lines, 1)]

    def said(self, line: bytes) -> str:
        """The printed value of a call: the line has the function's name and the texts of its arguments, with a zero
        byte between each two.
        """
        answer = self._handle.call(self.budget, line)
        if isinstance(answer, str):
            return answer
        raise self._refusal(line_words(line), answer)

    def _refusal(self, words: list[str], answer: Answer) -> Refused:
        name, *arguments = words
        found = refused.of_call(answer, arguments, self._schemes[name].text, self._ask, self._text.data)
        if found.status in refused.TRAPS and self.engine.has("trace"):
            found = refused.of_trap(self._handle, self._text, [str(self.budget), *words], found)
        return found

    def first_refused(self, name: str, columns: Sequence[list[str]], row: int, line: str) -> Refused:
        """The refusal of a row with all that is known of it."""
        report = reports.parse(line)
        answer = Answer(report.status if report else 0, line.encode())
        found = self._refusal([name, *(column[row - 1] for column in columns)], answer)
        found.row = row
        return found

    def _ask(self, words: Sequence[str], text: bytes) -> Answer:
        """The answer of the engine to words about a text of its own."""
        return self.engine.open(text).ask(words)

    def _refused(self, name: str, row: int, columns: Sequence[list[str]], line: str) -> Refused:
        report = reports.parse(line)
        answer = Answer(report.status if report else 0, line.encode())
        found = refused.of_call(answer, [column[row - 1] for column in columns], self._schemes[name].text)
        found.row = row
        return found

    def convert(self, given: Quantity, unit: str) -> Quantity:
        """A quantity in another unit, as the program computes it."""
        name, sign, size = unit.partition("=")
        name = name.strip()
        try:
            ratio = self._ratio_program()[RATIO](given, size if sign else f"1<{unit}>")
        except Refused as refusal:
            refusal.explanation = tuple(line for line in refusal.explanation if not line.startswith(f"{RATIO} "))
            raise
        if ratio.unit in ("", quantity.OPEN):
            return Quantity(ratio.magnitude, name, _convert=self.convert)
        conversion = f"{given.unit}_to_{name}"
        if not sign and conversion in self._schemes:
            found = self[conversion](given)
            if isinstance(found, Quantity):
                return found
        raise UmError(f"{given} isn't a number of {name}: the quotient has the unit {ratio.unit}, and the program has "
                      f"no function {conversion}. A size with a name is written as ft=0.3048<m>")

    def _ratio_program(self) -> "Program":
        if self._ratio is None:
            # The first file of a text asks for no file, since those that it asks for would stand before it.
            self._ratio = Program(self._text.data + RATIO_TEXT, engine=self.engine, budget=self.budget)
        return self._ratio


REFUSAL = "error "    # a line that begins so is no value
RATIO = "umc_ratio__"
RATIO_TEXT = f"\nlet {RATIO} (x: num<_>) (y: num<_>) = x / y\n".encode()


@dataclass(frozen=True)
class Function:
    """A function of a program, which is called as one of Python."""

    program: Program
    scheme: Scheme
    name: str = field(init=False, repr=False, compare=False)

    def __post_init__(self) -> None:
        object.__setattr__(self, "name", self.scheme.function)

    def __repr__(self) -> str:
        return f"<{self.scheme}>"

    def __call__(self, *arguments: Any, unit: Units = None, step: Step | None = None) -> Any:
        """The value of a call.

        An argument is an int, Fraction or Decimal; a truth value; a text of the language, as "1.5<m>"; a tuple of a
        number and a unit; a quantity of pint, or one that a call gave; a list, an array or a column of these; or a
        dictionary of a record's fields in the order of their declaration.

        unit: the unit of the numbers that have none of their own, or a list with one for each argument
        step: floats are rounded to the nearest multiple of this; without one they are refused

        Raises `umc.Refused` if the program refuses the call, and `umc.ValueRefused` for a value that is no argument.
        """
        program, line = self.program, _line(self.name, arguments, unit, step)
        answer = program._handle.call(program.budget, line)     # as `said`, which takes longer
        if isinstance(answer, Answer):
            raise program._refusal(line_words(line), answer)
        return value_of(answer, program._convert)

    def printed(self, *arguments: Any, unit: Units = None, step: Step | None = None) -> str:
        """The value of a call as the program prints it, as 381r125<m>."""
        return self.program.said(_line(self.name, arguments, unit, step))

    def each(self, *columns: Iterable[Any], unit: Units = None, step: Step | None = None,
             keep_going: bool = False) -> list[Any]:
        """The values of a call for each row of columns of arguments, in one question if the engine can.

        The first row that is refused is raised with its number in `row`. With `keep_going` a refusal stands in the
        place of the value.
        """
        texts = [_of_column(own, column).texts(column, f"argument {number}, row")
                 for number, (own, column) in enumerate(zip(_writers(columns, unit, step), columns), 1)]
        if len({len(column) for column in texts}) > 1:
            raise ValueRefused(f"the columns have {', '.join(str(len(column)) for column in texts)} rows")
        found = self.program.answers(self.name, texts)
        first = next((value for value in found if isinstance(value, Refused)), None)
        if first is not None and first.row is not None and not keep_going:
            raise self.program.first_refused(self.name, texts, first.row, first.report)
        return found


PLAIN = frozenset([int, str, Fraction, Decimal, Quantity, tuple, list])   # these aren't columns of a data frame


def _line(name: str, arguments: tuple[Any, ...], unit: Units, step: Step | None) -> bytes:
    """The name of a function and the texts of its arguments, with a zero byte between each two."""
    for argument in arguments:
        if type(argument) is not int or step is not None:
            return words_line([name, *_texts(arguments, unit, step)])
    units = unit if unit is None or isinstance(unit, str) else tuple(unit)
    return _line_of_ints(name, units, len(arguments)) % arguments   # the most common in one go


@lru_cache(maxsize=1000)
def _line_of_ints(name: str, unit: Units, count: int) -> bytes:
    """The line of a call with %d in the place of each argument."""
    line = words_line([name, *_texts([0] * count, unit, None)]).replace(b"%", b"%%")
    return line.replace(b"\x000", b"\0%d")


def _texts(arguments: Sequence[Any], unit: Units, step: Step | None) -> list[str]:
    """The texts of arguments."""
    texts: list[str] = []
    try:
        for own, argument in zip(_writers(arguments, unit, step), arguments):
            texts.append(_of_column(own, argument).text(argument))
    except ValueRefused as error:
        raise ValueRefused(f"argument {len(texts) + 1}: {error.message}") from error
    return texts


def _writers(arguments: Sequence[Any], unit: Units, step: Step | None) -> Iterable[Writer]:
    """A writer for each argument."""
    exact = None if step is None else exact_step(step)
    if unit is None or isinstance(unit, str):
        return every_writer(unit, exact)
    if len(unit) != len(arguments):
        raise ValueRefused(f"unit has {len(unit)} units for {len(arguments)} arguments")
    return writers(tuple(unit), exact)


def _of_column(own: Writer, argument: Any) -> Writer:
    """The writer of a column has the unit of its header, if none is named."""
    return own if own.unit is not None or type(argument) in PLAIN else writer(column_unit(argument), own.step)
