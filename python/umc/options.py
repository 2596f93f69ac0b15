"""The words and options that commands of `um` share."""
import argparse
import re
from collections.abc import Sequence
from typing import Any, NoReturn

from umc import limits
from umc.errors import Exit, UmError

BUDGET = "10000000"
# An argument such as -5<m> begins like an option and is none.
NEGATIVE = re.compile(r"-\s*[0-9].*", re.DOTALL)


class Parser(argparse.ArgumentParser):
    """The words of one command. Options may stand anywhere; what is wrong ends with the status of `um` for that."""

    def __init__(self, **settings: Any):
        super().__init__(formatter_class=argparse.RawDescriptionHelpFormatter, allow_abbrev=False, **settings)
        self._negative_number_matcher = NEGATIVE

    def error(self, message: str) -> NoReturn:
        """Ends with what is wrong with the words, and how they are used."""
        self.exit(Exit.USAGE, f"um: {message}\n{self.format_usage()}{self.prog} --help says more\n")


def size(text: str) -> int | None:
    """The bytes that a word names."""
    try:
        return limits.size(text)
    except UmError as error:
        raise argparse.ArgumentTypeError(error.message) from error


def seconds(text: str) -> float | None:
    """The seconds that a word names."""
    try:
        return limits.seconds(text)
    except UmError as error:
        raise argparse.ArgumentTypeError(error.message) from error


def digits(text: str) -> int:
    """The number of digits that a word names."""
    if not re.fullmatch("[0-9]{1,3}", text):
        raise argparse.ArgumentTypeError(f"'{text}' is no number of digits")
    return int(text)


def positive(text: str) -> int:
    """The number above 0 that a word names."""
    if not re.fullmatch("[1-9][0-9]{0,8}", text):
        raise argparse.ArgumentTypeError(f"'{text}' is no number above 0")
    return int(text)


def delimiter(text: str) -> str:
    """The character that a word names."""
    text = {"tab": "\t", r"\t": "\t"}.get(text, text)
    if len(text) != 1 or text in '"\r\n':
        raise argparse.ArgumentTypeError("a delimiter is one character, or tab")
    return text


def shared(parser: argparse.ArgumentParser) -> None:
    """What every command has."""
    group = parser.add_argument_group("what is printed")
    group.add_argument("--json", action="store_true", help="print one JSON object a result, refusals too")
    group.add_argument("--color", choices=("auto", "always", "never"), default="auto", metavar="WHEN",
                       help="colours on standard error: auto (on a terminal, without NO_COLOR), always or never")


def before(parser: argparse.ArgumentParser) -> None:
    """Texts before the text."""
    parser.add_argument("--with", dest="before", metavar="FILE", action="append", default=[],
                        help="put a file before; a name as si, without / and .um, is a file of the library "
                             "(repeatable)")


def file(parser: argparse.ArgumentParser, what: str = "a program; - is standard input") -> None:
    """The one file of a command."""
    parser.add_argument("file", metavar="FILE", help=what)


def files(parser: argparse.ArgumentParser) -> None:
    """The files of a command."""
    parser.add_argument("files", metavar="FILE", nargs="+", help="a program; - is standard input")


def output(parser: argparse._ActionsContainer, what: str) -> None:
    """A file for the answer."""
    parser.add_argument("-o", "--output", metavar="FILE", help=what)


def function(parser: argparse.ArgumentParser) -> None:
    """The function of a call."""
    parser.add_argument("function", metavar="NAME", help="a function of the program")


def arguments(parser: argparse.ArgumentParser) -> None:
    """The arguments of a call."""
    parser.add_argument("arguments", metavar="ARG", nargs="*", default=[],
                        help="an argument, as '2<kg>', '[1<m>; 2<m>]' or true; @FILE reads it from a file")


def sizes(parser: argparse.ArgumentParser) -> None:
    """New sizes of base units."""
    parser.add_argument("sizes", metavar="SIZES", help="how many of the new size make one of the old, each above 0, as "
                                                       "m=100,s=1000 or cent=0.01")


def budget(parser: argparse.ArgumentParser) -> None:
    """The budget of a call."""
    parser.add_argument("--budget", metavar="N", default=BUDGET,
                        help=f"how many calls the run may make at most (default: {int(BUDGET):,}, the most there is)")


def run_limits(parser: argparse.ArgumentParser) -> None:
    """The limits of a run."""
    group = parser.add_argument_group("limits of the run", "When one is reached the run ends, with the exit status "
                                      f"{int(Exit.LIMIT)}.")
    group.add_argument("--limit-time", metavar="SECONDS", type=seconds, default=None,
                       help="at most this time, as 2 or 0.5 (default: none)")
    group.add_argument("--limit-memory", metavar="SIZE", type=size, default=limits.DEFAULT_MEMORY,
                       help="at most this memory, as 500M or 2G; Linux tells how much is held "
                            f"(default: {limits.DEFAULT_MEMORY >> 30}G)")
    group.add_argument("--limit-output", metavar="SIZE", type=size, default=limits.DEFAULT_OUTPUT,
                       help=f"at most so long an answer, as 10M (default: {limits.DEFAULT_OUTPUT >> 20}M)")


def parse(parser: argparse.ArgumentParser, words: Sequence[str]) -> argparse.Namespace:
    """The words of a command, with options anywhere among them, unless the rest of the words belongs to another."""
    if any(action.nargs == argparse.REMAINDER for action in parser._actions):
        return parser.parse_args(list(words))
    return parser.parse_intermixed_args(list(words))
