"""The commands of `um`: what each is for, its words, an example, and what carries it out."""
import argparse
from collections.abc import Callable
from dataclasses import dataclass
from importlib import import_module

from umc import options
from umc.front import Front


@dataclass(frozen=True)
class Example:
    """A command line, which is run from the top of a checkout, and what it prints."""

    line: str
    output: str


@dataclass(frozen=True)
class Command:
    """A command of `um`. `needs` is the command of umc that it can't do without, if not every program has it."""

    name: str
    usage: str
    summary: str
    text: str
    words: Callable[[argparse.ArgumentParser], None]
    carrier: str
    examples: tuple[Example, ...]
    needs: str | None = None

    def parser(self) -> options.Parser:
        """The parser of the words after the command's name, whose help is the command's page."""
        parser = options.Parser(prog=f"um {self.name}", usage=f"%(prog)s [OPTION..] {self.usage}".rstrip(),
                                description=f"{self.sentence()}\n\n{self.text}", epilog=self.epilog())
        self.words(parser)
        options.shared(parser)
        return parser

    def sentence(self) -> str:
        """The summary as a sentence."""
        return f"{self.summary[0].upper()}{self.summary[1:]}."

    def epilog(self) -> str:
        """The examples as they are shown."""
        lines = ["examples:" if len(self.examples) > 1 else "example:"]
        for example in self.examples:
            lines += [f"  $ {example.line}", *(f"  {line}" for line in example.output.splitlines())]
        return "\n".join(lines)

    def run(self, args: argparse.Namespace, front: Front) -> int:
        """Carries the command out, and gives the exit status."""
        module, _, name = self.carrier.partition(":")
        carry_out: Callable[[argparse.Namespace, Front], int] = getattr(import_module(f"umc.{module}"), name)
        return carry_out(args, front)


def _texts(what_output: str | None = None) -> Callable[[argparse.ArgumentParser], None]:
    def words(parser: argparse.ArgumentParser) -> None:
        options.files(parser)
        options.before(parser)
        options.output(parser, what_output or "write the answers to a file, once none is refused")
    return words


def _functions(parser: argparse.ArgumentParser) -> None:
    _texts()(parser)
    parser.add_argument("--own", action="store_true", help="leave out the functions of the files before FILE")


def _image(parser: argparse.ArgumentParser) -> None:
    parser.add_argument("files", metavar="FILE", help="a program; - is standard input")
    options.before(parser)
    options.output(parser, "the file to write; without it the bytes go to standard output")


def _rescale(parser: argparse.ArgumentParser) -> None:
    parser.add_argument("files", metavar="FILE", help="a program; - is standard input")
    options.sizes(parser)
    options.before(parser)
    options.output(parser, "write the text to a file, unless it is refused")


def _tidy(parser: argparse.ArgumentParser) -> None:
    options.files(parser)
    group = parser.add_mutually_exclusive_group()
    group.add_argument("-w", "--write", action="store_true", help="lay the files out in place")
    group.add_argument("--check", action="store_true", help="name the files that aren't laid out so, and end with 1")


def _call(parser: argparse.ArgumentParser) -> None:
    options.file(parser)
    options.function(parser)
    options.arguments(parser)
    options.before(parser)
    options.budget(parser)
    options.run_limits(parser)


def _exec(parser: argparse.ArgumentParser) -> None:
    parser.add_argument("file", metavar="IMAGE", help="an image, which um image writes; - is standard input")
    options.function(parser)
    options.arguments(parser)
    options.budget(parser)
    options.run_limits(parser)
    parser.set_defaults(before=[])


def _show(parser: argparse.ArgumentParser) -> None:
    _call(parser)
    parser.add_argument("--digits", metavar="N", default="6", help="how many digits after the point, 0 to 18 "
                        "(default: 6)")
    parser.add_argument("--unit", metavar="UNIT", action="append", default=[],
                        help="print numbers of this unit in it: a unit, as J, or a name with its size, as "
                             "'ft=0.3048<m>' (repeatable; the first that fits is taken)")


def _twin(parser: argparse.ArgumentParser) -> None:
    options.file(parser)
    options.sizes(parser)
    options.function(parser)
    options.arguments(parser)
    options.before(parser)
    options.budget(parser)
    options.run_limits(parser)


def _conform(parser: argparse.ArgumentParser) -> None:
    options.file(parser)
    parser.add_argument("signature", metavar="NAME TYPE", nargs="+",
                        help="a function and the type that it is held to; or SIGFILE, a file with a line NAME : TYPE "
                             "for each function, blank lines, and comments after #")
    options.before(parser)


def _table(parser: argparse.ArgumentParser) -> None:
    options.file(parser)
    options.function(parser)
    parser.add_argument("data", metavar="DATA.csv", help="a table whose first line has the names of its columns, each "
                        "with its unit as in 'mass [kg]'; - is standard input")
    group = parser.add_argument_group("the data")
    group.add_argument("--columns", metavar="A,B", help="the columns of the function's arguments, in their order "
                       "(default: all, as they stand)")
    group.add_argument("--units", metavar="U,V", help="the units of these columns; an empty one leaves the header's")
    group.add_argument("--lists", action="store_true", help="make one call, with each column as a list")
    group.add_argument("--delimiter", metavar="SIGN", type=options.delimiter, default=",",
                       help="what stands between cells, in and out: a character, or tab (default: ,)")
    group.add_argument("--chunk", metavar="ROWS", type=options.positive, default=10000,
                       help="hand so many rows to one run of the program, which the limits are for "
                            "(default: 10,000)")
    group = parser.add_argument_group("the results")
    options.output(group, "write the results to a file")
    group.add_argument("--digits", metavar="N", type=options.digits, default=None,
                       help="round numbers to N digits after the point, to the nearest and of two to the even one "
                            "(default: exact, 1/3 where no decimal is)")
    group.add_argument("--only-results", action="store_true", help="leave the columns of the data out")
    group.add_argument("--keep-going", action="store_true", help="tell the rows that are refused, and write the rest")
    options.before(parser)
    options.budget(parser)
    options.run_limits(parser)


def _calls(parser: argparse.ArgumentParser) -> None:
    options.file(parser)
    parser.add_argument("calls", metavar="CALLS", help="a file with a call on each line: a function and its arguments, "
                        "with a tab between each two; - is standard input")
    parser.add_argument("--check", action="store_true", help="tell each refused call on standard error too, and end "
                        "with the status of the first")
    options.before(parser)
    options.budget(parser)
    options.run_limits(parser)


def _watch(parser: argparse.ArgumentParser) -> None:
    options.file(parser, "the program to watch")
    parser.add_argument("rest", metavar="COMMAND WORD..", nargs=argparse.REMAINDER,
                        help="what to ask, with the words and options that stand after its FILE (default: types)")


def _lsp(parser: argparse.ArgumentParser) -> None:
    parser.add_argument("--stdio", action="store_true", help="use standard input and output, as it always does")
    options.before(parser)


def _completion(parser: argparse.ArgumentParser) -> None:
    parser.add_argument("shell", metavar="SHELL", choices=("bash", "zsh", "fish"), help="bash, zsh or fish")


COMMANDS: dict[str, Command] = {command.name: command for command in (
    Command(
        "types", "FILE..",
        "prints the type of each function",
        "Each function has a line: its name, the types of its parameters, and that of its result. A unit that the\n"
        "function leaves open is 'a, 'b and so on. With several files each is answered in turn.\n"
        "A file whose first line is '// with: si list' stands after these files of the library, without --with.",
        _functions, "text_commands:run",
        (Example("./um types examples/mean.um",
                 "total : num<'a> list -> num<'a>\ncount : num<'a> list -> num\nmean : num<'a> list -> num<'a>\n"),)),
    Command(
        "run", "FILE NAME [ARG..]",
        "calls a function and prints its value",
        "Values are exact: a number is a fraction in lowest terms, as 7r2, with its unit.",
        _call, "call_commands:run",
        (Example("./um run examples/vehicle.um mean '[1<m>; 2<m>; 6<m>]'", "3<m>\n"),
         Example("./um run examples/vehicle.um kinetic '2<kg>' '3<m/s>'", "9<kg m^2/s^2>\n"))),
    Command(
        "show", "FILE NAME [ARG..]",
        "calls a function and prints its value in decimals and in units that one names",
        "A number that had to be rounded has ~ in front.",
        _show, "call_commands:run",
        (Example("./um show examples/vehicle.um kinetic '2<kg>' '3.5<m/s>' --digits 2 --unit J", "12.25<J>\n"),
         Example("./um show examples/vehicle.um metres '10<ft>' --digits 3 --unit 'yd=0.9144<m>'", "~3.333<yd>\n")),
        "show"),
    Command(
        "trace", "FILE NAME [ARG..]",
        "calls a function, and says where a run went wrong",
        "The answer is that of run. Where the run divides by zero, overflows or comes to the end of its budget, the\n"
        "answer is the place, the operands and the calls that were open.",
        _call, "call_commands:run",
        (Example("./um trace examples/vehicle.um mean '[]'",
                 "error 12: division by zero in mean at 17:37\n"
                 "17 | let mean (l: num<_> list) = total l / count l\n"
                 "   |                                     ^\n"
                 "  left: 0\n  right: 0\n"),),
        "trace"),
    Command(
        "table", "FILE NAME DATA.csv",
        "calls a function on each row of a CSV file",
        "Each column gives an argument, in order or as --columns says. The unit of a column stands in its header, as\n"
        "in 'mass [kg]', or in --units. Numbers are read exactly, as decimals. The results come as columns after\n"
        "those of the data, with their unit in the header; each field of a record is a column.\n"
        "The first row that is refused ends the table; the rows before it are written.",
        _table, "table:run",
        (Example("printf 'car,mass [kg],speed [m/s]\\na,2,3\\nb,1.5,2\\n' | "
                 "./um table examples/vehicle.um kinetic - --columns mass,speed",
                 "car,mass [kg],speed [m/s],kinetic [kg m^2/s^2]\na,2,3,9\nb,1.5,2,3\n"),
         Example("printf 'd [m]\\n1\\n2\\n6\\n' | ./um table examples/vehicle.um mean - --lists",
                 "mean [m]\n3\n")),
        "calls"),
    Command(
        "calls", "FILE CALLS",
        "makes the calls that stand in a file, one a line",
        "The program is read once. Each line is answered by a line: the value, or the report line of a refusal. An\n"
        "empty line is answered by an empty line. Each call has the whole budget. The limits of the run are for\n"
        "about 4 MiB of lines, which one run of the program answers.",
        _calls, "calls:run",
        (Example("printf 'kinetic\\t2<kg>\\t3<m/s>\\nmean\\t[1<m>; 2<m>]\\nmean\\t[]\\n' | "
                 "./um calls examples/vehicle.um -",
                 "9<kg m^2/s^2>\n3r2<m>\nerror 12: division by zero\n"),),
        "calls"),
    Command(
        "tidy", "FILE..",
        "lays a program out, with its comments and line breaks",
        "Without an option the program is printed.",
        _tidy, "text_commands:tidy",
        (Example("printf 'let  k=2.50//half of it\\n' | ./um tidy -", "let k = 2.50 //half of it\n"),
         Example("./um tidy --check examples/mean.um", "")),
        "tidy"),
    Command(
        "fmt", "FILE..",
        "prints a program with one declaration a line, without comments",
        "Numbers are printed as fractions in lowest terms. um tidy keeps comments, lines and numbers.",
        _texts(), "text_commands:run",
        (Example("echo 'let  k=2.50//c' | ./um fmt -", "let k = 5r2\n"),)),
    Command(
        "annot", "FILE..",
        "prints the type of each part of each function",
        "After the line of a function come its parts: line, column and type of each.",
        _functions, "text_commands:run",
        (Example("./um annot examples/area.um",
                 "area : num<m> -> num<m> -> num<m^2>\n  2:36 num<m>\n  2:38 num<m^2>\n  2:40 num<m>\n"),),
        "annot"),
    Command(
        "conform", "FILE NAME TYPE | FILE SIGFILE",
        "holds functions to signatures",
        "A function conforms where it may be used at the type, whatever units stand for its unit variables.",
        _conform, "conform:run",
        (Example("./um conform examples/vehicle.um kinetic 'num<kg> -> num<m/s> -> num<J>'", "kinetic conforms\n"),
         Example("./um conform examples/mechanics.um examples/mechanics.sig",
                 "square conforms\nratio conforms\ntotal conforms\ncentre conforms\ncentre conforms\n"
                 "kinetic conforms\nwork conforms\nmove conforms\n"))),
    Command(
        "rescale", "FILE SIZES",
        "prints a program with its numbers in other sizes of its base units",
        "The names of the units stay, and so does every other byte of the text.",
        _rescale, "text_commands:run",
        (Example("./um rescale examples/bill.um cent=0.01",
                 "[<Measure>] type cent\n[<Measure>] type item\n[<Measure>] type each = cent/item\n"
                 "let price = 25r2<each> // of one item\nlet postage = 3<cent>\nlet bill (n: num<item>) =\n"
                 "  let sum = price * n + postage in\n  sum - 0.05 * sum\n"),)),
    Command(
        "twin", "FILE SIZES NAME [ARG..]",
        "makes one call in two sizes of the base units",
        "The first line is the value, the second that of the rescaled program on rescaled arguments.",
        _twin, "call_commands:run",
        (Example("./um twin examples/bill.um cent=0.01 bill '4<item>'", "5035<cent>\n1007r20<cent>\n"),)),
    Command(
        "prove", "FILE..",
        "prints a certificate of each function's type",
        "It can be checked with sums of whole numbers, without trust in the program.",
        _functions, "text_commands:run",
        (Example("./um prove examples/refusals/units.um", "total no 1 2\n  rows: 0*1\n"),)),
    Command(
        "code", "FILE..",
        "prints the compiled code",
        "Each function has a line with its name and the number of its parameters, and then its instructions.",
        _functions, "text_commands:run",
        (Example("./um code examples/area.um", "area 2\n0 load 0\n1 load 1\n2 mul\n3 ret\n"),)),
    Command(
        "steps", "FILE NAME [ARG..]",
        "calls a function, and counts the steps of its code",
        "The second line says how many steps the machine made.",
        _call, "call_commands:run",
        (Example("./um steps examples/area.um area '2<m>' '3<m>'", "6<m^2>\nsteps 4\n"),)),
    Command(
        "eval", "FILE NAME [ARG..]",
        "calls a function by its syntax tree",
        "The answer is that of run, which goes by the compiled code.",
        _call, "call_commands:run",
        (Example("./um eval examples/vehicle.um metres '10<ft>'", "381r125<m>\n"),)),
    Command(
        "image", "FILE",
        "writes the compiled code as bytes",
        "An image can be handed on without the program's text, and um exec calls its functions.",
        _image, "text_commands:run",
        (Example("./um image examples/mean.um | ./um exec - mean '[1; 2; 6]'", "3\n"),)),
    Command(
        "exec", "IMAGE NAME [ARG..]",
        "calls a function of an image",
        "The image is verified before it runs, wherever it comes from. Units aren't in an image.",
        _exec, "call_commands:run",
        (Example("./um exec examples/mean.umi mean '[1; 2; 6]'", "3\n"),)),
    Command(
        "watch", "FILE [COMMAND WORD..]",
        "answers again whenever a file changes",
        "The files before it are watched too. It ends at Ctrl-C, and when its output is closed.",
        _watch, "watch:run",
        (Example("./um watch examples/area.um run area '2<m>' '3<m>' | head -n 1", "6<m^2>\n"),)),
    Command(
        "lsp", "",
        "answers an editor: a language server over standard input and output",
        "An editor starts it; editors/README.md says how. It needs Debian's package python3-pylsp-jsonrpc. If the\n"
        "program lacks a command the rest still works: without tidy there is no layout, without annot no types of\n"
        "parts, without explain a refusal has its report alone.",
        _lsp, "lsp.command:run",
        (Example("./um lsp < /dev/null", ""),)),
    Command(
        "completion", "SHELL",
        "prints what a shell needs to complete the words of um",
        "For bash and zsh: eval \"$(um completion bash)\", and for fish: um completion fish | source. Names of\n"
        "functions are completed too, if Debian's python3-argcomplete is there.",
        _completion, "completion:run",
        (Example("./um completion bash | bash -n", ""),)),
)}
