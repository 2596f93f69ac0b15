"""The man page um.1, made of the help of the commands: `python3 -m umc.manual > um.1`."""
import argparse
import sys

from collections import Counter

from umc import cli, version
from umc.commands import COMMANDS, Command

HEAD = """\
.\\" Made by python3 -m umc.manual of the help of the commands.
.TH UM 1 "" "um {version}" "Programs with units of measure"
.SH NAME
um \\- programs with units of measure, for everyday use
.SH SYNOPSIS
.B um
.I COMMAND WORD ...
.br
.B um
.BR \\-\\-help " | " \\-\\-version
.SH DESCRIPTION
.B um
asks the proved program
.BR umc (1)
about programs with units of measure, and shows what it answers. Answers stand on standard output. Refusals stand on
standard error, in the form that compilers use, followed by an explanation where the program has one:
.PP
.EX
FILE:LINE:COLUMN: error 9: units of f
.EE
.PP
A FILE that is \\- is standard input.
.SH COMMANDS
"""
TAIL = """\
.SH SEE ALSO
.BR umc (1)
"""


Part = tuple[str, str]
# What more commands than these have is described once.
FEW = 4


def escaped(text: str) -> str:
    """A text that means itself on a man page."""
    lines = text.replace("\\", "\\e").replace("-", "\\-").replace("'", "\\(aq").split("\n")
    return "\n".join(f"\\&{line}" if line.startswith(".") else line for line in lines)


def page() -> str:
    """The whole page."""
    parsers = {name: command.parser() for name, command in COMMANDS.items()}
    counts = Counter(part for parser in parsers.values() for part in _parts(parser))
    common = [part for part, count in counts.items() if count > FEW]
    commands = [_command(COMMANDS[name], parser, common) for name, parser in parsers.items()]
    return "".join([HEAD.format(version=version.number()), *commands, ".SH OPTIONS OF MANY COMMANDS\n",
                    "".join(map(_part, common)), _last(), TAIL])


def _parts(parser: argparse.ArgumentParser) -> list[Part]:
    """The words and options of a command, each with its help."""
    return [(_words(action), _help(parser, action)) for action in parser._actions if action.dest != "help"]


def _part(part: Part) -> str:
    return f".TP\n.B {escaped(part[0])}\n{escaped(part[1])}\n"


def _command(command: Command, parser: argparse.ArgumentParser, common: list[Part]) -> str:
    lines = [f".SS {escaped(parser.prog)}", escaped(command.sentence()), escaped(command.text), ".PP",
             f"\\fB{escaped(_usage(parser))}\\fR"]
    parts = "".join(_part(part) for part in _parts(parser) if part not in common)
    examples = ""
    for example in command.examples:
        line = escaped(example.line.replace("./um ", "um "))
        examples += f".PP\n.EX\n$ {line}\n{escaped(example.output)}.EE\n"
    return "\n".join(lines) + "\n" + parts + examples


def _usage(parser: argparse.ArgumentParser) -> str:
    return " ".join(parser.format_usage().removeprefix("usage: ").split())


def _words(action: argparse.Action) -> str:
    name = action.metavar if isinstance(action.metavar, str) else action.dest
    if not action.option_strings:
        return name
    return ", ".join(action.option_strings) + ("" if action.nargs == 0 else f" {name}")


def _help(parser: argparse.ArgumentParser, action: argparse.Action) -> str:
    return parser._get_formatter()._expand_help(action)


def _last() -> str:
    """What stands at the end of the overview: the environment and the exit status."""
    lines: list[str] = []
    for line in cli.LAST.splitlines()[1:]:
        if line.endswith(":"):
            lines += [*([".EE"] if lines else []), f".SH {line.removesuffix(':').upper()}", ".EX"]
        elif line:
            lines.append(escaped(line.removeprefix("  ")))
    return "\n".join([*lines, ".EE"]) + "\n"


if __name__ == "__main__":
    sys.stdout.write(page())
