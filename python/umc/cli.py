"""The command line of `um`."""
import argparse
import os
import signal
import sys
from collections.abc import Sequence

from umc import options, signals
from umc.commands import COMMANDS
from umc.errors import Exit, Stopped, UmError
from umc.front import Front
from umc.program import built
from umc.similar import similar
from umc.terminal import Terminal
from umc.version import version

SUMMARY = """um: programs with units of measure, for everyday use

It asks the proved program umc, and shows what it answers: answers on standard output, refusals on standard error,
as FILE:LINE:COLUMN: error N: what, followed by an explanation.
"""
LAST = """um COMMAND --help says more about a command, with an example.

environment:
  UMC       the program that is asked; otherwise the umc of the checkout, otherwise umc on PATH
  UM_PATH   folders in which --with NAME looks for files of the library
  NO_COLOR  if it is set, there are no colours unless --color always asks for them

exit status:
  0         every answer was given
  1         also: tidy --check found a file that isn't laid out so
  1 to 22   the program's status: the number in 'error N'
  64        the words of um itself are wrong       65   a row of a table can't be read
  66        a file can't be read                   69   there is no umc, or it lacks the command
  73        a file can't be written                124  a limit of the run was reached
  128 and more: umc was ended by a signal; 128 and its number
"""
LATER = " (needs a later umc)"
# The commands of umc that um has no command of its own for.
ELSEWHERE = {"explain": "each command says why it refuses a text, as um types FILE",
             "big": "it is a command of umc, and reads no file"}
# Values are at most 400 high, and their trees are read and written by recursion.
DEPTH = 10000


def overview(lacking: Sequence[str]) -> str:
    """The page of `um --help`, for a program that lacks these commands."""
    width = max(map(len, COMMANDS))
    lines = [f"  {command.name.ljust(width)}  {command.summary}{LATER if command.needs in lacking else ''}"
             for command in COMMANDS.values()]
    if "explain" in lacking:
        lines += ["", f"The explanation after a refusal{LATER}."]
    return "\n".join([SUMMARY, "usage: um COMMAND WORD..", "       um --help | --version", "", "commands:", *lines, "",
                      LAST])


def lacking() -> list[str]:
    """What the program lacks, as it says itself. Nothing is known of one that isn't there or isn't built yet."""
    try:
        return built().lacking()
    except UmError:
        return []


def main(words: list[str] | None = None) -> int:
    """Carries out a command line, and gives its exit status. Ends by the signal that ended it, if one did."""
    if "_ARGCOMPLETE" in os.environ:
        from umc.completion import complete
        complete()
    sys.setrecursionlimit(DEPTH)
    try:
        signals.install()
        status = dispatch(sys.argv[1:] if words is None else words)
        if sys.stdout is not None:
            sys.stdout.flush()
        signals.check()
        return status
    except Stopped as stopped:
        _let_go()
        signals.end_by(stopped.signal)
        return 128 + stopped.signal
    except BrokenPipeError:
        _let_go()
        signals.end_by(signal.SIGPIPE)
        return 128 + signal.SIGPIPE
    except OSError as fault:
        Terminal().say(f"um: standard output: {fault.strerror or fault}")
        _let_go()
        return Exit.WRITE


def _let_go() -> None:
    """Keeps Python from writing once more, at its end, what couldn't be written."""
    if sys.stdout is not None:
        os.dup2(os.open(os.devnull, os.O_WRONLY), sys.stdout.fileno())


def dispatch(words: list[str]) -> int:
    """Carries out a command line."""
    first = words[0] if words else "--help"
    if first in ("--help", "-h") or first == "help" and len(words) == 1:
        print(overview(lacking()), end="")
        return 0 if words else Exit.USAGE
    if first == "--version":
        print(version(), end="")
        return 0
    if first == "help":
        words = [words[1], "--help"]
    command = COMMANDS.get(words[0])
    if command is None:
        found = similar(words[0], list(COMMANDS))
        Terminal().say(f"um: there is no command '{words[0]}'; " + ELSEWHERE.get(
            words[0], f"similar: {' '.join(found)}" if found else "um --help lists the commands"))
        return Exit.USAGE
    try:
        args = options.parse(command.parser(), words[1:])
    except SystemExit as ended:
        return ended.code if isinstance(ended.code, int) else Exit.USAGE
    args.command = command.name
    return carry_out(args)


def carry_out(args: argparse.Namespace) -> int:
    """Carries out the words of a command."""
    front = Front(args)
    try:
        return COMMANDS[args.command].run(args, front)
    except UmError as error:
        return front.complain(error)
