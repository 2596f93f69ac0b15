"""The command watch: answers again whenever a file changes."""
import argparse
import os
import select
import sys
import time
from pathlib import Path

from umc import options, signals
from umc.commands import COMMANDS
from umc.errors import UmError, UsageError
from umc.front import Front
from umc.texts import STANDARD_INPUT, gathered

CLEAR = b"\x1b[H\x1b[2J\x1b[3J"
NOT_WATCHED = ("watch", "completion", "table", "calls")
SECONDS = 0.2


def run(args: argparse.Namespace, front: Front) -> int:
    """Asks, waits for a change of one of the files, and asks again."""
    asked = _asked(args)
    before = getattr(asked, "before", [])
    if STANDARD_INPUT in [args.file, *before]:
        raise UsageError("standard input can't be watched")
    state: list[object] = []
    while True:
        found = [(name, _state(Path(name))) for name in _names(args.file, before, front)]
        if found != state:
            state = list(found)
            _answer(asked)
        _check_output()
        signals.check()
        time.sleep(SECONDS)


def _check_output() -> None:
    """Raises BrokenPipeError if nobody can read the answers any more."""
    if sys.stdout is None:
        return
    poll = select.poll()
    poll.register(sys.stdout.fileno(), 0)
    if any(event & (select.POLLERR | select.POLLHUP) for _, event in poll.poll(0)):
        raise BrokenPipeError


def _names(file: str, before: list[str], front: Front) -> list[str]:
    """The files that the answer depends on; as far as they are known, if one isn't there."""
    try:
        return gathered(file, before, front.program).names
    except UmError:
        return [file, *before]


def _asked(args: argparse.Namespace) -> argparse.Namespace:
    """The words of the command that answers each time."""
    words = args.rest if args.rest and not args.rest[0].startswith("-") else ["types", *args.rest]
    if words[0] not in COMMANDS or words[0] in NOT_WATCHED:
        raise UsageError(f"'{words[0]}' is no command that can be watched")
    file = f"./{args.file}" if args.file.startswith("-") and args.file != STANDARD_INPUT else args.file
    shared = ["--color", args.color] + (["--json"] if args.json else [])
    asked = options.parse(COMMANDS[words[0]].parser(), [*shared, file, *words[1:]])
    asked.command = words[0]
    return asked


def _answer(asked: argparse.Namespace) -> None:
    from umc.cli import carry_out
    if sys.stdout is not None and sys.stdout.isatty():
        os.write(sys.stdout.fileno(), CLEAR)
    carry_out(asked)


def _state(file: Path) -> tuple[int, int, int] | None:
    """What changes when a file is written anew."""
    try:
        found = file.stat()
    except OSError:
        return None
    return found.st_mtime_ns, found.st_size, found.st_ino
