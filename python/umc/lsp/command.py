"""`um lsp`: the language server over standard input and output."""
import argparse
import gc
import logging
import os
import signal
import sys
from contextlib import suppress
from pathlib import Path
from types import FrameType

from umc import signals
from umc.errors import Unavailable, UsageError
from umc.front import Front
from umc.lsp.library import Libraries
from umc.texts import STANDARD_INPUT

DEBIAN = "/usr/bin/python3"
NEEDED = "the language server needs Debian's package python3-pylsp-jsonrpc"
# Readings are large trees that mostly stay, so that looking for garbage often only costs time.
OBJECTS_BEFORE_COLLECTION = 100_000
# While one thread reads a text, others start the program or take the next message: they don't wait for long.
TURN_OF_A_THREAD = 0.0005


def run(args: argparse.Namespace, front: Front) -> int:
    """Answers an editor until it ends the session, and gives the exit status."""
    try:
        from umc.lsp.server import Server
    except ImportError as fault:
        _go_on_with_debian()
        raise Unavailable(f"{NEEDED} ({fault})") from fault
    logging.basicConfig(stream=sys.stderr, level=logging.WARNING, format="um lsp: %(message)s")
    # The transport reports each error that is answered to the client as a fault of its own.
    logging.getLogger("pylsp_jsonrpc").setLevel(logging.CRITICAL)
    if STANDARD_INPUT in args.before:
        raise UsageError("an editor writes to standard input, so that no file can be read from it")
    program = front.program
    Libraries(program, args.before).read([], "")
    for number in signals.ENDING:
        signal.signal(number, _end)
    gc.set_threshold(OBJECTS_BEFORE_COLLECTION)
    sys.setswitchinterval(TURN_OF_A_THREAD)
    sink, sys.stdout = sys.stdout.buffer, sys.stderr
    return Server(program, sys.stdin.buffer, sink, args.before).serve()


def _go_on_with_debian() -> None:
    """Carries the same words out by Debian's Python, which has Debian's packages, if this is another Python."""
    if os.access(DEBIAN, os.X_OK) and os.path.realpath(sys.executable) != os.path.realpath(DEBIAN):
        os.environ["PYTHONPATH"] = str(Path(__file__).resolve().parents[2])
        os.execv(DEBIAN, [DEBIAN, "-m", "umc", *sys.argv[1:]])


def _end(number: int, frame: FrameType | None) -> None:
    """Ends the programs that run, and this process by the same signal."""
    for group in list(signals.running):
        with suppress(ProcessLookupError):
            os.killpg(group, signal.SIGKILL)
    signals.end_by(number)
