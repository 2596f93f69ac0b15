"""Signals that end or stop `um`, and with it the program that it asks.

A signal that ends raises Stopped where it comes, so that what was begun is ended too. While something must not be
left half done, signals are held: they take effect right after it. Python drops what is raised in a destructor; where
something new begins, `check` raises it once more.
"""
import os
import signal
import sys
import threading
from collections.abc import Iterator
from contextlib import contextmanager, suppress
from types import FrameType

from umc.errors import Stopped

ENDING = (signal.SIGINT, signal.SIGTERM, signal.SIGHUP, signal.SIGQUIT)

# The process groups of the programs that run.
running: set[int] = set()
# Held from a program's start until it is among those that run, so that no signal to all of them leaves one out.
starting = threading.RLock()
_pending: list[int] = []
_holding = False
# The signal that ends this process, once it came.
_ending: int | None = None


def install() -> None:
    """Takes the signals, but for those that whoever started `um` has it ignore."""
    for number in (*ENDING, signal.SIGTSTP):
        if signal.getsignal(number) in (signal.SIG_DFL, signal.default_int_handler):
            signal.signal(number, _receive)
    sys.unraisablehook = _unraisable


def _receive(number: int, frame: FrameType | None) -> None:
    if _holding:
        _pending.append(number)
    else:
        _act(number)


def _act(number: int) -> None:
    global _ending
    if number == signal.SIGTSTP:
        _pause()
    elif _ending is None:
        _ending = number
        raise Stopped(number)


def check() -> None:
    """Raises Stopped if a signal has come that ends this process, and nothing of it was noticed."""
    if _ending is not None:
        raise Stopped(_ending)


def _unraisable(unraisable: "sys.UnraisableHookArgs") -> None:
    """Tells what was dropped, but for a signal, which `check` raises once more."""
    if not isinstance(unraisable.exc_value, Stopped):
        sys.__unraisablehook__(unraisable)


def _pause() -> None:
    """Stops the programs that run, and this process, until it is continued."""
    _send(signal.SIGSTOP)
    os.kill(os.getpid(), signal.SIGSTOP)
    _send(signal.SIGCONT)


def _send(number: int) -> None:
    with starting:
        for group in list(running):
            with suppress(ProcessLookupError):
                os.killpg(group, number)


@contextmanager
def held() -> Iterator[None]:
    """Signals that come in this block take effect after it, however it ends. They come in the main thread, so others
    hold none."""
    if not _is_main():
        yield
        return
    check()
    try:
        with _set(True):
            yield
    finally:
        while _pending and not _holding:
            _act(_pending.pop(0))


@contextmanager
def allowed() -> Iterator[None]:
    """A part of a block of `held` in which signals take effect at once."""
    if not _is_main():
        yield
        return
    with _set(False):
        while _pending:
            _act(_pending.pop(0))
        yield


def _is_main() -> bool:
    return threading.current_thread() is threading.main_thread()


@contextmanager
def _set(holding: bool) -> Iterator[None]:
    global _holding
    before, _holding = _holding, holding
    try:
        yield
    finally:
        _holding = before


def end_by(number: int) -> None:
    """Ends this process by a signal, so that whoever started it sees the signal, and what other threads still ask."""
    starting.acquire()   # never released: no other thread starts a program any more
    _send(signal.SIGTERM)
    signal.signal(number, signal.SIG_DFL)
    os.kill(os.getpid(), number)
