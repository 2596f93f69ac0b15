"""What `um` itself can't do, each with its exit status.

The statuses 0 to 22 are the program's, and `um` hands them on. Its own are those of `sysexits.h`, and 124 for a limit,
as `timeout` has it.
"""
from enum import IntEnum


class Exit(IntEnum):
    """The exit statuses of `um` that aren't the program's."""

    NOT_TIDY = 1        # tidy --check, which has no status of the program but 0, 2, 3, 4, 5 and 6
    WRITE = 16          # the program's own status for this
    USAGE = 64
    DATA = 65
    NO_INPUT = 66
    UNAVAILABLE = 69
    SOFTWARE = 70
    CANNOT_CREATE = 73
    LIMIT = 124


class UmError(Exception):
    """An error of `um` itself: one line for a person, and the exit status."""

    status = Exit.SOFTWARE
    kind = "um"

    def __init__(self, message: str, file: str | None = None):
        super().__init__(message)
        self.message = message
        self.file = file

    def __str__(self) -> str:
        return f"{self.file}: {self.message}" if self.file else self.message


class UsageError(UmError):
    """The words of the command line can't be what was meant."""

    status, kind = Exit.USAGE, "words"


class DataError(UmError):
    """A table of data can't be read as such."""

    status, kind = Exit.DATA, "data"


class InputError(UmError):
    """A file can't be read."""

    status, kind = Exit.NO_INPUT, "file"


class Unavailable(UmError):
    """There is no program, or it lacks a command."""

    status, kind = Exit.UNAVAILABLE, "program"


class OutputError(UmError):
    """A file can't be written."""

    status, kind = Exit.CANNOT_CREATE, "output"


class LimitReached(UmError):
    """A run came to one of the limits of --limit-time, --limit-memory and --limit-output."""

    status, kind = Exit.LIMIT, "limit"


class WordsTooLong(UmError):
    """The system takes no command line of this length."""

    status, kind = Exit.USAGE, "words"


class Crashed(UmError):
    """The program ended by a signal, or in a way that it never should."""

    kind = "program"

    def __init__(self, message: str, status: int):
        super().__init__(message)
        self.status = status  # type: ignore[assignment]


class Stopped(BaseException):
    """A signal asks `um` to end: it ends the program first, and then itself by the same signal."""

    def __init__(self, signal: int):
        super().__init__(signal)
        self.signal = signal
