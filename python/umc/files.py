"""Files that are written as a whole: the old content stays until all of the new one is there."""
import os
import tempfile
from contextlib import suppress
from pathlib import Path
from typing import BinaryIO

from umc.errors import OutputError


class WholeFile:
    """A file that is written beside the one whose place it takes in the end. A device or a pipe is written at once."""

    def __init__(self, name: str):
        self.name, self.path = name, Path(os.path.realpath(name))
        self._beside: str | None = None
        try:
            given = Path(name)  # the path of a pipe, as of /dev/stdout, leads to no file
            if given.exists() and not given.is_file():
                self._sink: BinaryIO = open(name, "wb", buffering=0)
            else:
                handle, self._beside = tempfile.mkstemp(prefix=f".{self.path.name[:100]}.", dir=self.path.parent)
                self._sink = open(handle, "wb", buffering=0)
        except OSError as fault:
            raise self._wrong(fault) from fault

    def write(self, data: bytes) -> None:
        """Writes all of these bytes."""
        left = memoryview(data)
        try:
            while left:
                left = left[self._sink.write(left):]
        except OSError as fault:
            self.drop()
            raise self._wrong(fault) from fault

    def keep(self) -> None:
        """Puts what was written in the file's place."""
        try:
            if self._beside:
                self._take_rights()
                os.replace(self._beside, self.path)
                self._beside = None
        except OSError as fault:
            raise self._wrong(fault) from fault
        finally:
            self.drop()

    def _take_rights(self) -> None:
        """Gives what was written the owner and the rights of the file, as far as that is allowed."""
        new = self._sink.fileno()
        if not self.path.exists():
            os.fchmod(new, 0o666 & ~_umask())
            return
        old = self.path.stat()
        with suppress(PermissionError):
            os.fchown(new, old.st_uid, old.st_gid)
        os.fchmod(new, old.st_mode & 0o7777)

    def drop(self) -> None:
        """Lets go of what was written and not kept."""
        self._sink.close()
        if self._beside:
            os.unlink(self._beside)
            self._beside = None

    def _wrong(self, fault: OSError) -> OutputError:
        return OutputError(fault.strerror or str(fault), self.name)


def save(name: str, data: bytes) -> None:
    """Writes a file as a whole."""
    file = WholeFile(name)
    file.write(data)
    file.keep()


def _umask() -> int:
    mask = os.umask(0)
    os.umask(mask)
    return mask
