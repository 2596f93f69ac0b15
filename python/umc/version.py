"""The version of `um`, which stands in one file."""
from pathlib import Path

from umc.errors import UmError
from umc.program import HOME, find

# In a checkout the file is at its top; an installation puts it into the package.
FILES = (HOME / "VERSION", Path(__file__).resolve().parent / "VERSION")


def number() -> str:
    """The version's number."""
    for file in FILES:
        try:
            return file.read_text().strip()
        except OSError:
            continue
    return "unknown"


def version() -> str:
    """What `um --version` prints: the version, and the program that is asked."""
    try:
        program = str(find().path)
    except UmError as error:
        program = f"none ({error.message})"
    return f"um {number()}\nprogram: {program}\n"
