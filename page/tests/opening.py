"""How a tool opens the page in a browser: the built one, or one that asks a program in the place of the module."""
import argparse
import shlex
import shutil
import sys
import tempfile
from collections.abc import Iterator, Sequence
from contextlib import contextmanager
from pathlib import Path

PAGE = Path(__file__).resolve().parents[1]
sys.path.insert(0, str(PAGE))

import bundle
from browser import OUT, Browser, Fault, Programs, chromium


def add_words(reader: argparse.ArgumentParser) -> None:
    """The words that say which page is opened."""
    reader.add_argument("--page", metavar="FILE", type=Path, default=OUT / "umc.html")
    reader.add_argument("--stand-in", metavar="PROGRAM")


def check_programs(reader: argparse.ArgumentParser, *programs: str | None) -> None:
    """Ends the tool unless each program that is named is there."""
    for program in filter(None, programs):
        if not shutil.which(shlex.split(program)[0]):
            reader.error(f"there is no program {program}")


def stand_in() -> Path:
    """A page that asks the driver in the place of a module."""
    OUT.mkdir(exist_ok=True)
    file = OUT / "stand-in.html"
    file.write_text(bundle.page(b"", {"engine": PAGE / "tests/stand_in.js"}), encoding="utf-8")
    return file


def address_of(options: argparse.Namespace) -> str:
    """The address of the page that the words name."""
    if not options.stand_in and not options.page.is_file():
        raise Fault(f"there is no page {options.page}: page/build makes it, and --stand-in needs none")
    file: Path = stand_in() if options.stand_in else options.page
    return file.absolute().as_uri()


@contextmanager
def opened(programs: Sequence[str] = ()) -> Iterator[tuple[Browser, str]]:
    """A browser, and a folder for files, both for as long as they are used. The programs answer a page without a
    module."""
    path = chromium()
    with tempfile.TemporaryDirectory(ignore_cleanup_errors=True) as folder:
        browser = Browser(path, folder, Programs(programs) if programs else None)
        try:
            yield browser, folder
        finally:
            browser.end()
