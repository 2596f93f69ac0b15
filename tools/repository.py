"""What the tools know of the repository: where it is, which crates stand on which, and how its crates are copied."""
import os
import shutil
import sys
from collections.abc import Callable, Iterable
from pathlib import Path

ROOT = Path(__file__).resolve().parent.parent
CRATES = ROOT / "crates"


class Stop(Exception):
    """What the user is told as a tool ends early."""


def kit_folder() -> Path:
    """The folder of the kit to which `rt` belongs."""
    rt = shutil.which("rt")
    if not rt:
        raise Stop("rt isn't on PATH: the program is built and proved with the Rattle kit, which has it")
    return Path(rt).resolve().parent.parent


def stands_on() -> dict[str, list[str]]:
    """The libraries that each crate of crates.txt stands on, the repository's and the kit's, in the file's order."""
    found = {}
    for line in (ROOT / "crates.txt").read_text(encoding="utf-8").splitlines():
        head, colon, libraries = line.partition("#")[0].partition(":")
        if colon:
            found[head.split()[0]] = libraries.split()
    return found


def below(crate: str, of: dict[str, list[str]]) -> list[str]:
    """The repository's libraries below this crate, each after those that it stands on."""
    found: list[str] = []
    for name in of[crate]:
        if name in of:
            found += [it for it in [*below(name, of), name] if it not in found]
    return found


def copy_crates(names: Iterable[str], folder: Path) -> None:
    """Makes a repository of these crates in the folder, without their must-fail edits and build output."""
    names = list(names)
    unread = shutil.ignore_patterns("out", "must-fail")
    for name in names:
        shutil.copytree(CRATES / name, folder / "crates" / name, ignore=unread)
    lines = (ROOT / "crates.txt").read_text(encoding="utf-8").splitlines(keepends=True)
    of_names = [line for line in lines if line.partition(":")[0].split()[:1] in [[name] for name in names]]
    (folder / "crates.txt").write_text("".join(of_names), encoding="utf-8")
    shutil.copy(ROOT / "HANDLES", folder)
    (folder / ".git").mkdir()  # rt takes the folder with it for the repository's top


def file_fault(fault: OSError) -> str:
    """What is told of a file that can't be opened, or of a program that can't be started."""
    if fault.filename is None:
        return str(fault)
    name = os.fsdecode(fault.filename)
    return f"{os.path.relpath(name) if Path(name).is_relative_to(Path.cwd()) else name}: {fault.strerror}"


def quietly(main: Callable[[], int | None]) -> int:
    """The status of a tool's main function; 141, as a shell tells it, if its output was closed before it ended.

    A file or a program that isn't there is told in a line, and the status is 2.
    """
    try:
        status = main() or 0
        sys.stdout.flush()
        return status
    except BrokenPipeError:
        os.dup2(os.open(os.devnull, os.O_WRONLY), sys.stdout.fileno())
        return 141
    except (FileNotFoundError, PermissionError, IsADirectoryError) as fault:
        print(f"{Path(sys.argv[0]).name}: {file_fault(fault)}", file=sys.stderr)
        return 2
