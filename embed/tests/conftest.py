"""What the tests of this folder share: the program, the static library, and the libraries that are made of it.

The tests ask the program that UMC names, otherwise the proved program of the checkout. The static library is the one
that UMC_STATIC names, otherwise the proved one. None is built here; what needs one that isn't there is skipped.
"""
import os
import shutil
import subprocess
import sys
from pathlib import Path
from typing import Any

import pytest

HOME = Path(__file__).resolve().parents[2]
PROGRAM = Path(os.environ.get("UMC") or HOME / "crates/umc/out/umc").absolute()
STATIC = Path(os.environ.get("UMC_STATIC") or HOME / "crates/um_embed/out/libum_embed.a").absolute()
VERSION = (HOME / "VERSION").read_text().strip()
DEBIAN = "/usr/bin/python3"
SONAME = "libumc.so.1"


def pytest_configure(config: pytest.Config) -> None:
    """Most of the tests are nothing without a program."""
    if not os.access(PROGRAM, os.X_OK):
        pytest.exit(f"there is no program {PROGRAM}: UMC=PROGRAM names one", returncode=2)


def need(*programs: str) -> None:
    """Skips a test if one of these programs isn't there."""
    for program in programs:
        if shutil.which(program) is None:
            pytest.skip(f"there is no {program}")


def done(*words: str | Path, status: int = 0, **how: Any) -> str:
    """What a command prints, which must end with this status."""
    ran = subprocess.run([str(word) for word in words], capture_output=True, text=True, **how)
    assert ran.returncode == status, f"{words[0]} ended with {ran.returncode}:\n{ran.stdout}{ran.stderr}"
    return ran.stdout


@pytest.fixture(scope="session")
def libraries(tmp_path_factory: pytest.TempPathFactory) -> Path:
    """A folder with libumc.a and libumc.so.1, made of the static library by embed/Makefile."""
    if not STATIC.is_file():
        pytest.skip(f"there is no static library {STATIC}: embed/build makes it, UMC_STATIC names another")
    need("make", "cc", "ld", "objcopy", "ar")
    folder = tmp_path_factory.mktemp("made")
    for name in ("VERSION", "embed/Makefile", "embed/umc.h", "embed/umc.c", "embed/heap.c"):
        (folder / name).parent.mkdir(exist_ok=True)
        shutil.copy(HOME / name, folder / name)
    done("make", "-s", "-C", folder / "embed", f"STATIC={STATIC}", "CFLAGS=-O2 -g -Wall -Wextra -Werror")
    return folder / "embed/out"


@pytest.fixture(scope="session")
def installed(libraries: Path, tmp_path_factory: pytest.TempPathFactory) -> Path:
    """A folder that `make install` filled, with PREFIX=/usr/local."""
    folder = tmp_path_factory.mktemp("root")
    done("make", "-s", "install", f"DESTDIR={folder}", f"PROGRAM={PROGRAM}", f"LIBRARIES={libraries}", cwd=HOME)
    return folder


sys.path.insert(0, str(HOME / "python"))
