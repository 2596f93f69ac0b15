"""The library in C: its answers, under the checkers of addresses and threads, and what it shows of itself."""
import re
import subprocess
from pathlib import Path

import pytest

from conftest import DEBIAN, HOME, PROGRAM, SONAME, STATIC, VERSION, done, need

CHECK = HOME / "embed/tests/check.c"
WRAP = "-Wl,--wrap=malloc,--wrap=realloc"
WARNINGS = ["-std=c11", "-Wall", "-Wextra", "-Werror", "-g", "-O1"]
PUBLIC = ["umc_answer", "umc_call", "umc_call_into", "umc_close", "umc_free", "umc_open", "umc_types", "umc_version"]


@pytest.mark.parametrize("checker", ["none", "address,undefined", "thread"])
def test_answers_under_the_checkers(libraries: Path, tmp_path: Path, checker: str) -> None:
    """The calls of umc.h are compiled with the checker too, so that it sees their accesses."""
    flags = [] if checker == "none" else [f"-fsanitize={checker}", "-fno-sanitize-recover=all"]
    sources = [CHECK, HOME / "embed/umc.c", HOME / "embed/heap.c"] if flags else [CHECK]
    library = STATIC if flags else libraries / "libumc.a"
    made = tmp_path / "check"
    done("cc", *WARNINGS, *flags, f'-DUMC_VERSION="{VERSION}"', f"-I{HOME}/embed", *sources, library, WRAP, "-pthread",
         "-o", made)
    said = done(made)
    assert said.splitlines()[-1] == "all well"
    assert len(re.findall(r"^\w+: [0-9]+ allocations", said, re.M)) == 5


def test_the_header_is_c_and_cpp(tmp_path: Path) -> None:
    need("c++")
    for compiler, name in (("cc", "a.c"), ("c++", "a.cpp")):
        (tmp_path / name).write_text('#include "umc.h"\n#include "umc.h"\nint main(void) { return 0; }\n')
        done(compiler, "-Wall", "-Wextra", "-Werror", "-pedantic", f"-I{HOME}/embed", "-fsyntax-only", tmp_path / name)


def symbols(*words: str | Path) -> list[tuple[str, str]]:
    lines = [line.rsplit(maxsplit=2) for line in done("nm", *words).splitlines()]
    return [(parts[-2], parts[-1]) for parts in lines if len(parts) >= 2 and len(parts[-2]) == 1]


def test_nothing_but_the_calls_has_a_name_for_others(libraries: Path) -> None:
    assert sorted(name for kind, name in symbols("-g", "--defined-only", libraries / "libumc.a")) == PUBLIC
    shown = symbols("-D", "--defined-only", libraries / SONAME)
    assert sorted(name for kind, name in shown if kind == "T") == PUBLIC
    assert "libumc.so.1" in done("readelf", "-d", libraries / SONAME)


def test_the_library_has_no_variables(libraries: Path) -> None:
    """Every datum is read-only, so threads share nothing but the C library's heap and programs that are handed on."""
    found = done("size", "-A", libraries / "libumc.a")
    sizes = {parts[0]: int(parts[1]) for parts in map(str.split, found.splitlines())
             if len(parts) >= 2 and parts[1].isdigit()}
    assert sum(sizes.values()) > 100000
    written = re.compile(r"\.(data|bss|tdata|tbss)(?!\.rel\.ro)")
    assert [name for name, size in sizes.items() if size and written.match(name)] == []


def test_it_asks_the_system_for_memory_and_locks_alone(libraries: Path) -> None:
    """It opens no file, starts no process and prints nothing, since it names no call that could."""
    asked = {name.partition("@")[0] for kind, name in symbols("-D", "--undefined-only", libraries / SONAME)
             if kind == "U"}
    locks = {f"pthread_mutex_{name}" for name in ("init", "lock", "unlock", "destroy")}
    assert asked <= {"malloc", "realloc", "free", "memcpy", "memmove", "memset", "memcmp", "bcmp", "strlen"} | locks


def test_its_answers_are_those_of_the_program(libraries: Path) -> None:
    """Whole texts: the examples and the library."""
    import umc
    library, program = umc.Library(libraries / SONAME), umc.Process(PROGRAM)
    compared = 0
    for file in [*sorted((HOME / "examples").rglob("*.um")), *sorted((HOME / "library").glob("*.um"))]:
        for words in (["types"], ["fmt"], ["code"], ["prove"], ["image"], ["run", "9", "mean", "[1; 2]"]):
            text = file.read_bytes()
            assert library.answer(words, text) == program.answer(words, text), (file, words)
            compared += 1
    assert compared > 100


def test_a_library_that_the_system_finds_tells_its_file(libraries: Path) -> None:
    asks = "import umc, sys; print(umc.Library(sys.argv[1]).path)"
    environment = {"LD_LIBRARY_PATH": str(libraries), "PYTHONPATH": str(HOME / "python")}
    assert done(DEBIAN, "-B", "-c", asks, SONAME, env=environment) == f"{libraries / SONAME}\n"


def test_the_makefile_says_what_is_missing() -> None:
    ran = subprocess.run(["make", "-C", str(HOME / "embed"), "STATIC=none.a"], capture_output=True, text=True)
    assert ran.returncode == 2 and "embed/build" in ran.stderr
