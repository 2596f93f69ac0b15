"""tidy, show and trace in files and on words, and watch."""
import os
import signal
import subprocess
import sys
import threading
from pathlib import Path

import pytest

from conftest import HOME, UM, Um, Write, answer
from waiting import WAIT, wait_for

UNTIDY = "let  k=2.50//half of it\n\n\n\nlet j=  1\n"
TIDY = "let k = 2.50 //half of it\n\nlet j = 1\n"


@pytest.mark.needs("tidy")
def test_a_file_is_laid_out_in_place(um: Um, program: Write, tmp_path: Path) -> None:
    file, other = program(UNTIDY), program(TIDY, "b.um")
    file.chmod(0o640)
    before = other.stat().st_mtime_ns
    (tmp_path / "link.um").symlink_to(file)
    found = um("tidy", "-w", tmp_path / "link.um", other)
    assert (found.status, found.out, found.err) == (0, "", "")
    assert file.read_text() == TIDY
    assert file.stat().st_mode & 0o777 == 0o640
    assert (tmp_path / "link.um").is_symlink()
    assert other.stat().st_mtime_ns == before
    assert sorted(path.name for path in tmp_path.iterdir()) == ["a.um", "b.um", "link.um"]


@pytest.mark.needs("tidy")
def test_a_file_that_is_refused_stays_as_it_is(um: Um, program: Write) -> None:
    wrong, file = program("let k = (", "wrong.um"), program(UNTIDY)
    found = um("tidy", "-w", wrong, file)
    assert (found.status, found.out) == (5, "")
    assert found.err.splitlines()[0] == f"{wrong}:1:10: error 5: syntax"
    assert (wrong.read_text(), file.read_text()) == ("let k = (", TIDY)


@pytest.mark.needs("tidy")
def test_check_names_the_files_that_are_not_tidy(um: Um, program: Write) -> None:
    file, other = program(UNTIDY), program(TIDY, "b.um")
    found = um("tidy", "--check", other, file)
    assert (found.status, found.out) == (1, "")
    assert found.err == f"{file}: isn't tidy; um tidy -w lays it out\n"
    assert file.read_text() == UNTIDY
    assert um("tidy", "--check", other).status == 0
    found = um("tidy", "--check", "--json", other, file)
    assert [tree["tidy"] for tree in found.objects] == [True, False]
    assert um("tidy", "--check", "-w", file).status == 64


@pytest.mark.needs("tidy")
def test_a_folder_that_can_not_be_written_keeps_the_file(um: Um, program: Write, tmp_path: Path) -> None:
    found = um("tidy", "-w", "/proc/self/comm")
    assert found.status != 0
    assert um("tidy", "-", stdin=UNTIDY).out == TIDY


@pytest.mark.needs("show")
def test_units_and_digits_of_show(um: Um) -> None:
    text = (HOME / "examples/vehicle.um").read_bytes()
    words = ["kinetic", "2<kg>", "3.5<m/s>"]
    found = um("show", "examples/vehicle.um", *words, "--unit", "kJ=1000<J>", "--unit", "N m", "--digits", "4")
    assert found.out == answer(["show", "4", "kJ=1000<J>,N m", "9", *words], text)[1] == "~0.0122<kJ>\n"
    assert um("show", "examples/vehicle.um", *words).out == answer(["show", "6", "-", "9", *words], text)[1]
    found = um("show", "examples/vehicle.um", *words, "--unit", "")
    assert (found.status, found.err.splitlines()[0]) == (64, "um: --unit takes a unit, as J, or a size with a name, "
                                                             "as 'ft=0.3048<m>'")
    found = um("show", "examples/vehicle.um", *words, "--unit", "q")
    assert (found.status, found.err.splitlines()[0]) == (11, "examples/vehicle.um: error 11: no such unit")
    assert um("show", "examples/vehicle.um", *words, "--digits", "19").status == 1


@pytest.mark.needs("trace")
def test_a_trace_of_a_run_that_ends_well_is_its_value(um: Um) -> None:
    found = um("trace", "examples/vehicle.um", "mean", "[1; 2; 6]")
    assert (found.status, found.out) == (0, "3\n")
    found = um("trace", "examples/vehicle.um", "mean", "[1; 2; 6]", "--budget", "3")
    assert found.status == 0
    assert found.out == answer(["trace", "3", "mean", "[1; 2; 6]"], (HOME / "examples/vehicle.um").read_bytes())[1]
    found = um("trace", "examples/vehicle.um", "mean", "[1; 2")
    assert (found.status, found.out) == (11, "")


# ---- watch

class Watch:
    """A `um watch` that runs until the block ends."""

    def __init__(self, *words: str | Path) -> None:
        self.um = subprocess.Popen([sys.executable, UM, "watch", *map(str, words)], cwd=HOME, stdout=subprocess.PIPE,
                                   stderr=subprocess.STDOUT, text=True, env={**os.environ, "PYTHONUNBUFFERED": "1"})
        self.lines: list[str] = []
        threading.Thread(target=self.read, daemon=True).start()

    def read(self) -> None:
        for line in self.um.stdout:
            self.lines.append(line.rstrip("\n"))

    def wait(self, line: str) -> None:
        wait_for(lambda: line in self.lines, line)

    def __enter__(self) -> "Watch":
        return self

    def __exit__(self, *_: object) -> None:
        self.um.send_signal(signal.SIGINT)
        assert self.um.wait(timeout=WAIT) == -signal.SIGINT


def test_watch_answers_again_when_the_file_changes(program: Write) -> None:
    file = program("let k = 1\n")
    with Watch(file) as watch:
        watch.wait("k : num")
        file.write_text("let j = x\n")
        watch.wait(f"{file}:1:9: error 7: unknown name")
        file.unlink()
        watch.wait(f"um: {file}: No such file or directory")
        (file.parent / "new").write_text("let third = true\n")
        (file.parent / "new").rename(file)
        watch.wait("third : bool")
    assert watch.lines.count("k : num") == 1


def test_watch_answers_a_call_and_looks_at_the_files_before(program: Write) -> None:
    below, file = program("let two = 2\n", "below.um"), program("let f (x: num) = two * x\n")
    with Watch(file, "run", "f", "-3", "--with", below, "--budget", "9") as watch:
        watch.wait("-6")
        below.write_text("let two = 2.5\n")
        watch.wait("-15r2")
