"""The program as a process: which one runs, limits, closed pipes, full disks, and files that can't be read."""
import os
import shutil
import signal
import subprocess
import sys
import time
from pathlib import Path
from typing import Any

import pytest

from conftest import HOME, PROGRAM, UM, Start, Um, Write, answer
from waiting import WAIT

AREA = "area : num<m> -> num<m> -> num<m^2>\n"


# ---- which program runs

def test_there_is_no_program_where_umc_names_none(um: Um, tmp_path: Path) -> None:
    found = um("types", "examples/area.um", UMC=str(tmp_path / "none"))
    assert (found.status, found.out) == (69, "")
    assert found.err == f"um: UMC={tmp_path}/none: there is no such program\n"


def test_a_file_that_is_no_program_is_told(um: Um, tmp_path: Path) -> None:
    file = tmp_path / "umc"
    file.write_bytes(b"\x00\x01")
    file.chmod(0o755)
    found = um("types", "examples/area.um", UMC=str(file))
    assert (found.status, found.out) == (69, "")
    assert found.err.startswith(f"um: {file}: ")


def copied(folder: Path) -> Path:
    """A checkout with nothing but `um`."""
    shutil.copytree(HOME / "python/umc", folder / "python/umc", ignore=shutil.ignore_patterns("__pycache__"))
    shutil.copy(UM, folder / "um")
    return folder / "um"


def test_the_program_is_the_one_on_the_path(tmp_path: Path) -> None:
    own = copied(tmp_path)
    (tmp_path / "bin").mkdir()
    (tmp_path / "bin/umc").symlink_to(PROGRAM)
    environment = {**os.environ, "PATH": f"{tmp_path}/bin:{os.environ['PATH']}"}
    del environment["UMC"]
    done = subprocess.run([sys.executable, own, "types", HOME / "examples/area.um"], env=environment,
                          capture_output=True, text=True)
    assert (done.returncode, done.stdout, done.stderr) == (0, AREA, "")
    environment["PATH"] = "/nowhere"
    done = subprocess.run([sys.executable, own, "types", HOME / "examples/area.um"], env=environment,
                          capture_output=True, text=True)
    assert (done.returncode, done.stdout) == (69, "")
    assert done.stderr == "um: there is no program umc on PATH; UMC=PROGRAM names one\n"


def test_the_program_of_the_checkout_goes_before_the_path(tmp_path: Path) -> None:
    own = copied(tmp_path)
    (tmp_path / "crates.txt").touch()
    (tmp_path / "umc").write_text("#!/bin/sh\necho \"$@\" of the checkout\n")
    (tmp_path / "umc").chmod(0o755)
    environment = {**os.environ}
    del environment["UMC"]
    done = subprocess.run([sys.executable, own, "types", HOME / "examples/area.um"], env=environment,
                          capture_output=True, text=True, cwd="/")
    assert (done.returncode, done.stdout, done.stderr) == (0, "types of the checkout\n", "")


def test_the_launcher_runs_by_itself_from_any_folder(tmp_path: Path) -> None:
    link = tmp_path / "link"
    link.symlink_to(UM)
    for launcher in (UM, link):
        done = subprocess.run([launcher, "types", HOME / "examples/area.um"], capture_output=True, text=True,
                              cwd=tmp_path)
        assert (done.returncode, done.stdout, done.stderr) == (0, AREA, "")


def test_a_file_without_a_name_is_told(um: Um) -> None:
    assert (um("types", "").status, um("types", "").err) == (66, "um: '': No such file or directory\n")


def test_a_launcher_without_its_modules_says_what_to_do(tmp_path: Path) -> None:
    shutil.copy(UM, tmp_path / "um")
    done = subprocess.run([sys.executable, tmp_path / "um", "types", HOME / "examples/area.um"], capture_output=True,
                          text=True, env={name: it for name, it in os.environ.items() if name != "PYTHONPATH"})
    assert (done.returncode, done.stdout) == (1, "")
    assert done.stderr.startswith("um: its modules aren't there: ") and done.stderr.count("\n") == 1


def test_what_the_program_says_on_standard_error_is_passed_on(um: Um, script: Write) -> None:
    found = um("types", "examples/area.um", UMC=str(script("cat > /dev/null; echo notice >&2; echo k : num")))
    assert (found.status, found.out, found.err) == (0, "k : num\n", "notice\n")


def test_what_the_program_says_at_each_run_is_passed_on_once(um: Um, script: Write) -> None:
    stub = script(f'echo "not proved yet" >&2; echo "$1" >&2; printf "no end" >&2; exec "{PROGRAM}" "$@"')
    found = um("types", "examples/refusals/units.um", "examples/refusals/names.um", UMC=str(stub))
    assert found.err.count("not proved yet\n") == found.err.count("no end") == found.err.count("types\n") == 1
    assert found.err.count("explain\n") == 1


def test_what_the_program_says_comes_at_once(start: Start, script: Write, tmp_path: Path) -> None:
    stub = script(f"echo progress >&2; while [ ! -e {tmp_path}/end ]; do sleep 0.05; done; cat > /dev/null")
    um = start([sys.executable, UM, "types", "examples/area.um"], stdout=subprocess.PIPE, stderr=subprocess.PIPE,
               env={**os.environ, "UMC": str(stub)})
    assert um.stderr and um.stderr.readline() == b"progress\n"
    (tmp_path / "end").touch()
    assert um.wait(timeout=WAIT) == 0


def test_an_unknown_status_is_handed_on_and_told(um: Um, script: Write) -> None:
    found = um("types", "examples/area.um", UMC=str(script("cat > /dev/null; exit 17")))
    assert (found.status, found.err) == (17, "examples/area.um: error 17: the program had too little memory\n")
    found = um("types", "examples/area.um", UMC=str(script("cat > /dev/null; exit 99")))
    assert (found.status, found.err) == (99, "um: the program ended with status 99\n")


def test_a_program_that_does_not_read_its_text_is_answered(um: Um, program: Write, script: Write) -> None:
    file = program("// " + "x" * 1000000)
    found = um("types", file, UMC=str(script("echo 'error 1: usage'; exit 1")))
    assert found.status == 1
    assert found.err.splitlines()[0] == f"{file}: error 1: usage"


# ---- limits

ENDLESS = "\n".join(["let f (x: num) =", *(f"  let x{n} = [{p}; {p}] in" for n, p in enumerate(
    ["x", *(f"x{n}" for n in range(39))])), "  x39"])


def test_a_run_ends_at_the_limit_of_its_time(um: Um, script: Write) -> None:
    began = time.monotonic()
    found = um("run", "examples/area.um", "area", "1", "2", "--limit-time", "0.5", UMC=str(script("exec sleep 1000")))
    assert (found.status, found.out) == (124, "")
    assert found.err == "um: the run took more than 0.5 s (--limit-time)\n"
    assert time.monotonic() - began < WAIT


def test_a_value_without_end_ends_at_a_limit(um: Um, program: Write) -> None:
    found = um("run", program(ENDLESS), "f", "1", "--limit-memory", "200M", "--limit-time", "20")
    assert (found.status, found.out) == (124, "")
    assert found.err in ("um: the run held more than 200 MiB of memory (--limit-memory)\n",
                         "um: the run took more than 20 s (--limit-time)\n")


def test_a_run_ends_at_the_limit_of_its_answer(um: Um, program: Write) -> None:
    file = program(ENDLESS.replace("  x39", "  x14"))
    assert um("run", file, "f", "1", "--limit-output", "1M").status == 0
    found = um("run", file, "f", "1", "--limit-output", "50K", "--json")
    assert found.status == 124
    assert found.objects == [{"status": 124, "kind": "limit", "file": None,
                              "message": "the answer is longer than 50 KiB (--limit-output)"}]


# All commands that run a program or an image.
RUNS = [["run", "examples/area.um", "area", "1", "2"], ["eval", "examples/area.um", "area", "1", "2"],
        ["steps", "examples/area.um", "area", "1", "2"], ["show", "examples/area.um", "area", "1", "2"],
        ["trace", "examples/area.um", "area", "1", "2"], ["twin", "examples/area.um", "m=2", "area", "1", "2"],
        ["exec", "examples/mean.umi", "mean", "[1]"], ["table", "examples/vehicle.um", "mean", "-", "--lists"],
        ["watch", "examples/area.um", "run", "area", "1", "2"]]
# It has the types of a text and the command calls, and hangs, writes or takes memory otherwise.
ENDLESSLY = """case "$1 $2" in types*) exec "{program}" types;; 'calls 1') cat > /dev/null; exit 0;; esac
cat > /dev/null
exec {does}"""


@pytest.mark.parametrize("words", RUNS, ids=[words[0] for words in RUNS])
@pytest.mark.parametrize("does, option, value, told", [
    ("sleep 1000", "--limit-time", "0.3", "the run took more than 0.3 s (--limit-time)"),
    ("yes", "--limit-output", "1M", "the answer is longer than 1 MiB (--limit-output)"),
    (f"{sys.executable} -c 'x = bytes([1]) * (1 << 28); import time; time.sleep(1000)'", "--limit-memory", "128M",
     "the run held more than 128 MiB of memory (--limit-memory)")], ids=["time", "output", "memory"])
def test_each_command_that_runs_has_its_limits(
    start: Start, script: Write, words: Any, does: str, option: str, value: str, told: str
) -> None:
    stub = script(ENDLESSLY.format(program=PROGRAM, does=does))
    um = start([sys.executable, UM, *words, option, value], stdin=subprocess.PIPE, stdout=subprocess.PIPE,
               stderr=subprocess.PIPE, env={**os.environ, "UMC": str(stub)})
    um.stdin.write(b"d [m]\n1\n")
    um.stdin.close()
    assert um.stderr.readline() == f"um: {told}\n".encode()
    if words[0] != "watch":         # which waits for a change of the file
        assert um.wait(timeout=WAIT) == 124
        assert um.stdout.read() == b""


@pytest.mark.parametrize("option, value", [("--limit-time", "soon"), ("--limit-time", "-1"), ("--limit-memory", "4T"),
                                           ("--limit-output", "")])
def test_a_limit_that_is_none_is_refused(um: Um, option: str, value: str) -> None:
    found = um("run", "examples/area.um", "area", "1", "2", option, value)
    assert (found.status, found.out) == (64, "")
    assert "um: argument --limit-" in found.err or "expected one argument" in found.err


# ---- output that can't be written

def test_it_ends_quietly_when_its_output_is_closed(program: Write) -> None:
    file = program("".join(f"let f{n} (x: num<_>) = x\n" for n in range(2000)))
    um = subprocess.Popen([sys.executable, UM, "types", *[file] * 8], cwd=HOME, stdout=subprocess.PIPE,
                          stderr=subprocess.PIPE)
    assert um.stdout and um.stderr
    assert um.stdout.readline() == b"f0 : num<'a> -> num<'a>\n"
    um.stdout.close()
    assert um.stderr.read() == b""
    assert um.wait(timeout=WAIT) == -signal.SIGPIPE


@pytest.mark.parametrize("words", [["types", "examples/area.um"], ["--help"], ["run", "--help"], ["--version"],
                                   ["types", "--json", "examples/refusals/units.um"]])
def test_a_full_disk_is_told(words: list[str]) -> None:
    with open("/dev/full", "wb") as full:
        done = subprocess.run([sys.executable, UM, *words], cwd=HOME, stdout=full, stderr=subprocess.PIPE, text=True)
    assert (done.returncode, done.stderr) == (16, "um: standard output: No space left on device\n")


def test_closed_streams_are_no_crash() -> None:
    def closed(redirection: str, *words: str) -> subprocess.CompletedProcess[str]:
        return subprocess.run(["sh", "-c", f'exec "$0" "$@" {redirection}', sys.executable, UM, *words], cwd=HOME,
                              capture_output=True, text=True)
    done = closed(">&-", "types", "examples/area.um")
    assert (done.returncode, done.stdout) == (16, "")
    assert "Traceback" not in done.stderr and "standard output" in done.stderr
    done = closed("2>&-", "types", "examples/refusals/units.um")
    assert (done.returncode, done.stdout, done.stderr) == (9, "", "")
    done = closed("<&-", "types", "-")
    assert (done.returncode, done.stdout, done.stderr) == (66, "", "um: <stdin>: standard input is closed\n")
    done = closed("<&-", "types", "examples/area.um")
    assert (done.returncode, done.stdout, done.stderr) == (0, AREA, "")


def test_an_output_file_that_can_not_be_written_is_told(um: Um, tmp_path: Path) -> None:
    found = um("types", "examples/area.um", "-o", tmp_path / "none/types")
    assert (found.status, found.err) == (73, f"um: {tmp_path}/none/types: No such file or directory\n")
    found = um("types", "examples/area.um", "-o", "/dev/full")
    assert (found.status, found.err) == (73, "um: /dev/full: No space left on device\n")
    assert um("types", "examples/area.um", "-o", "/dev/null").status == 0
    found = um("types", "examples/area.um", "-o", "/dev/stdout")
    assert (found.status, found.out, found.err) == (0, AREA, "")


# ---- files that can't be read

@pytest.mark.parametrize("name, why", [
    ("none.um", "No such file or directory"), (".", "Is a directory"), ("/proc/self/mem", "Input/output error"),
    ("a" * 300, "File name too long")])
def test_a_file_that_can_not_be_read_is_told(um: Um, name: str, why: str) -> None:
    found = um("types", name)
    assert (found.status, found.out, found.err) == (66, "", f"um: {name}: {why}\n")


@pytest.mark.parametrize("words", [
    ["run", "examples", "f"], ["exec", "examples", "f"], ["run", "examples/area.um", "area", "@examples"],
    ["conform", "examples/area.um", "examples"], ["types", "examples/area.um", "--with", "./examples"],
    ["image", "examples", "-o", "/dev/null"]])
def test_a_folder_is_told_wherever_a_file_is_named(um: Um, words: list[str]) -> None:
    found = um(*words)
    assert (found.status, found.out) == (66, "")
    assert found.err in ("um: examples: Is a directory\n", "um: ./examples: Is a directory\n")


@pytest.mark.skipif(os.geteuid() == 0, reason="root reads every file")
def test_a_file_without_rights_is_told(um: Um, program: Write) -> None:
    file = program("let k = 1")
    file.chmod(0)
    found = um("types", file)
    assert (found.status, found.err) == (66, f"um: {file}: Permission denied\n")


def test_a_files_name_may_be_any_bytes(um: Um, tmp_path: Path) -> None:
    name = os.fsdecode(os.fsencode(tmp_path) + b"/a \xff\n.um")
    Path(name).write_text("let k = x")
    found = um("types", name)
    assert found.status == 7
    assert "error 7: unknown name" in found.err
    (object_,) = um("types", "--json", name).objects
    assert object_["file"] == name


def test_a_pipe_is_a_file(um: Um, tmp_path: Path) -> None:
    done = subprocess.run(["bash", "-c", f"'{sys.executable}' '{UM}' types <(cat examples/area.um)"], cwd=HOME,
                          capture_output=True, text=True)
    assert (done.returncode, done.stdout, done.stderr) == (0, AREA, "")


# ---- words that the system doesn't take

LONG = f"[{'1<m>; ' * 25000}2<m>]"


@pytest.mark.needs("calls")
def test_an_argument_of_any_length_is_taken(um: Um, tmp_path: Path) -> None:
    (tmp_path / "list").write_text(LONG)
    found = um("run", "examples/vehicle.um", "count", f"@{tmp_path}/list")
    assert (found.status, found.out) == (0, "25001\n")
    (tmp_path / "list").write_text(LONG.replace("2<m>", "2<q>"))
    found = um("run", "examples/vehicle.um", "count", f"@{tmp_path}/list")
    assert (found.status, found.out) == (11, "")
    assert found.err.startswith(f"{tmp_path}/list:1:150004: error 11: argument 1, name\n")


def test_a_long_argument_where_nothing_takes_it_is_told(um: Um, tmp_path: Path) -> None:
    from conftest import lacks
    (tmp_path / "list").write_text(LONG)
    found = um("eval", "examples/vehicle.um", "count", f"@{tmp_path}/list")
    assert (found.status, found.out) == (64, "")
    assert found.err == "um: the words are longer than the system takes; um run takes longer ones\n"
    if lacks("calls"):
        found = um("run", "examples/vehicle.um", "count", f"@{tmp_path}/list")
        assert (found.status, found.out) == (64, "")
        assert "this umc has no command 'calls'" in found.err


@pytest.mark.needs("calls")
def test_an_argument_that_no_command_takes_is_told(um: Um, tmp_path: Path) -> None:
    told = "an argument has at most 1,048,576 bytes, and this one has 1,048,577\n"
    (tmp_path / "list").write_text("1" * 1048577)
    found = um("run", "examples/vehicle.um", "count", f"@{tmp_path}/list")
    assert (found.status, found.err) == (1, f"examples/vehicle.um: error 1: usage\n{told}")
    (tmp_path / "list").write_text("1" * (1 << 24))
    found = um("run", "examples/vehicle.um", "count", f"@{tmp_path}/list")
    assert found.status == 2 and found.err.endswith(told.replace("1,048,577", "16,777,216"))
    found = um("table", "examples/vehicle.um", "count", "-", "--lists", stdin="n\n" + "1234567\n" * 200000)
    assert (found.status, found.err.splitlines()[0]) == (1, "<stdin>: error 1: usage")
    assert found.err.splitlines()[1].startswith("an argument has at most 1,048,576 bytes, ")


def test_an_argument_that_is_no_text_is_told(um: Um, tmp_path: Path) -> None:
    (tmp_path / "list").write_bytes(b"[1; \xff]")
    found = um("run", "examples/vehicle.um", "count", f"@{tmp_path}/list")
    assert (found.status, found.err) == (1, "examples/vehicle.um: error 1: usage\nan argument isn't UTF-8\n")


@pytest.mark.needs("calls")
def test_an_argument_that_goes_by_calls_is_answered_as_by_run(um: Um, tmp_path: Path, program: Write) -> None:
    # The text has a line that calls would take for its end, and no line feed at its end.
    text = "let k (x: num list) (y: num) =\n  y - 5\n---\n1 // last"
    assert answer(["run", "9", "k", "[]", "7"], text) == (0, "1\n")
    (tmp_path / "list").write_text(f"[ // comment\n{'1;' * 70000}\t2\r\n]")
    assert um("run", program(text), "k", f"@{tmp_path}/list", "7").out == "1\n"
    found = um("run", program("let k (x: num list) = (\n---"), "k", f"@{tmp_path}/list")
    status, line = answer(["types"], "let k (x: num list) = (\n---")
    assert found.status == status == 5
    assert found.err.splitlines()[0].endswith(":2:4: error 5: syntax")


@pytest.mark.needs("calls")
def test_an_argument_may_hold_the_character_0(um: Um, tmp_path: Path) -> None:
    (tmp_path / "zero").write_bytes(b"[1;\x002]")
    found = um("run", "examples/vehicle.um", "mean", f"@{tmp_path}/zero")
    assert (found.status, found.err.splitlines()[0]) == (11, f"{tmp_path}/zero:1:4: error 11: argument 1, text")
