"""Help pages, their examples, the version, man pages and completion."""
import os
import pty
import select
import shutil
import signal
import subprocess
import sys
from pathlib import Path
from typing import Any

import pytest

from conftest import HOME, PROGRAM, UM, Um, Write, need
from waiting import WAIT

from umc import manual
from umc.commands import COMMANDS

EXAMPLES = [(command, example) for command in COMMANDS.values() for example in command.examples]
MAN = HOME / "python/man"


def test_the_overview_names_each_command(um: Um) -> None:
    found = um("--help")
    assert (found.status, found.err) == (0, "")
    for command in COMMANDS.values():
        assert f"  {command.name} " in found.out and command.summary in found.out
    assert um("-h").out == um("help").out == found.out
    assert (um().status, um().out) == (64, found.out)


OLDER = f"""case $1 in
    explain|annot|trace|show|calls|tidy) echo "error 1: usage"; exit 1;;
esac
exec "{PROGRAM}" "$@\""""


def test_the_overview_says_which_commands_need_a_later_program(um: Um, script: Write) -> None:
    lines = um("--help", UMC=str(script(OLDER))).out.splitlines()
    later = [line.split()[0] for line in lines if line.startswith("  ") and line.endswith(" (needs a later umc)")]
    assert later == [name for name, command in COMMANDS.items() if command.needs]
    assert "The explanation after a refusal (needs a later umc)." in lines
    whole = um("--help", UMC=str(script("exit 0")))
    assert "needs a later" not in whole.out and whole.status == 0
    assert um("--help", UMC="/nowhere/umc").out == whole.out


def test_the_overview_builds_nothing(tmp_path: Path) -> None:
    shutil.copytree(HOME / "python/umc", tmp_path / "python/umc", ignore=shutil.ignore_patterns("__pycache__"))
    shutil.copy(UM, tmp_path / "um")
    (tmp_path / "crates.txt").touch()
    (tmp_path / "umc").write_text(f"#!/bin/sh\ntouch {tmp_path}/asked\n")
    (tmp_path / "umc").chmod(0o755)
    environment = {name: value for name, value in os.environ.items() if name != "UMC"}
    done = subprocess.run([sys.executable, tmp_path / "um", "--help"], env=environment, capture_output=True, text=True)
    assert (done.returncode, done.stderr) == (0, "")
    assert "  types " in done.stdout and not (tmp_path / "asked").exists()


@pytest.mark.parametrize("name", COMMANDS)
def test_each_command_has_a_page_with_an_example(um: Um, name: str) -> None:
    found = um(name, "--help")
    assert (found.status, found.err) == (0, "")
    assert COMMANDS[name].sentence() in found.out
    assert COMMANDS[name].examples
    for example in COMMANDS[name].examples:
        assert f"  $ {example.line}\n" in found.out
    assert um("help", name).out == found.out


@pytest.mark.parametrize("command, example", EXAMPLES, ids=[example.line[:60] for _, example in EXAMPLES])
def test_each_example_is_true(command: Any, example: Any, tmp_path: Path) -> None:
    need(command.needs)
    own = tmp_path / "python3"
    own.symlink_to(sys.executable)
    done = subprocess.run(["bash", "-c", example.line], cwd=HOME, capture_output=True, text=True,
                          env={**os.environ, "PATH": f"{tmp_path}:{os.environ['PATH']}"})
    assert (done.stdout, done.stderr) == (example.output, "")


def test_the_version_stands_in_one_file(um: Um) -> None:
    assert um("--version").out == f"um {(HOME / 'VERSION').read_text().strip()}\nprogram: {PROGRAM}\n"
    assert um("--version", UMC="/nowhere/umc").out.splitlines()[1] == (
        "program: none (UMC=/nowhere/umc: there is no such program)")


@pytest.mark.parametrize("words, why", [
    (["frobnicate"], "um: there is no command 'frobnicate'; um --help lists the commands\n"),
    (["explain", "a.um"], "um: there is no command 'explain'; each command says why it refuses a text, as um types "
     "FILE\n"),
    (["big", "9"], "um: there is no command 'big'; it is a command of umc, and reads no file\n"),
    (["typos"], "um: there is no command 'typos'; similar: types\n"),
    (["help", "tabel"], "um: there is no command 'tabel'; similar: table\n"),
    (["types"], "um: the following arguments are required: FILE\nusage: um types [OPTION..] FILE..\n"
     "um types --help says more\n"),
    (["run", "examples/area.um"], "um: the following arguments are required: NAME\n"
     "usage: um run [OPTION..] FILE NAME [ARG..]\num run --help says more\n"),
    (["types", "--wide", "a.um"], "um: unrecognized arguments: --wide\nusage: um types [OPTION..] FILE..\n"
     "um types --help says more\n"),
    (["tidy", "-w", "-"], "um: standard input can't be written in place\n"),
    (["watch", "-"], "um: standard input can't be watched\n"),
    (["watch", "a.um", "table", "f", "b.csv"], "um: 'table' is no command that can be watched\n"),
    (["conform", "a.um", "f", "num", "num"],
     "um: conform takes a function and its type in one word each, or one file of signatures\n")])
def test_words_that_are_wrong_are_told(um: Um, words: list[str], why: str) -> None:
    found = um(*words)
    assert (found.status, found.out) == (64, "")
    assert found.err == why


@pytest.mark.parametrize("words, command", [
    (["tidy", "examples/area.um"], "tidy"), (["tidy", "-w", "examples/area.um"], "tidy"),
    (["annot", "examples/area.um"], "annot"), (["trace", "examples/area.um", "area", "1", "2"], "trace"),
    (["show", "examples/area.um", "area", "1<m>", "2<m>"], "show"),
    (["table", "examples/area.um", "area", "/dev/null"], "calls"),
    (["calls", "examples/area.um", "/dev/null"], "calls")])
def test_a_program_without_a_command_is_told(um: Um, script: Write, words: list[str], command: str) -> None:
    older = script(OLDER)
    found = um(*words, UMC=str(older))
    assert (found.status, found.out, found.err) == (69, "", f"um: this umc has no command '{command}'\n")
    found = um("types", "examples/refusals/units.um", UMC=str(older))
    assert (found.status, found.err) == (9, "examples/refusals/units.um:3:49: error 9: units of total\n")


# ---- man pages

def test_the_man_page_is_made_of_the_help() -> None:
    assert (MAN / "um.1").read_text() == manual.page(), "python3 -m umc.manual > python/man/um.1 makes it"


def test_the_man_page_of_the_program_has_its_version_and_commands() -> None:
    page = (MAN / "umc.1").read_text()
    assert f'"umc {(HOME / "VERSION").read_text().strip()}"' in page
    for command in ("types", "fmt", "code", "image", "prove", "rescale", "conform", "run", "eval", "steps", "twin",
                    "exec", "big", "explain", "annot", "tidy", "trace", "show", "calls"):
        assert f"\n.B {command}\n" in page or f"\n.BI {command} " in page


@pytest.mark.parametrize("name", ["um.1", "umc.1"])
@pytest.mark.skipif(not shutil.which("mandoc"), reason="Debian's mandoc isn't there")
def test_a_man_page_is_well_formed(name: str) -> None:
    done = subprocess.run(["mandoc", "-T", "lint", "-W", "warning", MAN / name], capture_output=True, text=True)
    assert [line for line in done.stdout.splitlines() if "missing date" not in line] == []


# ---- completion

@pytest.fixture
def path(tmp_path: Path) -> str:
    """A PATH with `um`, run by the Python of the tests."""
    (tmp_path / "um").write_text(f'#!/bin/sh\nexec "{sys.executable}" "{UM}" "$@"\n')
    (tmp_path / "um").chmod(0o755)
    return f"{tmp_path}:{os.environ['PATH']}"


def completed(path: str, shell: str, text: str) -> list[str]:
    done = subprocess.run([shell, "-c", text], cwd=HOME, capture_output=True, text=True,
                          env={**os.environ, "PATH": path})
    assert done.stderr == ""
    return done.stdout.split()


BASH = """eval "$(um completion bash)"
COMP_WORDS=({words}) COMP_CWORD={at} COMP_LINE="{words}" COMP_POINT={point} COMP_TYPE=9 COMPREPLY=()
$(complete -p um | sed 's/.*-F \\([^ ]*\\).*/\\1/') um
echo "${{COMPREPLY[@]}}"
"""


def in_bash(path: str, words: str) -> list[str]:
    return completed(path, "bash", BASH.format(words=words, at=len(words.split(" ")) - 1, point=len(words)))


def test_commands_and_options_are_completed_in_bash(path: str) -> None:
    assert in_bash(path, "um ta") == ["table"]
    assert in_bash(path, "um tidy --ch") == ["--check"]


def test_functions_are_completed_with_argcomplete(path: str) -> None:
    pytest.importorskip("argcomplete")
    assert in_bash(path, "um run examples/vehicle.um m") == ["mean", "metres", "move"]


def test_files_of_the_library_are_completed_with_argcomplete(
    path: str, tmp_path: Path, monkeypatch: pytest.MonkeyPatch
) -> None:
    pytest.importorskip("argcomplete")
    (tmp_path / "measures.um").touch()
    monkeypatch.setenv("UM_PATH", str(tmp_path))
    assert in_bash(path, "um types --with meas") == ["measures"]


def test_completion_without_argcomplete(path: str, tmp_path: Path) -> None:
    text = ("import sys; sys.modules['argcomplete'] = None\n"
            f"sys.path.insert(0, '{HOME}/python')\nfrom umc.cli import main\nmain(['completion', 'bash'])")
    script = subprocess.run([sys.executable, "-c", text], capture_output=True, text=True)
    assert "compgen" in script.stdout
    (tmp_path / "script").write_text(script.stdout)
    ask = f'. {tmp_path}/script; COMP_WORDS=(%s) COMP_CWORD=%d; _um; echo "${{COMPREPLY[@]}}"'
    assert completed(path, "bash", ask % ("um ta", 1)) == ["table"]
    assert set(completed(path, "bash", ask % ("um table --li", 2))) == {
        "--limit-memory", "--limit-output", "--limit-time", "--lists"}


@pytest.mark.skipif(not shutil.which("fish"), reason="fish isn't there")
def test_commands_are_completed_in_fish(path: str) -> None:
    assert "table" in completed(path, "fish", "um completion fish | source; complete -C 'um ta'")


@pytest.mark.skipif(not shutil.which("zsh"), reason="zsh isn't there")
def test_the_script_for_zsh_can_be_read(path: str) -> None:
    text = 'autoload -U compinit; compinit -u -D; eval "$(um completion zsh)"; echo read'
    assert completed(path, "zsh", text) == ["read"]


@pytest.mark.skipif(not shutil.which("zsh"), reason="zsh isn't there")
@pytest.mark.parametrize("typed, wanted", [("um tabl", "usage: um table "), ("um tidy --ch", "usage: um tidy ")])
def test_words_are_completed_in_zsh(path: str, typed: str, wanted: str) -> None:
    """In a zsh on a terminal, as one types: a word up to the tab, and then that one wants help."""
    session, terminal = pty.fork()
    if session == 0:
        os.environ.update(PATH=path, TERM="dumb")
        os.chdir(HOME)
        os.execvp("zsh", ["zsh", "-f", "-i"])
    said = bytearray()

    def wait(what: bytes) -> None:
        while what not in said:
            assert select.select([terminal], [], [], WAIT)[0], said
            said.extend(os.read(terminal, 4096))
    try:
        os.write(terminal, b'autoload -U compinit; compinit -u -D; eval "$(um completion zsh)"; echo be"gun"\n')
        wait(b"begun")
        os.write(terminal, typed.encode() + b"\t--help\n")
        wait(wanted.encode())
    finally:
        os.kill(session, signal.SIGKILL)
        os.close(terminal)
        os.waitpid(session, 0)
