"""Signals: `um` and the program that it asks end by them, and stop and go on together."""
import os
import pty
import signal
import subprocess
import sys
import time
from pathlib import Path

import pytest

from conftest import HOME, UM, Start, Um, Write
from waiting import WAIT, wait_for


@pytest.mark.parametrize("number", [signal.SIGINT, signal.SIGTERM, signal.SIGHUP, signal.SIGQUIT])
@pytest.mark.parametrize("text", ["echo $$ > {0}/pid; exec sleep 1000", "sleep 1000 & echo $! > {0}/pid; wait",
                                  "trap '' TERM; echo $$ > {0}/pid; while :; do sleep 1; done"])
def test_a_signal_ends_both(start: Start, script: Write, tmp_path: Path, number: int, text: str) -> None:
    stub = script(text.format(tmp_path))
    um = start([sys.executable, UM, "run", "examples/area.um", "area", "1", "2"], stdout=subprocess.PIPE,
               stderr=subprocess.PIPE, env={**os.environ, "UMC": str(stub)})
    process = wait_for_process(tmp_path / "pid")
    um.send_signal(number)
    out, err = um.communicate(timeout=WAIT)
    assert (um.returncode, out, err) == (-number, b"", b"")
    wait_for_end(process)


@pytest.mark.parametrize("number", [signal.SIGINT, signal.SIGQUIT, signal.SIGHUP])
def test_a_signal_that_the_starter_ignores_ends_nothing(
    start: Start, script: Write, tmp_path: Path, number: int
) -> None:
    stub = script(f"echo $$ > {tmp_path}/pid; while [ ! -e {tmp_path}/end ]; do sleep 0.05; done; cat > /dev/null")
    um = start(["sh", "-c", f'trap "" {int(number)}; exec "$0" "$@"', sys.executable, UM, "types", "examples/area.um"],
               stdout=subprocess.PIPE, env={**os.environ, "UMC": str(stub)})
    process = wait_for_process(tmp_path / "pid")
    um.send_signal(number)
    time.sleep(0.2)
    assert um.poll() is None and state(process) not in ("", "Z")
    (tmp_path / "end").touch()
    assert um.wait(timeout=WAIT) == 0


def test_ctrl_c_on_a_terminal_ends_both(script: Write, tmp_path: Path) -> None:
    stub = script(f"echo $$ > {tmp_path}/pid; exec sleep 1000")
    session, terminal = pty.fork()
    if session == 0:
        os.environ["UMC"] = str(stub)
        os.execv(sys.executable, [sys.executable, str(UM), "types", str(HOME / "examples/area.um")])
    process = wait_for_process(tmp_path / "pid")
    os.write(terminal, b"\x03")
    wait_for(lambda: state(session) == "Z", "its end")
    _, status = os.waitpid(session, 0)
    assert os.WIFSIGNALED(status) and os.WTERMSIG(status) == signal.SIGINT
    wait_for_end(process)
    os.close(terminal)


def state(process: int) -> str:
    """What a process does, as Linux tells: T if it is stopped, Z if it has ended; nothing if it isn't there."""
    try:
        return Path(f"/proc/{process}/stat").read_text().rpartition(")")[2].split()[0]
    except OSError:
        return ""


def test_ctrl_z_stops_both(start: Start, script: Write, tmp_path: Path) -> None:
    stub = script(f"echo $$ > {tmp_path}/pid; while [ ! -e {tmp_path}/end ]; do :; done; cat > /dev/null")
    um = start([sys.executable, UM, "types", "examples/area.um"], stdout=subprocess.PIPE,
               env={**os.environ, "UMC": str(stub)}, process_group=0)
    process = wait_for_process(tmp_path / "pid")
    um.send_signal(signal.SIGTSTP)
    wait_for(lambda: state(um.pid) == state(process) == "T", "their pause")
    um.send_signal(signal.SIGCONT)
    wait_for(lambda: state(process) != "T", "its continuation")
    (tmp_path / "end").touch()
    assert um.wait(timeout=WAIT) == 0


# How long a thread that starts a program is kept from going on: in the second it has only begun when the signal comes.
@pytest.mark.parametrize("seconds", [0, 1])
def test_a_signal_ends_what_other_threads_ask(start: Start, script: Write, tmp_path: Path, seconds: int) -> None:
    stub = script(f"echo $$ > {tmp_path}/pid; exec sleep 1000")
    text = ("import subprocess, sys, threading, time\nfrom pathlib import Path\n"
            f"sys.path.insert(0, '{HOME}/python')\nfrom umc import cli, signals\nfrom umc.program import Program\n"
            "begin = subprocess.Popen\n"
            "def begin_and_wait(*args, **words):\n"
            "    process = begin(*args, **words)\n"
            f"    time.sleep({seconds})\n"
            "    return process\n"
            "subprocess.Popen = begin_and_wait\n"
            "def ask(args):\n"
            f"    ask = Program(Path('{stub}')).ask\n"
            "    threading.Thread(target=ask, args=(['types'], b''), daemon=True).start()\n"
            "    time.sleep(1000)\n"
            "cli.dispatch = ask\ncli.main([])\n")
    um = start([sys.executable, "-c", text])
    process = wait_for_process(tmp_path / "pid")
    um.send_signal(signal.SIGTERM)
    assert um.wait(timeout=WAIT) == -signal.SIGTERM
    wait_for_end(process)


def test_a_program_that_is_ended_by_a_signal_is_told(um: Um, script: Write) -> None:
    stub = script("cat > /dev/null; kill -SEGV $$")
    found = um("types", "examples/area.um", UMC=str(stub))
    assert (found.status, found.out, found.err) == (139, "", f"um: {stub} was ended by SIGSEGV\n")


def wait_for_process(file: Path) -> int:
    wait_for(lambda: file.exists() and file.read_text().endswith("\n"), "the program")
    return int(file.read_text())


def wait_for_end(process: int) -> None:
    wait_for(lambda: state(process) in ("", "Z"), "the program's end")   # Z: nobody has asked yet how it ended


# In each of these a signal comes where what is raised is dropped, or where signals are held.
LOST = {
    "in a destructor": "class Last:\n"
                       "    def __del__(self): os.kill(os.getpid(), signal.SIGTERM)\n"
                       "def step(): Last()\n",
    "in a block that holds it and fails": "def step():\n"
                                          "    with suppress(KeyError), signals.held():\n"
                                          "        os.kill(os.getpid(), signal.SIGTERM)\n"
                                          "        raise KeyError\n",
}
AFTER = {"the end": "return 0", "the next program": "Program(Path('/bin/true')).ask([], b''); print('asked')",
         "the next turn of watch": "watch._answer = lambda asked: step(); carry_out(options.parse("
                                   "COMMANDS['watch'].parser(), [AREA, 'types']))"}


@pytest.mark.parametrize("lost", LOST.values(), ids=LOST)
@pytest.mark.parametrize("after", AFTER.values(), ids=AFTER)
def test_no_signal_is_lost(start: Start, lost: str, after: str) -> None:
    text = f"""import os, signal, sys
from contextlib import suppress
from pathlib import Path
from typing import Any
sys.path.insert(0, '{HOME}/python')
from umc import cli, options, signals, watch
from umc.commands import COMMANDS
from umc.program import Program
AREA = '{HOME}/examples/area.um'
def carry_out(args):
    args.command = 'watch'
    return cli.carry_out(args)
{lost}
def dispatch(words):
    step()
    {after}
cli.dispatch = dispatch
cli.main([])
"""
    um = start([sys.executable, "-c", text], stdout=subprocess.PIPE, stderr=subprocess.PIPE)
    assert um.wait(timeout=WAIT) == -signal.SIGTERM
    assert (um.stdout.read(), um.stderr.read()) == (b"", b"")
