"""The files for VS Code: valid, true to what `um` prints, and an extension that starts the server.

VS Code itself isn't asked: the extension runs in Node with stand-ins for what it calls.
"""
import json
import re
import shutil
import subprocess
import sys
from pathlib import Path

import pytest
from lsp.client import HOME, answer
from lsp.samples import EXAMPLES, REFUSED, Refused
from waiting import WAIT

CODE = HOME / "editors/vscode"
PACKAGE = json.loads((CODE / "package.json").read_text())
SNIPPETS = json.loads((CODE / "snippets/um.json").read_text())
WHOLE = {"Base measure", "Abbreviation", "Record", "Function", "Function over a list"}
STAND_INS = """
const Module = require("module"), told = { subscribed: 0, tasks: [], servers: [], shown: [] };
const settings = SETTINGS;
class Task { constructor(definition, scope, name, source, execution, matcher) {
  Object.assign(this, { definition, scope, name, source, execution, matcher }); } }
class ShellExecution { constructor(command, args) { Object.assign(this, { command, args }); } }
class LanguageClient {
  constructor(id, name, server, client) { told.servers.push({ server, client }); }
  async start() { if (settings.fails) throw new Error("no such command"); }
  async stop() { told.stopped = true; }
}
const stands = {
  vscode: {
    Task, ShellExecution, TaskScope: { Workspace: 2 },
    workspace: { getConfiguration: () => ({ get: (key) => settings[key] }), onDidChangeConfiguration: (f) => {
      told.change = f; return {}; } },
    window: { showErrorMessage: (message) => told.shown.push(message) },
    commands: { registerCommand: (name, carry) => { told.command = name; told.restart = carry; return {}; } },
    tasks: { registerTaskProvider: (type, provider) => {
      told.type = type; told.tasks = provider.provideTasks(); return {}; } },
  },
  "vscode-languageclient/node": { LanguageClient, RevealOutputChannelOn: { Never: 4 } },
};
const load = Module._load;
Module._load = (name, ...rest) => stands[name] || load(name, ...rest);
const extension = require(process.argv[1]), context = { subscriptions: [] };
extension.activate(context).then(() => told.restart()).then(() => extension.deactivate()).then(() => {
  told.subscribed = context.subscriptions.length;
  console.log(JSON.stringify(told));
});
"""


def extension(**settings: object) -> dict[str, object]:
    """What the extension does when it is activated, started anew and ended."""
    script = STAND_INS.replace("SETTINGS", json.dumps(settings))
    done = subprocess.run(["node", "-e", script, str(CODE / "extension.js")], capture_output=True, text=True,
                          timeout=WAIT)
    assert done.returncode == 0, done.stderr
    found: dict[str, object] = json.loads(done.stdout)
    return found


@pytest.mark.skipif(shutil.which("node") is None, reason="Debian's nodejs isn't installed")
def test_the_extension_starts_the_server() -> None:
    found = extension(command=["python3", "um"], **{"with": ["si"]})
    servers = found["servers"]
    assert isinstance(servers, list) and len(servers) == 2 and found["stopped"] is True
    assert servers[0]["server"] == {"command": "python3", "args": ["um", "lsp", "--with", "si"]}
    assert servers[0]["client"]["documentSelector"] == [{"language": "um"}]
    assert (found["command"], found["type"], found["subscribed"]) == ("um.restart", "um", 3)
    tasks = found["tasks"]
    assert isinstance(tasks, list)
    assert [task["execution"]["args"] for task in tasks][0] == ["um", "types", "${file}"]
    assert {task["matcher"] for task in tasks} == {"$um"}


@pytest.mark.skipif(shutil.which("node") is None, reason="Debian's nodejs isn't installed")
def test_a_server_that_doesnt_start_is_told() -> None:
    found = extension(fails=True)
    assert found["shown"] and "um.command names the command" in str(found["shown"])


def test_the_server_that_the_extension_starts_takes_its_words() -> None:
    done = subprocess.run([sys.executable, str(HOME / "um"), "lsp", "--stdio", "--with", str(EXAMPLES / "area.um")],
                          stdin=subprocess.DEVNULL, capture_output=True)
    assert (done.returncode, done.stdout, done.stderr) == (0, b"", b"")


def test_each_file_of_the_package_is_there() -> None:
    contributes = PACKAGE["contributes"]
    files = [PACKAGE["icon"], PACKAGE["main"], contributes["languages"][0]["configuration"],
             contributes["languages"][0]["icon"]["light"], contributes["grammars"][0]["path"],
             contributes["snippets"][0]["path"]]
    assert [file for file in files if not (CODE / file).is_file()] == []
    assert (CODE / PACKAGE["icon"]).read_bytes().startswith(b"\x89PNG")
    comments = json.loads((CODE / contributes["languages"][0]["configuration"]).read_text())["comments"]
    assert comments == {"lineComment": "//"}


@pytest.mark.parametrize("refused", REFUSED, ids=lambda refused: refused.file)
def test_the_problem_matcher_reads_what_um_prints(refused: Refused, tmp_path: Path) -> None:
    [matcher] = PACKAGE["contributes"]["problemMatchers"]
    pattern = matcher["pattern"]
    file = tmp_path / "a file.um"
    file.write_text(refused.text)
    done = subprocess.run([sys.executable, str(HOME / "um"), "types", str(file)], capture_output=True, text=True)
    found = [re.match(pattern["regexp"], line) for line in done.stderr.splitlines()]
    [match] = [one for one in found if one]
    before = refused.text[:refused.start].split("\n")
    assert [match[pattern[key]] for key in ("file", "line", "column", "code", "message")] == [
        str(file), str(len(before)), str(len(before[-1]) + 1), str(refused.status), refused.report]


def expanded(body: str | list[str]) -> str:
    """A snippet with its defaults."""
    text = body if isinstance(body, str) else "\n".join(body)
    return re.sub(r"\$(?:[0-9]+|\{[0-9]+:((?:[^}\\]|\\.)*)\})", lambda one: one[1] or "", text)


@pytest.mark.parametrize("name", SNIPPETS)
def test_a_snippet_is_a_program_or_a_part_of_one(name: str) -> None:
    text = expanded(SNIPPETS[name]["body"])
    program = text if name in WHOLE else f"let part =\n  {text}"
    assert answer(["types"], program)[0] == 0, program
