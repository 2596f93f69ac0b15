"""A headless Chromium that a test drives, and the page in a tab of it."""
import base64
import json
import os
import shlex
import shutil
import subprocess
import time
from collections.abc import Callable, Sequence
from pathlib import Path
from typing import Any

OUT = Path(__file__).resolve().parents[1] / "out"
USAGE = 1
# The second program may be a slow one: it gets no longer texts.
LONGEST = 20_000


class Fault(Exception):
    """What the page doesn't do."""


def expect(found: object, wanted: object, what: str) -> None:
    """Raises Fault unless the two are the same."""
    if found != wanted:
        raise Fault(f"{what}: {found!r} in place of {wanted!r}")


def install(package: str) -> None:
    """Installs a package of Debian's."""
    for words in (["update"], ["install", "-y", "--no-install-recommends", package]):
        try:
            subprocess.run(["apt-get", "-q", *words], check=True, capture_output=True, text=True)
        except OSError as fault:
            raise Fault(f"there is no {package}, and apt-get can't be run: {fault.strerror}") from fault
        except subprocess.CalledProcessError as fault:
            said = (fault.stderr.strip() or f"status {fault.returncode}").splitlines()[-1]
            raise Fault(f"there is no {package}, and 'apt-get {' '.join(words)}' fails: {said}") from fault


def chromium() -> str:
    """The browser's path; it is installed if it isn't there."""
    if not shutil.which("chromium"):
        install("chromium")
    found = shutil.which("chromium")
    if not found:
        raise Fault("there is no chromium on PATH")
    return found


class Programs:
    """What answers the questions of a page without a module: a program, and one for the commands that it lacks."""

    def __init__(self, programs: Sequence[str]):
        self.programs = [shlex.split(program) for program in programs]
        # Commands that are answered as by a program that doesn't know them.
        self.without: set[str] = set()
        self.asked: list[list[str]] = []

    def answer(self, words: list[str], text: bytes) -> tuple[int, bytes]:
        """The status and the answer to words about a text."""
        self.asked.append(words)
        status, output = USAGE, b"error 1: usage\n"
        programs = self.programs if len(text) <= LONGEST else self.programs[:1]
        for program in [] if words[0] in self.without else programs:
            done = subprocess.run([*program, *words], input=text, stdout=subprocess.PIPE)
            status, output = done.returncode, done.stdout
            if status != USAGE:
                break
        return status, output


class Browser:
    """A browser that is driven over two pipes, by its own protocol."""

    def __init__(self, path: str, folder: str, programs: Programs | None = None):
        take, self.give = os.pipe()
        self.take, give = os.pipe()
        words = [path, "--headless", "--remote-debugging-pipe", "--disable-gpu", f"--user-data-dir={folder}",
                 "--no-first-run", "--disable-background-networking", "--disable-component-update"]
        words += ["--no-sandbox"] if os.geteuid() == 0 else []
        line = f"exec {shlex.join(words)} 3<&{take} 4>&{give}"
        self.process = subprocess.Popen(["sh", "-c", line], pass_fds=(take, give), stdin=subprocess.DEVNULL,
                                        stdout=subprocess.DEVNULL, stderr=subprocess.DEVNULL)
        os.close(take)
        os.close(give)
        self.programs = programs
        self.kept, self.number = b"", 0
        self.events: list[dict[str, Any]] = []

    def message(self) -> dict[str, Any]:
        """The next message of the browser."""
        while b"\0" not in self.kept:
            piece = os.read(self.take, 1 << 20)
            if not piece:
                raise Fault("the browser ended")
            self.kept += piece
        line, _, self.kept = self.kept.partition(b"\0")
        found: dict[str, Any] = json.loads(line)
        return found

    def send(self, method: str, session: str | None, words: dict[str, Any]) -> int:
        """Sends a message, and gives its number."""
        self.number += 1
        asked = {"id": self.number, "method": method, "params": words, **({"sessionId": session} if session else {})}
        data = memoryview(json.dumps(asked).encode() + b"\0")
        while data:
            data = data[os.write(self.give, data):]
        return self.number

    def call(self, method: str, session: str | None = None, **words: Any) -> dict[str, Any]:
        """What the browser answers to a message."""
        number = self.send(method, session, words)
        while True:
            found = self.message()
            if found.get("id") == number:
                if "error" in found:
                    raise Fault(f"{method}: {found['error']['message']}")
                result: dict[str, Any] = found["result"]
                return result
            if found.get("method") == "Runtime.bindingCalled":
                self.serve(found)
            elif "method" in found:
                self.events.append(found)

    def serve(self, found: dict[str, Any]) -> None:
        """Answers a question of a page without a module."""
        assert self.programs
        asked, begin = json.loads(found["params"]["payload"]), time.monotonic()
        status, output = self.programs.answer(asked["words"], base64.b64decode(asked["text"]))
        heard = [asked["number"], status, base64.b64encode(output).decode(), 1000 * (time.monotonic() - begin)]
        self.send("Runtime.evaluate", found["sessionId"], {"expression": f"hearProgram(...{json.dumps(heard)})"})

    def end(self) -> None:
        """Ends the browser."""
        try:
            self.call("Browser.close")
            self.process.wait(10)
        except (Fault, OSError, subprocess.TimeoutExpired):
            self.process.kill()


class Page:
    """The page in a tab of its own."""

    def __init__(self, browser: Browser, address: str, width: int = 1280, height: int = 800, scheme: str = "light",
                 first: str = ""):
        """Opens the page. `first` is a script that runs before those of the page."""
        self.browser = browser
        self.target = browser.call("Target.createTarget", url="about:blank")["targetId"]
        self.session = browser.call("Target.attachToTarget", targetId=self.target, flatten=True)["sessionId"]
        for domain in ("Page", "Runtime", "Network", "Log"):
            self.call(f"{domain}.enable")
        if browser.programs:
            self.call("Runtime.addBinding", name="askProgram")
        self.call("Emulation.setDeviceMetricsOverride", width=width, height=height, deviceScaleFactor=1, mobile=False)
        self.call("Emulation.setEmulatedMedia", features=[{"name": "prefers-color-scheme", "value": scheme}])
        if first:
            self.call("Page.addScriptToEvaluateOnNewDocument", source=first)
        self.call("Page.navigate", url=address)
        self.wait("document.readyState === 'complete' && ['answered', 'unable'].includes(document.body.dataset.state)")
        if self.value("document.body.dataset.state") == "unable":
            raise Fault(self.answer())

    def call(self, method: str, **words: Any) -> dict[str, Any]:
        """What the browser answers to a message about this tab."""
        return self.browser.call(method, self.session, **words)

    def value(self, text: str) -> Any:
        """The value of an expression in the page."""
        found = self.call("Runtime.evaluate", expression=text, returnByValue=True, awaitPromise=True)
        if "exceptionDetails" in found:
            raise Fault(f"{text}: {found['exceptionDetails'].get('exception', {}).get('description')}")
        return found["result"].get("value")

    def wait(self, text: str, seconds: float = 60) -> None:
        """Waits until an expression is true."""
        end = time.monotonic() + seconds
        while not self.value(text):
            if time.monotonic() > end:
                raise Fault(f"{text} doesn't come in {seconds} seconds")
            time.sleep(0.01)

    def linked(self) -> "Page":
        """Another page, by a link to what this one shows. A link of before is taken off first."""
        self.value("history.replaceState(null, '', location.pathname)")
        self.value("document.getElementById('link').click()")
        self.wait("location.hash.length > 1")
        return Page(self.browser, self.value("location.href"))

    def key(self, name: str, code: int, letter: str = "", modifiers: int = 0) -> None:
        """Presses a key."""
        words = {"key": name, "windowsVirtualKeyCode": code, "code": name, "modifiers": modifiers}
        self.call("Input.dispatchKeyEvent", type="keyDown", **words, **({"text": letter} if letter else {}))
        self.call("Input.dispatchKeyEvent", type="keyUp", **words)

    def type(self, text: str) -> None:
        """Presses the keys of letters."""
        for letter in text:
            self.key(letter, ord(letter.upper()), letter)

    def settled(self, act: Callable[[], object], seconds: float = 60) -> None:
        """Does what changes the question, and waits for its answer."""
        self.value("document.body.dataset.state = 'before'")
        act()
        self.wait("document.body.dataset.state === 'answered'", seconds)

    def all_asked(self) -> None:
        """Waits until nothing is asked any more."""
        self.wait("document.body.dataset.state === 'answered' && document.body.dataset.asked === 'false'")

    def type_into(self, name: str, text: str, seconds: float = 60) -> None:
        """Puts a text in the place of a field's, as by a paste."""
        self.value(f"document.getElementById('{name}').focus(), document.getElementById('{name}').select()")
        self.settled(lambda: self.call("Input.insertText", text=text), seconds)

    def choose(self, name: str, shown: str) -> None:
        """Chooses an item of a list by its name."""
        self.settled(lambda: self.value(f"""(() => {{
            const list = document.getElementById('{name}');
            list.value = [...list.options].find((it) => it.text === {json.dumps(shown)}).value;
            list.dispatchEvent(new Event('change'));
        }})()"""))

    def text(self, name: str) -> str:
        """The text of an element."""
        return str(self.value(f"document.getElementById('{name}').textContent"))

    def texts(self, selector: str) -> list[str]:
        """The texts of the elements of a selector."""
        return list(self.value(f"[...document.querySelectorAll({json.dumps(selector)})].map((it) => it.textContent)"))

    def has(self, command: str) -> bool:
        """Whether the page offers a command."""
        return bool(self.value(f"[...document.getElementById('name').options].some((it) => it.text === '{command}')"))

    def answer(self) -> str:
        """The answer that is shown."""
        return self.text("answer")

    def status(self) -> str:
        """The status that is shown."""
        return self.text("status")

    def shot(self, name: str) -> None:
        """Takes a screenshot."""
        made = self.call("Page.captureScreenshot", format="png")
        (OUT / f"{name}.png").write_bytes(base64.b64decode(made["data"]))

    def end(self) -> None:
        """Closes the tab."""
        self.browser.call("Target.closeTarget", targetId=self.target)
