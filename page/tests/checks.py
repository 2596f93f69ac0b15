"""What the page is tried with: the program's answers, the fields, and how it looks."""
import json
import os
import re
import shlex
import subprocess
from pathlib import Path

from browser import Browser, Page, expect

ROOT = Path(__file__).resolve().parents[2]

TWIN = "vehicle: twin 1 kg=1000,m=100 kinetic '2<kg>' '3<m/s>'"
FORGOTTEN = "[<Measure>] type m\n[<Measure>] type s\nlet f (x: num<m>) (y: num<s>) = x + y\n"


def documented() -> dict[str, tuple[list[str], str, list[str]]]:
    """The examples by their names in the list, each with its words, its file and its answer in examples/README.md."""
    found, lines = {}, None
    with open(os.path.join(ROOT, "examples", "README.md"), encoding="utf-8") as file:
        for line in file:
            asked = re.fullmatch(r"\$ \./umc (\w+) ?(.*) < examples/(.*)\.um\n", line)
            if asked:
                lines = []
                title = f"{asked[3]}: {asked[1]} {asked[2]}".rstrip()
                found[title] = ([asked[1], *shlex.split(asked[2])], asked[3], lines)
            elif line.startswith(("$", "```")):
                lines = None
            elif lines is not None:
                lines.append(line)
    return found


def first_run(page: Page, _: str) -> str | None:
    title, (_, _, lines) = next(iter(documented().items()))
    expect(page.value("document.getElementById('example').value"), title, "the first example")
    expect(page.answer(), "".join(lines), "the first answer")
    expect(page.status(), "done", "its status")
    page.shot("page-wide-light")
    return "first answer " + page.value("document.getElementById('time').textContent")


def shown(page: Page) -> str:
    """The answer as the program writes it."""
    if page.value("document.querySelector('.twins') === null"):
        return page.answer()
    return "".join(f"{it}\n" for it in page.texts(".twins pre"))


def examples(page: Page, _: str) -> str | None:
    listed = page.value("[...document.getElementById('example').options].slice(1).map((it) => it.text)")
    answers, other = documented(), []
    for title in listed:
        page.choose("example", title)
        if shown(page) != "".join(answers[title][2]):
            other.append(f"{title}: {shown(page)!r}")
    expect(other, [], "answers that differ from the document's")
    return f"{len(listed)} examples"


def refusal(page: Page, _: str) -> str | None:
    page.choose("name", "types")
    page.type_into("text", FORGOTTEN)
    expect(page.answer(), "error 9: units of f at 3:35\n", "the refusal")
    expect(page.status(), "status 9", "its status")
    expect(page.value("document.querySelector('#marks .first').textContent"), "+", "what is marked")
    expect(page.value("document.querySelector('#numbers b').textContent.trim()"), "3", "the line that is marked")
    marked = page.value("""(() => {
        const { left, top } = document.querySelector('#marks .first').getBoundingClientRect();
        const text = document.getElementById('text').getBoundingClientRect();
        const context = document.createElement('canvas').getContext('2d');
        context.font = getComputedStyle(document.getElementById('text')).font;
        const width = context.measureText('m').width;
        return [(left - text.left - 10) / width + 1, Math.floor((top - text.top - 10) / 20) + 1];
    })()""")
    expect([round(it, 1) for it in marked], [35, 3], "the column and the line of the mark")
    page.value("document.getElementById('go').click()")
    expect(page.value("document.activeElement.id"), "text", "where the keyboard goes")
    expect(page.value("document.getElementById('text').selectionStart"), FORGOTTEN.index("+"), "the caret's place")
    page.shot("page-refusal-light")


def typing(page: Page, _: str) -> str | None:
    page.type_into("text", "let k = 1")
    expect(page.answer(), "k : num\n", "the answer before")
    page.value("document.getElementById('text').setSelectionRange(9, 9)")
    page.settled(lambda: [page.key(it, ord(it), it) for it in "23"])
    expect(page.value("document.getElementById('text').value"), "let k = 123", "what was typed")
    page.choose("name", "fmt")
    expect(page.answer(), "let k = 123\n", "the layout")


def run(page: Page, _: str) -> str | None:
    page.choose("example", "vehicle: run 1 metres '10<ft>'")
    expect(page.answer(), "381r125<m>\n", "the value")
    page.type_into("words", "1 metres true")
    expect(page.answer(), "error 11: argument 1, shape at 1\n", "the refusal of an argument")
    page.value("document.getElementById('go').click()")
    expect(page.value("document.activeElement.id"), "words", "where the keyboard goes")
    expect(page.value("document.getElementById('words').selectionStart"), 9, "the place in the words")
    page.type_into("words", '9 mean "[1<m>;2<m>]" more')
    expect(page.answer(), "error 11: wrong number of arguments\n", "the refusal of a call")


def twin(page: Page, _: str) -> str | None:
    page.choose("example", TWIN)
    expect(page.value("[...document.querySelectorAll('.twins pre')].map((it) => it.textContent)"),
           ["9<kg m^2/s^2>", "90000000<kg m^2/s^2>"], "the two values")
    expect(page.value("""(() => {
        const [one, other] = [...document.querySelectorAll('.twins figure')].map((it) => it.getBoundingClientRect());
        return one.top === other.top && one.right < other.left;
    })()"""), True, "that they stand beside each other")
    page.shot("page-twin-light")


def large_text(size: int) -> str:
    """A program of so many bytes: as many functions as may be, filled up by comments."""
    lines = [f"let f{k} (x: num<_>) (y: num<_>) = x * y / (x + x) + y * {k}" for k in range(2000)]
    left = size - sum(len(line) + 1 for line in lines)
    each = left // 2000 - 3
    text = "".join(f"{line} //{'-' * each}\n" for line in lines)
    return text + "/" * (size - len(text))


def whole_megabyte(page: Page, _: str) -> str | None:
    page.choose("name", "types")
    text = large_text(1 << 20)
    page.value(f"navigator; window.large = {json.dumps(text)}; null")
    put = "document.getElementById('text').value = large; document.getElementById('text').oninput()"
    page.settled(lambda: page.value(f"{put}"))
    lines = page.answer().splitlines()
    expect([len(lines), lines[0], lines[-1]],
           [2000, "f0 : num<'a> -> num<'b> -> num<'b>", "f1999 : num<'a> -> num<'b> -> num<'b>"],
           "the types of a text of 1,048,576 bytes")
    times = [page.value("document.getElementById('time').textContent")]
    for _ in range(3):
        page.settled(lambda: page.value(put))
        times.append(page.value("document.getElementById('time').textContent"))
    page.value("document.getElementById('text').scrollTop = 1e9")
    page.wait("document.getElementById('numbers').textContent.trim().endsWith('2001')")
    page.settled(lambda: page.value(f"large += '/'; {put}"))
    expect(page.answer(), "error 2: text too long\n", "the answer to one byte more")
    page.value("window.large = null")
    return "types of 1,048,576 bytes: " + ", ".join(times)


def not_utf8(page: Page, folder: str) -> str | None:
    page.choose("name", "types")
    path = os.path.join(folder, "latin.um")
    with open(path, "wb") as file:
        file.write(b"let k = 1\n// caf\xe9\n")

    def put() -> None:
        found = page.call("Runtime.evaluate", expression="document.getElementById('file')")["result"]["objectId"]
        page.call("DOM.setFileInputFiles", files=[path], objectId=found)
    page.settled(put)
    expect(page.answer(), "error 3: not UTF-8 at 2:7\n", "the refusal of bytes that aren't UTF-8")
    expect(page.value("document.getElementById('held').textContent !== ''"), True, "that the page says so")
    page.type_into("text", "let k = 2\n")
    expect(page.answer(), "k : num\n", "the answer after an edit")
    expect(page.value("document.getElementById('held').textContent"), "", "that the bytes are gone")


def deep(page: Page, _: str) -> str | None:
    """Texts of the greatest height, and the greatest number of calls in one another."""
    page.choose("name", "types")
    for text in ("(" * 399 + "1" + ")" * 399, "1 + (" * 199 + "1" + ")" * 199, "if true then 1 else " * 399 + "1",
                 "let x = " * 399 + "1" + " in x" * 399):
        page.type_into("text", f"let k = {text}")
        expect(page.answer(), "k : num\n", f"the answer to {text[:12]}..")
    page.type_into("text", "let rec f (n: num) : num = 1 + f n\n")
    page.choose("name", "run")
    page.type_into("words", "10000000 f 1", 300)
    expect(page.answer(), "error 13: budget\n", "the end of 10,000,000 calls")
    return "10,000,000 calls in " + page.value("document.getElementById('time').textContent")


def link(page: Page, _: str) -> str | None:
    page.choose("example", "mechanics: conform kinetic 'num<kg> -> num<m/s> -> num<J>'")
    page.type_into("text", FORGOTTEN + "// gemäß 😀\n")
    other = page.linked()
    for name in ("text", "name", "words"):
        ask = f"document.getElementById('{name}').value"
        expect(other.value(ask), page.value(ask), f"what the link holds of {name}")
    expect(other.answer(), page.answer(), "the answer of the link")
    other.end()


def keyboard(page: Page, _: str) -> str | None:
    page.choose("example", "vehicle: run 9 mean '[1<m>; 2<m>; 6<m>]'")
    page.value("document.getElementById('example').focus()")
    reached = ["example"]
    for _ in range(6):
        page.key("Tab", 9)
        reached.append(page.value("document.activeElement.id"))
    expect(reached, ["example", "name", "words", "open", "link", "text", "pane"], "what Tab reaches")


def no_other_file(page: Page, _: str) -> str | None:
    sent = [it["params"]["request"]["url"] for it in page.browser.events if it["method"] == "Network.requestWillBeSent"]
    expect([it for it in sent if not it.startswith(("file:", "data:", "blob:"))], [], "what the page asks of a network")
    said = [it for it in page.browser.events if it["method"] in ("Runtime.exceptionThrown", "Log.entryAdded")]
    expect([json.dumps(it["params"])[:300] for it in said], [], "what the page complains of")


CHECKS = [first_run, examples, refusal, typing, run, twin, whole_megabyte, not_utf8, link, keyboard]
OF_THE_MODULE = [deep]


def looks(browser: Browser, address: str) -> None:
    """The page in light and dark, wide and narrow: nothing stands out of the window."""
    for width, height, size in ((1280, 800, "wide"), (400, 860, "narrow")):
        for scheme in ("light", "dark"):
            page = Page(browser, address, width, height, scheme)
            page.choose("name", "types")
            page.type_into("text", FORGOTTEN)
            expect(page.value("document.documentElement.scrollWidth <= innerWidth"), True, f"that a {size} page fits")
            page.shot(f"page-{size}-refusal-{scheme}")
            page.choose("example", TWIN)
            page.shot(f"page-{size}-twin-{scheme}")
            page.end()


def compared(page: Page, program: str) -> str:
    """Every example's answer and status against another program's."""
    asked = documented()
    for title in page.value("[...document.getElementById('example').options].slice(1).map((it) => it.text)"):
        page.choose("example", title)
        words, name, _ = asked[title]
        with open(os.path.join(ROOT, "examples", f"{name}.um"), "rb") as text:
            ran = subprocess.run([*shlex.split(program), *words], stdin=text, stdout=subprocess.PIPE)
        expect(shown(page), ran.stdout.decode(), f"{title}: the answer")
        expect(page.status(), f"status {ran.returncode}" if ran.returncode else "done", f"{title}: the status")
    return f"{len(asked)} examples"
