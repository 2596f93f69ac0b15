"""The page as one file: the script of all modules, the styles, and the data that the page holds.

Each module becomes a function of its own that gives what it exports, so that names of two modules don't meet. What a
module imports stands before it.
"""
import base64
import gzip
import json
import re
import sys
from pathlib import Path

PAGE = Path(__file__).resolve().parent
ROOT = PAGE.parent
SCRIPT = PAGE / "script"
STYLES = ["base", "editor", "answer", "narrow"]
GRAMMAR = ROOT / "editors/vscode/syntaxes/um.tmLanguage.json"
IMPORT = re.compile(r'^import \{([^}]*)\} from "\./(\w+)\.js";\n', re.MULTILINE)
EXPORT = re.compile(r"^export (?=(?:async )?(?:function|class|const|let) (\w+))", re.MULTILINE)
OTHER = re.compile(r"^(?:import|export)\b.*", re.MULTILINE)
COMMANDS = "types annot fmt tidy code run show trace steps eval conform rescale twin prove".split()


def text_of(path: Path) -> str:
    """The text of a file of the page."""
    return path.read_text(encoding="utf-8")


def module(name: str, text: str) -> str:
    """A module as a function that is called at once and gives what it exports."""
    names = EXPORT.findall(text)
    body = EXPORT.sub("", IMPORT.sub(lambda found: f"const {{{found[1]}}} = from_{found[2]};\n", text))
    other = OTHER.search(body)
    if other:
        sys.exit(f"page/script/{name}.js: the page can't be made of '{other[0]}'")
    return f"const from_{name} = (() => {{\n{body}\nreturn {{ {', '.join(names)} }};\n}})();\n"


def script(replaced: dict[str, Path] | None = None, first: str = "page") -> str:
    """The modules that the first one needs, in order. `replaced` has other files for some of them."""
    files, done, found = replaced or {}, set[str](), list[str]()

    def add(name: str, above: tuple[str, ...]) -> None:
        if name in above:
            sys.exit(f"page/script: {' imports '.join([*above, name])}")
        if name in done:
            return
        text = text_of(files.get(name, SCRIPT / f"{name}.js"))
        for _, needed in IMPORT.findall(text):
            add(needed, (*above, name))
        done.add(name)
        found.append(module(name, text))

    add(first, ())
    return '"use strict";\n' + "\n".join(found)


def embedded(text: str) -> str:
    """A text that may stand in a script element."""
    return text.replace("<", "\\u003c")


def questions() -> list[list[str]]:
    """The questions of examples/README.md about a text: their heading, the example's name, the command, its words."""
    heading, found = "", []
    for line in text_of(ROOT / "examples/README.md").splitlines():
        if line.startswith("## "):
            heading = line[3:]
        asked = re.fullmatch(r"\$ \./umc (\w+) ?(.*) < examples/(.*)\.um", line)
        if asked and asked[1] in COMMANDS:
            found.append([heading, asked[3], asked[1], asked[2]])
    return found


def page(wasm: bytes, replaced: dict[str, Path] | None = None) -> str:
    """The page with this module in it."""
    asked = questions()
    texts = {name: text_of(ROOT / f"examples/{name}.um") for _, name, _, _ in asked}
    parts = {
        "STYLE": "\n".join(text_of(PAGE / f"style/{name}.css") for name in STYLES),
        "EXAMPLES": embedded(json.dumps({"texts": texts, "questions": asked}, ensure_ascii=False)),
        "GRAMMAR": embedded(json.dumps(json.loads(text_of(GRAMMAR)), ensure_ascii=False)),
        "MODULE": base64.b64encode(gzip.compress(wasm, mtime=0)).decode(),
        "SCRIPT": script(replaced),
    }
    return re.sub(r"\{\{([A-Z]+)\}\}", lambda found: parts[found[1]], text_of(PAGE / "page.html"))
