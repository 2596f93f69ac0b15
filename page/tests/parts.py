"""What the page shows besides an answer: why a text is refused, types of parts, runs that went wrong, decimals, many
calls, colours, names that are completed. What the program lacks the page leaves out."""
from checks import FORGOTTEN, ROOT
from browser import Browser, Fault, Page, expect

AREA = (ROOT / "examples/area.um").read_text()
VEHICLE = (ROOT / "examples/vehicle.um").read_text()
WRONG = """\
[<Measure>] type m
[<Measure>] type s
let f (x: num<_>) (y: num<_>) =
  let a = x + 1<m> in
  let b = y + 1<s> in
  x + y
"""
DEEP = "let rec g (n: num) : num = if n < 1 then 1 / n else g (n - 1)\nlet f (n: num) = g n + 1\n"
CONTROL = 2
# A value that took more milliseconds has decimals on demand alone (script/decimals.js).
SOON = 500


def on_screen(page: Page, line: int, offset: int) -> tuple[float, float]:
    """The middle of the character at an offset of a line, from its layer."""
    found = page.value(f"""(() => {{
        const walker = document.createTreeWalker(document.getElementById('colours').children[{line - 1}], 4);
        let left = {offset};
        for (let node = walker.nextNode(); node; node = walker.nextNode()) {{
            if (left < node.length) {{
                const range = document.createRange();
                range.setStart(node, left);
                range.setEnd(node, left + 1);
                const box = range.getBoundingClientRect();
                return [box.left + box.width / 2, box.top + box.height / 2];
            }}
            left -= node.length;
        }}
        return null;
    }})()""")
    if found is None:
        raise Fault(f"line {line} has no character {offset}")
    return found[0], found[1]


def point(page: Page, line: int, offset: int) -> str | None:
    """What is shown beside the pointer over a character."""
    x, y = on_screen(page, line, offset)
    page.call("Input.dispatchMouseEvent", type="mouseMoved", x=x, y=y)
    return page.text("tip") if page.value("!document.getElementById('tip').hidden") else None


def cursor(page: Page, before: str) -> str:
    """What is shown of the part at the cursor, which stands after this text."""
    position = len(before.encode("utf-16-le")) // 2
    page.value(f"""new Promise((done) => {{
        document.getElementById('text').focus();
        document.getElementById('text').setSelectionRange({position}, {position});
        setTimeout(done, 50);
    }})""")
    return page.text("type")


def explanation(page: Page, _: str) -> str | None:
    page.choose("name", "types")
    page.type_into("text", WRONG)
    page.all_asked()
    expect(page.answer(), "error 9: units of f at 6:5\n", "the refusal")
    if page.value("document.getElementById('explained').hidden"):
        return "the program has no 'explain'"
    lines = page.text("explained").split("\n")
    expect(lines[:6], ["6 |   x + y", "  |     ^", "the two sides of this sum must have the same type",
                       "  left: num<m>", "  right: num<s>", "  factor: s/m"], "the explanation")
    expect(page.texts("#explained button"), ["4:13", "5:13"], "the places that it names")
    expect([page.texts("#marks .first"), page.texts("#marks .other")], [["+"], ["+", "+"]], "what is marked")
    first = "[...document.getElementById('marks').children].findIndex((it) => it.querySelector('.other')) + 1"
    expect(page.value(first), 4, "the line of the first of the other marks")
    page.value("document.querySelector('#explained button').click()")
    expect(page.value("document.getElementById('text').selectionStart"), WRONG.index("+ 1<m>"), "the cursor's place")
    page.shot("page-explanation-light")
    for text, more in (("let f (x: num) = y\nlet yy = 1\n", []), ("let cat = 1\nlet dog = cta\n", ["similar: cat"]),
                       ("let k = 1\nlet k = 2\n", ["declared before at 1:5"]),
                       ("let f (x: num) =\n  let y = x\nlet g = 1\n", ["the let at 2:3 has no in"])):
        page.type_into("text", text)
        page.all_asked()
        said = page.text("explained").split("\n")
        expect([line for line in more if line not in said], [], f"what isn't said of {text!r}: {said}")
    expect(page.texts("#marks .other"), ["let"], "the `let` without `in`")
    page.type_into("text", AREA)
    expect(page.value("document.getElementById('explained').hidden"), True, "that no explanation is left")
    return None


def types_of_parts(page: Page, _: str) -> str | None:
    page.choose("name", "types")
    text = AREA + "// wörter 😀\nlet f (p: num<m>) (q: num) =\n\tlet x = 2.5<m^2/m> in\n\tx + p * 1 // é\n"
    page.type_into("text", text)
    page.all_asked()
    if not page.has("annot"):
        expect(point(page, 2, 37), None, "what is shown without types")
        return "the program has no 'annot'"
    expect(point(page, 2, 37), "* : num<m^2>", "the type under the pointer")
    page.shot("page-hover-light")
    expect(point(page, 2, 6), "area : num<m> -> num<m> -> num<m^2>", "the scheme of a function where it is declared")
    expect(point(page, 2, 1), None, "what is shown at a word")
    expect(point(page, 5, 13), "2.5<m^2/m> : num<m>", "the type of a number with the pointer on its unit")
    expect(point(page, 6, 1), "x : num<m>", "the type after a tab")
    expect(point(page, 4, 14), "m : base measure", "what a measure stands for")
    page.key("Escape", 27)
    expect(page.value("document.getElementById('tip').hidden"), True, "that Escape hides it")
    expect(cursor(page, text[:text.index("* ")]), "* : num<m^2>", "the type at the cursor")
    expect(cursor(page, text[:text.index("* 1")]), "* : num<m>", "the type at the cursor further down")
    expect(cursor(page, text[:text.index("p * 1") + 1]), "p : num<m>", "the type directly after a name")
    expect(cursor(page, text[:3]), "", "what is shown where no part stands")
    page.type_into("text", FORGOTTEN)
    page.all_asked()
    expect(cursor(page, FORGOTTEN[:FORGOTTEN.index("+")]), "", "what is shown of a text that is refused")
    return None


def trace(page: Page, _: str) -> str | None:
    page.choose("name", "run")
    page.type_into("text", DEEP)
    page.type_into("words", "99 f 2")
    page.all_asked()
    expect(page.answer(), "error 12: division by zero\n", "the trap")
    is_offered = page.value("!document.getElementById('trace').hidden")
    expect(is_offered, page.has("trace"), "that a trace is offered if the program has it")
    if not is_offered:
        return "the program has no 'trace'"
    expect(page.value("document.getElementById('explained').hidden"), True, "that nothing is traced before")
    page.value("document.getElementById('trace').click()")
    page.wait("!document.getElementById('explained').hidden")
    lines = page.text("explained").split("\n")
    expect(lines, ["error 12: division by zero in g at 1:44", "1 | " + DEEP.split("\n")[0], "  | " + " " * 43 + "^",
                   "  left: 1", "  right: 0", *["called from g at 1:53"] * 2, "called from f at 2:18"], "the trace")
    expect([page.texts("#marks .first"), page.texts("#marks .other")], [["/"], ["g", "g"]], "what is marked")
    page.shot("page-trace-light")
    page.type_into("words", "2 f 2")
    expect([page.answer(), page.value("document.getElementById('explained').hidden")],
           ["error 13: budget\n", True], "the budget's end")
    page.value("document.getElementById('trace').click()")
    page.wait("!document.getElementById('explained').hidden")
    expect(page.text("explained").split("\n")[0], "error 13: budget in g at 1:53", "where the budget came to its end")
    page.choose("name", "trace")
    expect([page.answer(), page.status(), page.texts("#marks .first")],
           ["error 13: budget in g at 1:53\n", "done", ["g"]], "the command itself")
    page.type_into("words", "9 f 0")
    page.type_into("text", "let f (n: num) = n + 1\n")
    expect(page.answer(), "1\n", "the trace of a run that ends well")
    return None


def decimals(page: Page, _: str) -> str | None:
    page.choose("name", "run")
    page.type_into("text", VEHICLE)
    page.type_into("words", "9 kinetic '2<kg>' '3.5<m/s>'")
    page.all_asked()
    is_shown = page.value("!document.getElementById('decimals').hidden")
    expect(is_shown, page.has("show"), "that there are fields if the program has 'show'")
    if not is_shown:
        return "the program has no 'show'"
    page.value("document.getElementById('digits').value = '2'")

    def fill(name: str, text: str) -> str:
        page.value(f"document.getElementById('{name}').value = {text!r};"
                   f"document.getElementById('{name}').dispatchEvent(new Event('input', {{ bubbles: true }}))")
        page.all_asked()
        return page.text("decimal")

    expect(fill("units", "kJ=1000<J>, J"), "~0.01<kJ>", "the value in a size of one's own")
    expect(fill("digits", "5"), "0.01225<kJ>", "with more digits")
    page.shot("page-decimals-light")
    expect(fill("units", "q"), "error 11: no such unit", "a unit that isn't there")
    expect(fill("units", "J +"), "These digits or units can't be read.", "what is no unit")
    expect(fill("units", "J"), "12.25000<J>", "after it")
    page.type_into("words", "9 kinetic '4<kg>' '1<m/s>'")
    if page.value("parseFloat(document.getElementById('time').textContent)") >= SOON - 1:
        page.value("document.getElementById('decimals').requestSubmit()")
    page.all_asked()
    expect([page.answer(), page.text("decimal")], ["2<kg m^2/s^2>\n", "2.00000<J>"], "the fields under the next value")
    page.type_into("words", "9 kinetic")
    page.all_asked()
    expect(page.value("document.getElementById('decimals').hidden"), True, "that a refusal has no fields")
    return None


def calls(page: Page, _: str) -> str | None:
    if not page.has("calls"):
        expect(page.value("document.getElementById('calls-field').hidden"), True, "the field")
        return "the program has no 'calls'"
    page.choose("name", "types")
    page.type_into("text", VEHICLE)
    page.choose("name", "calls")
    page.type_into("words", "99")
    page.type_into("calls", "kinetic '2<kg>' '3<m/s>'\n\nmean\t[1<m>; 2<m>]\nmean []\n")
    expect(page.texts("#answer tbody td"),
           ["kinetic 2<kg> 3<m/s>", "9<kg m^2/s^2>", "", "", "mean [1<m>; 2<m>]", "3r2<m>", "mean []",
            "error 12: division by zero"], "the calls and their answers")
    page.shot("page-calls-light")
    other = page.linked()
    expect(other.texts("#answer tbody td")[5], "3r2<m>", "an answer after the link")
    other.end()
    page.value("history.replaceState(null, '', location.pathname)")
    page.type_into("text", FORGOTTEN)
    page.all_asked()
    expect(page.answer(), "error 9: units of f at 3:35\n", "the refusal of the program")
    expect(page.texts("#marks .first"), ["+"], "its mark")
    page.choose("name", "types")
    expect(page.value("document.getElementById('calls-field').hidden"), True, "that the field is for `calls` alone")
    return None


def colours(page: Page, _: str) -> str | None:
    page.choose("name", "types")
    page.type_into("text", "[<Measure>] type m\nlet f (x: num<m>) = if true then 2.5<m> else x // let\n")
    found = page.value("[...document.querySelectorAll('#colours span')].map((it) => [it.textContent, it.className])")
    kinds = {"Measure": "word", "type": "word", "m": "unit", "let": "word", "f": "function", "num": "type",
             "if": "word", "true": "truth", "2.5": "number", "// let": "comment", "x": ""}
    wrong = [(text, kind) for text, kind in found if text in kinds and kinds[text] != kind]
    expect([wrong, sorted(kinds.keys() - {text for text, _ in found})], [[], []], "the colours")
    expect(page.value("document.getElementById('colours').textContent"), page.value(
        "document.getElementById('text').value").replace("\n", ""), "the letters under the field")
    colour = page.value("getComputedStyle(document.getElementById('text')).color")
    expect(colour, "rgba(0, 0, 0, 0)", "the field's own letters")
    page.settled(lambda: page.value("""(() => {
        const text = document.getElementById('text');
        text.value = 'let k = 1\\n'.repeat(6000) + 'let last = true\\n';
        text.dispatchEvent(new Event('input'));
        text.scrollTop = 1e9;
    })()"""))
    page.wait("document.getElementById('colours').textContent.endsWith('let last = true')")
    expect(page.texts("#colours .truth"), ["true"], "the colours of the last lines")
    return None


def names(page: Page, _: str) -> str | None:
    page.choose("name", "types")
    page.type_into("text", AREA + "let height = 3<m>\nlet h = ")
    page.all_asked()
    page.type("hei")
    expect(page.texts("#names code"), ["height"], "the names that fit")
    chosen = "document.getElementById('text').getAttribute('aria-activedescendant')"
    expect(page.value(chosen), None, "that none is chosen")
    page.key("ArrowDown", 40)
    expect(page.value("document.querySelector('#names [aria-selected=true]').id"), page.value(chosen),
           "the name that is chosen")
    page.shot("page-names-light")
    page.settled(lambda: page.key("Enter", 13))
    expect(page.value("document.getElementById('text').value").endswith("let h = height"), True, "that it is put in")
    expect(page.value("document.getElementById('names').hidden"), True, "that the list closes")
    page.type(" + 2<")
    page.key(" ", 32, modifiers=CONTROL)
    expect(page.texts("#names code"), ["m"], "the measures in a unit")
    page.settled(lambda: page.key("Tab", 9))
    expect(page.value("document.getElementById('text').value").endswith("height + 2<m"), True, "that Tab puts it in")
    page.settled(lambda: page.type("> + whe"))
    expect(page.value("document.getElementById('names').hidden"), True, "that nothing is shown where nothing fits")
    page.type("i")
    page.key("Escape", 27)
    page.key("Tab", 9)
    expect(page.value("document.activeElement.id !== 'text'"), True, "that Tab goes on without a choice")
    return None


CHECKS = [explanation, types_of_parts, trace, decimals, calls, colours, names]
LATER = ["explain", "annot", "show", "trace", "calls", "tidy"]


def older(browser: Browser, address: str) -> str | None:
    """A program without the later commands: each is asked for once, and nothing of it is there."""
    assert browser.programs
    browser.programs.without = set(LATER)
    browser.programs.asked.clear()
    page = Page(browser, address)
    try:
        expect([name for name in LATER if page.has(name)], [], "the commands that are offered")
        for check in CHECKS:
            check(page, "")
        asked = [words[0] for words in browser.programs.asked if words[0] in LATER]
        expect(sorted(asked), sorted(LATER), "how often these commands were asked for")
    finally:
        browser.programs.without = set()
        page.end()
    return None
