"""What the server answers, request by request."""
from collections.abc import Callable
from typing import Any

import pytest
from lsp.client import Client, Failed, Json, Text, answer, position

UNITS = "[<Measure>] type m\n[<Measure>] type s\n[<Measure>] type kg\n[<Measure>] type N = kg m / s^2\n"
BODY = UNITS + """type Body<[<Measure>] 'u> = { pos: num<'u>; vel: num<'u/s> }
// the square of a number
// in its unit
let square (x: num<_>) = x * x
let half = 0.5
let rec total (l: num<_> list) : num<_> =
  match l with
  | [] -> 0<_>
  | x :: r -> x + total r
let move (b: Body<_>) (t: num<s>) =
  let way = b.vel * t in
  { pos = b.pos + way; vel = b.vel }
"""


def labels(found: Any) -> list[str]:
    return [item["label"] for item in found["items"]]


def details(found: Any) -> dict[str, str]:
    return {item["label"]: item.get("detail", "") for item in found["items"]}


def written(text: Text, more: str, mark: str = "§") -> tuple[Text, Json]:
    """A text with more after it, and the place of the mark in it, which is left out."""
    whole = text.text + more
    offset = whole.index(mark)
    text.replace(whole.replace(mark, "", 1))
    return text, position(text.text, offset)


# ---- diagnostics

DISAGREE = """[<Measure>] type m
[<Measure>] type s
let f (x: num<_>) (y: num<_>) =
  let a = x + 1<m> in
  let b = y + 1<s> in
  x + y
"""


@pytest.mark.needs("explain")
def test_other_equations_are_related_places(client: Client) -> None:
    text = client.open(DISAGREE)
    [found] = text.diagnostics
    assert found["message"] == ("error 9: units of f\nthe two sides of this sum must have the same type\n"
                                "  left: num<m>\n  right: num<s>\n  factor: s/m")
    assert [(text.piece(one["location"]["range"]), one["location"]["range"]["start"]["line"])
            for one in found["relatedInformation"]] == [("+", 3), ("+", 4)]
    assert found["relatedInformation"][0]["message"].split("\n") == [
        "the two sides of this sum must have the same type", "left: num<'a>", "right: num<m>"]


@pytest.mark.needs("explain")
def test_an_editor_without_related_places_has_them_in_the_message(start: Callable[..., Client]) -> None:
    [found] = start(capabilities={}).open(DISAGREE).diagnostics
    assert "since\n  4:13 the two sides" in found["message"] and "relatedInformation" not in found


@pytest.mark.needs("explain")
def test_the_earlier_declaration_is_a_related_place(client: Client) -> None:
    text = client.open("let f = 1\nlet f = 2\n")
    [found] = text.diagnostics
    assert found["message"] == "error 7: declared twice\ndeclared before at 1:5"
    assert found["relatedInformation"][0]["location"]["range"] == text.span(4, 5)


def test_the_end_of_a_text_is_shown_at_the_last_token(client: Client) -> None:
    text = client.open("let f = (1 + 2\n\n")
    [found] = text.diagnostics
    assert (found["code"], text.piece(found["range"])) == (5, "2")


def test_a_text_that_is_too_long(client: Client) -> None:
    [found] = client.open("// " + "x" * 1048576).diagnostics
    assert found["code"] == 2 and found["range"]["start"] == {"line": 0, "character": 0}


# ---- hover

@pytest.mark.parametrize("use, shown", [
    ("square (x", "square : num<'a> -> num<'a^2>"), ("square (x", "the square of a number\nin its unit"),
    ("m / s", "[<Measure>] type m"), ("N = kg", "abbreviation; stands for `kg m/s^2`"),
    ("Body<_>", "type Body<[<Measure>] 'u> = { pos: num<'u>; vel: num<'u/s> }"), ("vel = b", "vel : num<'u/s>"),
    ("'u/s", "unit parameter of Body"), ("x * x", "x : num<'a>"), ("_>) = x", "<'a>"), ("half", "half : num")])
def test_hover(client: Client, use: str, shown: str) -> None:
    assert shown in client.open(BODY).ask("hover", use)["contents"]["value"]


@pytest.mark.needs("annot")
@pytest.mark.parametrize("use, shown", [("* t in", "num<'a>"), ("way; vel", "way : num<'a>"), ("0.5", "num"),
                                        ("vel * t", "here `num<'a/s>`"), ("0<_>", "num<'a>"),
                                        ("{ pos = b", "Body<'a>")])
def test_hover_of_parts(client: Client, use: str, shown: str) -> None:
    assert shown in client.open(BODY).ask("hover", use)["contents"]["value"]


def test_nothing_is_shown_where_nothing_is(client: Client) -> None:
    assert client.open(BODY).ask("hover", "// the square") is None


def test_plain_text_for_an_editor_without_markdown(start: Callable[..., Client]) -> None:
    client = start(capabilities={"textDocument": {"hover": {"contentFormat": ["plaintext"]}}})
    assert client.open("let half = 0.5").ask("hover", "half")["contents"] == {
        "kind": "plaintext", "value": "half : num"}


def test_types_of_the_rest_of_a_refused_text(client: Client) -> None:
    text = client.open(BODY + "let wrong = square true\nlet users = wrong + 1\nlet right (x: num<m>) = square x\n")
    assert text.diagnostics[0]["code"] == 8
    assert "right : num<m> -> num<m^2>" in text.ask("hover", "right")["contents"]["value"]
    assert "its type isn't known" in text.ask("hover", "wrong")["contents"]["value"]
    assert "`kg m/s^2`" in text.ask("hover", "N = kg")["contents"]["value"]


# ---- completion

@pytest.mark.parametrize("more, wanted, unwanted", [
    ("let f (x: num<kg>) = x + §", ["x", "square", "half", "move", "total"], ["kg", "way", "f", "m"]),
    ("let f (x: num<§", ["m", "s", "kg", "N"], ["square", "Body"]),
    ("let f = 1<k§> + 1", ["kg", "N"], ["half"]),
    ("[<Measure>] type J = N §", ["m", "N"], ["square", "J"]),
    ("let f (x: num<'u>) (y: num<'§", ["'u", "m"], ["square"]),
    ("let f (b: Bo§", ["Body"], ["m", "square"]),
    ("let f (b: Body<m>) = b.§", ["pos", "vel"], ["square", "b"]),
    ("let f = let y = 1 in let z = 2 in §", ["y", "z", "half"], ["f"]),
    ("let f = (let y = 1 in y) + §", ["half"], ["y"]),
    ("let rec f (l: num list) : num = match l with [] -> 0 | x :: r -> §", ["x", "r", "l", "f"], []),
    ("let f (half: num) = ha§", ["half"], []),
    ("let §", [], ["half", "square"]),
    ("let f (x§", [], ["half", "square", "m"]),
    ("// ha§", [], ["half"])])
def test_completion(client: Client, more: str, wanted: list[str], unwanted: list[str]) -> None:
    text, place = written(client.open(BODY), more)
    found = text.client.request("textDocument/completion", {**text.identity, "position": place})
    names = labels(found) if found else []
    assert [name for name in wanted if name not in names] == []
    assert [name for name in unwanted if name in names] == []
    assert len(names) == len(set(names))


def test_completion_has_types(client: Client) -> None:
    text, place = written(client.open(BODY), "let f (x: num<kg>) = §1")
    assert text.diagnostics == []
    found = details(text.client.request("textDocument/completion", {**text.identity, "position": place}))
    assert found["x"] == "num<kg>"
    assert found["square"] == "num<'a> -> num<'a^2>"
    assert found["half"] == "num"


def test_completion_in_a_unit_says_what_it_stands_for(client: Client) -> None:
    text, place = written(client.open(BODY), "let f = 1<§m>")
    found = details(text.client.request("textDocument/completion", {**text.identity, "position": place}))
    assert (found["N"], found["kg"]) == ("= kg m/s^2", "base measure")


def test_what_is_completed_takes_the_place_of_the_word(client: Client) -> None:
    text, place = written(client.open(BODY), "let f = squ§")
    found = text.client.request("textDocument/completion", {**text.identity, "position": place})
    item = next(item for item in found["items"] if item["label"] == "square")
    assert text.applied([item["textEdit"]]) == BODY + "let f = square"


@pytest.mark.needs("explain")
@pytest.mark.parametrize("more, wanted, unwanted", [
    ("let f = §", ["if", "match", "let", "true", "not"], ["then", "in", "num", "with"]),
    ("let f = if true §", ["then"], ["if", "let", "square"]),
    ("let f (x: §", ["num", "bool"], ["list", "if"]),
    ("let f (x: num §", ["list"], ["bool", "let"]),
    ("§", ["let", "type"], ["in", "num"])])
def test_words_are_those_that_the_program_expects(client: Client, more: str, wanted: list[str],
                                                  unwanted: list[str]) -> None:
    text, place = written(client.open(BODY), more)
    names = labels(text.client.request("textDocument/completion", {**text.identity, "position": place}))
    assert [name for name in wanted if name not in names] == []
    assert [name for name in unwanted if name in names] == []


@pytest.mark.needs("explain")
@pytest.mark.parametrize("more", ["let wrong (x num) = x\nlet f (x: num) = x + §",
                                  "let wrong = if true\nlet f (x: num) = x + §",
                                  "let f (x: num) = if x + (x num) then x + §"])
def test_a_fault_of_form_before_takes_no_names_away(client: Client, more: str) -> None:
    text, place = written(client.open(BODY), more)
    names = labels(text.client.request("textDocument/completion", {**text.identity, "position": place}))
    assert {"x", "half", "square"} <= set(names)


# ---- signature help

@pytest.mark.parametrize("more, label, argument", [
    ("let f = square §", "square (x: num<'a>) : num<'a^2>", 0),
    ("let f = square 1<m>§", "square (x: num<'a>) : num<'a^2>", 0),
    ("let f (b: Body<m>) = move b §", "move (b: Body<'a>) (t: num<s>) : Body<'a>", 1),
    ("let f (b: Body<m>) = move b (1<s> + §", "move (b: Body<'a>) (t: num<s>) : Body<'a>", 1),
    ("let f (b: Body<m>) = move b (square §", "square (x: num<'a>) : num<'a^2>", 0),
    ("let f (b: Body<m>) = [move b.pos §", "move (b: Body<'a>) (t: num<s>) : Body<'a>", 1),
    ("let f = 1 + half §", "half : num", 0),
    ("let f = 1 + §", None, 0), ("let f = square 1 + §", None, 0), ("let f = (square 1) §", None, 0)])
def test_signature_help(client: Client, more: str, label: str | None, argument: int) -> None:
    text, place = written(client.open(BODY), more)
    found = text.client.request("textDocument/signatureHelp", {**text.identity, "position": place})
    if label is None:
        assert found is None
    else:
        assert found["signatures"][0]["label"] == label
        assert found["activeParameter"] == argument


def test_a_signature_has_its_comment_and_the_places_of_its_parameters(client: Client) -> None:
    text, place = written(client.open(BODY), "let f = square §")
    [found] = text.client.request("textDocument/signatureHelp", {**text.identity, "position": place})["signatures"]
    assert found["documentation"] == "the square of a number\nin its unit"
    [start, end] = found["parameters"][0]["label"]
    assert found["label"][start:end] == "(x: num<'a>)"


def test_parameters_as_texts_for_an_editor_without_their_places(start: Callable[..., Client]) -> None:
    text, place = written(start(capabilities={}).open(BODY), "let f (b: Body<m>) = move b §")
    [found] = text.client.request("textDocument/signatureHelp", {**text.identity, "position": place})["signatures"]
    labels = [parameter["label"] for parameter in found["parameters"]]
    assert labels == ["(b", "(t"] and all(label in found["label"] for label in labels)


# ---- names

def test_references(client: Client) -> None:
    text = client.open(BODY)
    every = text.ask("references", "way", context={"includeDeclaration": True})
    assert [text.piece(one["range"]) for one in every] == ["way", "way"]
    assert len(text.ask("references", "way", context={"includeDeclaration": False})) == 1
    assert len(text.ask("documentHighlight", "vel")) == 4
    assert text.ask("references", "+ way", context={"includeDeclaration": True}) is None


def test_a_hidden_name_is_another(client: Client) -> None:
    text = client.open("let f (x: num) = let x = (let x = x in x) + x in match [x] with [] -> x | x :: y -> x")
    assert [[one["range"]["start"]["character"] for one in text.ask("references", mark, more=more, context={})]
            for mark, more in (("x: num", 0), ("x = (", 0), ("x = x", 0), ("x :: y", 0))] == [
                [34, 44], [56, 70], [39], [84]]


@pytest.mark.parametrize("text, mark, new, why", [
    ("let f (x: num) = let y = 1 in x + y", "y =", "x", "another program"),
    ("let f (x: num) = let y = 1 in x + y", "x:", "y", "another program"),
    ("let g = 1\nlet f (x: num) = x + g", "x:", "g", "another program"),
    ("let g = 1\nlet f (x: num) = x + g", "g =", "x", "another program"),
    ("let g = 1\nlet f (x: num) = x + g", "g =", "f", "declared twice"),
    ("let g = 1\nlet f (x: num) = x + g", "g =", "in", "in is no name"),
    ("let g = 1\nlet f (x: num) = x + g", "g =", "a b", "a b is no name"),
    ("let g = 1\nlet f (x: num) = x + g", "g =", "_", "_ is no name"),
    ("let g = 1\nlet f (x: num) = x + g", "g =", "", "is no name"),
    ("let f (x: num<'u>) (y: num<'v>) = x + y", "'u", "'v", "f has 'v already"),
    ("type r = { a: num; b: num }", "a:", "b", "declared twice"),
    ("[<Measure>] type m\n[<Measure>] type s\nlet f = 1<m>", "m\n", "s", "declared twice"),
    ("let f = 1 + true\nlet g = f", "f =", "h", "the program is refused"),
    ("let f = 1", "f", "2x", "2x is no name")])
def test_a_rename_that_would_be_another_program_is_refused(client: Client, text: str, mark: str, new: str,
                                                           why: str) -> None:
    with pytest.raises(Failed) as failed:
        client.open(text).ask("rename", mark, newName=new)
    assert why in str(failed.value)


@pytest.mark.parametrize("text, mark, new, after", [
    ("let f (x: num) = let y = x in y", "x:", "y", "let f (y: num) = let y = y in y"),
    ("let f (x: num<'u>) = x\nlet g (x: num<'v>) = x", "'u", "v", "let f (x: num<'v>) = x\nlet g (x: num<'v>) = x"),
    ("[<Measure>] type b\n[<Measure>] type a\nlet f = 1<b/a> * 2<b^2>", "b\n", "z",
     "[<Measure>] type z\n[<Measure>] type a\nlet f = 1<z/a> * 2<z^2>"),
    ("[<Measure>] type m\nlet m (m: num<m>) = m", "m\n", "f", "[<Measure>] type f\nlet m (m: num<f>) = m"),
    ("[<Measure>] type m\nlet m (m: num<m>) = m", "m:", "f", "[<Measure>] type m\nlet m (f: num<m>) = f"),
    ("type R = { a: num }\nlet f (r: R) = { a = r.a }", "a:", "f", "type R = { f: num }\nlet f (r: R) = { f = r.f }"),
    ("let f = 1", "f", "f", "let f = 1")])
def test_rename(client: Client, text: str, mark: str, new: str, after: str) -> None:
    opened = client.open(text)
    edits = opened.ask("rename", mark, newName=new)["changes"].get(opened.uri, [])
    assert opened.applied(edits) == after


def test_prepare_rename(client: Client) -> None:
    text = client.open(BODY)
    found = text.ask("prepareRename", "way")
    assert (text.piece(found["range"]), found["placeholder"]) == ("way", "way")
    assert text.ask("prepareRename", "0.5") is None


# ---- outlines, folding, colours

def test_document_symbols(client: Client) -> None:
    found = client.open(BODY).ask("documentSymbol")
    assert [one["name"] for one in found] == ["m", "s", "kg", "N", "Body", "square", "half", "total", "move"]
    assert {one["name"]: one["detail"] for one in found}["square"] == "num<'a> -> num<'a^2>"
    assert [one["name"] for one in found[4]["children"]] == ["pos", "vel"]


def test_folding(client: Client) -> None:
    found = client.open(BODY).ask("foldingRange")
    assert [(one["startLine"], one["endLine"], one["kind"]) for one in found] == [
        (9, 12, "region"), (13, 15, "region"), (5, 6, "comment")]


def tokens(client: Client, text: Text, data: list[int]) -> list[tuple[str, str, list[str]]]:
    """Semantic tokens as texts with their types and modifiers."""
    legend = client.server["capabilities"]["semanticTokensProvider"]["legend"]
    found, line, column = [], 0, 0
    for at in range(0, len(data), 5):
        down, right, length, kind, modifiers = data[at:at + 5]
        line, column = line + down, right + (column if down == 0 else 0)
        piece = text.piece({"start": {"line": line, "character": column},
                            "end": {"line": line, "character": column + length}})
        found.append((piece, legend["tokenTypes"][kind],
                      [name for bit, name in enumerate(legend["tokenModifiers"]) if modifiers >> bit & 1]))
    return found


def test_semantic_tokens(client: Client) -> None:
    text = client.open("[<Measure>] type 𝑚 // 𝑚\nlet f (x: num<𝑚>) = let y = 2.5<𝑚> in x + y")
    found = tokens(client, text, text.ask("semanticTokens/full")["data"])
    assert found == [
        ("Measure", "decorator", []), (">", "operator", []), ("type", "keyword", []),
        ("𝑚", "enumMember", ["declaration", "readonly"]), ("// 𝑚", "comment", []), ("let", "keyword", []),
        ("f", "function", ["declaration"]), ("x", "parameter", ["declaration"]), ("num", "type", []),
        ("<", "operator", []), ("𝑚", "enumMember", ["readonly"]), (">", "operator", []), ("=", "operator", []),
        ("let", "keyword", []), ("y", "variable", ["declaration"]), ("=", "operator", []), ("2.5", "number", []),
        ("<", "operator", []), ("𝑚", "enumMember", ["readonly"]), (">", "operator", []), ("in", "keyword", []),
        ("x", "parameter", []), ("+", "operator", []), ("y", "variable", [])]
    part = text.ask("semanticTokens/range", range=text.span(text.text.index("x + y"), text.text.index("x + y") + 1))
    assert tokens(client, text, part["data"]) == [("x", "parameter", [])]


# ---- hints and actions

def test_inlay_hints_of_annotations(client: Client) -> None:
    text = client.open(UNITS + "type P<[<Measure>] 'u, [<Measure>] 'v> = { a: num<'u>; b: num<'v> }\n"
                       "let f (x: num<_>) (p: (P<_, m> list)) (_: P<_, _>) : num<_> = x + 1<m>\n")
    found = text.ask("inlayHint", range=text.span(text.text.index("let f")))
    assert [one["label"] for one in found] == [": m", ": 'a", ": 'b", ": 'c", ": m"]
    assert text.ask("inlayHint", range=text.span(0, 10)) == []


@pytest.mark.needs("annot")
def test_inlay_hints_of_zeros_and_empty_lists(client: Client) -> None:
    text = client.open(UNITS + "let f = 0<_> + 1<m>\nlet g = 1<s> :: ([] : num<_> list)\n")
    assert [one["label"] for one in text.ask("inlayHint", range=text.span())] == [": m", ": s"]


def actions(text: Text, mark: str, **context: Any) -> list[Json]:
    where = text.place(mark)
    found: list[Json] = text.client.request("textDocument/codeAction", {
        **text.identity, "range": {"start": where, "end": where}, "context": {"diagnostics": [], **context}})
    return found


def test_the_inferred_unit_takes_the_place_of_a_hole(client: Client) -> None:
    text = client.open(UNITS + "let f (x: num<_>) (y: num<_>) = x * 1<s> + y * 1<m>")
    one, every = actions(text, "_>) =")
    assert (one["title"], every["title"]) == ("Write the inferred unit s 'a/m", "Write the inferred units of f")
    after = text.applied(every["edit"]["changes"][text.uri])
    assert "_" not in after
    assert answer(["types"], after) == answer(["types"], text.text)
    assert actions(text, "_>) =", only=["quickfix"]) == []


def test_a_unit_that_cant_stand_at_a_number_is_not_offered(client: Client) -> None:
    assert [one["title"] for one in actions(client.open("let zero = 0<_>"), "_")] == []


@pytest.mark.parametrize("text, mark, title, after", [
    ("let square = 1\nlet f = sqare", "sqare", "Write square for sqare", "let square = 1\nlet f = square"),
    ("[<Measure>] type metre\nlet f = 1<meter>", "meter", "Write metre for meter",
     "[<Measure>] type metre\nlet f = 1<metre>"),
    ("let f (x: num) =\n  let y = x + 1\n  y * 2\n", "y * 2", "Write the missing in",
     "let f (x: num) =\n  let y = x + 1 in\n  y * 2\n"),
    ("let f (x: num) =\n  let y = x +\n    x // c\n  y\nlet g = 1\n", "y\nlet", "Write the missing in",
     "let f (x: num) =\n  let y = x +\n    x in // c\n  y\nlet g = 1\n"),
    ("let f (x: num) = let y = x * 2 y", "2 y", "Write the missing in", "let f (x: num) = let y = x * 2 in y")])
def test_a_fix(client: Client, text: str, mark: str, title: str, after: str) -> None:
    opened = client.open(text)
    assert opened.diagnostics
    found = {one["title"]: one for one in actions(opened, mark)}
    assert title in found
    assert found[title]["kind"] == "quickfix" and found[title]["diagnostics"][0]["source"] == "umc"
    assert opened.applied(found[title]["edit"]["changes"][opened.uri]) == after
    assert answer(["types"], after)[0] == 0


def test_no_fix_where_none_helps(client: Client) -> None:
    assert actions(client.open("let f = (1 + 2"), "2") == []
    assert actions(client.open("let f = unheard_of"), "unheard") == []
