"""The server's reading of names, held against the program: a name with all its uses can be renamed."""
import re
import sys
from pathlib import Path

import pytest
from lsp.client import HOME, answer
from lsp.samples import EXAMPLES

sys.path.insert(0, str(HOME / "python"))

from umc.lsp.names import Sort  # noqa: E402
from umc.lsp.placed import Name  # noqa: E402
from umc.lsp.positions import Lines, changed  # noqa: E402
from umc.lsp.reading import Reading  # noqa: E402
from umc.lsp.rename import are_alike, order_for, replaced  # noqa: E402
from umc.lsp.tokens import Kind, split  # noqa: E402

RARE = """\ufeff// names of each kind that hide each other, and the forms of the grammar that are rare
[<Measure>]type m[<Measure>]type s
[<Measure>] type v=m/s [<Measure>] type in_verse = /s^-2 (m s)^2 * 1
type R<[<Measure>] 'u,[<Measure>] 'v>={f:num<'u>;g:num<'v> list;h:bool}
type S = { r: R<m, s> list; f2: (num) }
let m = 1<m> let s (m: num<m>) : (num<m/s>) = let s = 2<s> in m / s
let f<[<Measure>] 'u> (f: num<'u>) (_: num) = let f = f + f in (let f = [f] in match f with [] -> 0<_> | f :: _ -> f)
let rec g (x: num<'a> list) (y: num<_>) : num<'a> =
  match x with [] -> (match x with | [] -> 0<_> | x :: y -> x) | x :: r -> if x < 1 * x && not (x >= x) then
    let y = g r y in y + x else match r with [] -> x | y :: _ -> let x = y in x
let h (r: R<m, s>) (l: R<_, _> list) = { r = r :: l; f2 = if r.h then pown 2 3 else -(1) }
let k (a: S) = match a.r with [] -> ([] : R<m, s> list) | r :: a -> { f = r.f; g = 1<s> :: r.g; h = true } :: a
let l (x: bool) = if let y = x in y then let y = 1 in y else (if x then 2 else let x = 3 in x) + (let x = 4 in x)
let
rec i (x: num) : num =
let y = x in let z =
let w = y in w in
z
let n (x: num) (y: num) = [let z = x in z; let z = y in z; x; f 1 2 - f (-1) 2]
"""
FILES = sorted(EXAMPLES.glob("*.um"))
TEXTS = [pytest.param(RARE, id="rare"), *(pytest.param(file.read_text(), id=file.name) for file in FILES)]


def fresh(at: int, name: Name) -> str:
    """A name that stands in no text, and that of the at-th name alone."""
    return f"{chr(39) if name.sort is Sort.UNIT else ''}zz{at}zz"


@pytest.mark.parametrize("text", TEXTS)
def test_all_names_can_be_renamed_at_once(text: str) -> None:
    """With another name for each, the program has the same code, certificates and types.

    A use that isn't found, or that is taken for one of another name, would make it another program or none.
    """
    reading = Reading(text)
    assert reading.unknown == []
    found = {token.start: (token, fresh(at, name)) for at, name in enumerate(reading.names) for token in name.tokens}
    assert sorted(found) == [token.start for token in reading.every(0, len(text))
                             if token.kind in (Kind.NAME, Kind.VARIABLE)]
    renamed = text
    for start in sorted(found, reverse=True):
        token, new = found[start]
        renamed = renamed[:start] + new + renamed[token.end:]
    old = {fresh(at, name): name.text for at, name in enumerate(reading.names)}
    for order in ("code", "prove", "types"):
        status, printed = answer([order], renamed)
        assert status == 0, printed
        back = re.sub(r"'?zz[0-9]+zz", lambda one: old[one[0]], printed)
        assert are_alike(back, answer([order], text)[1], "", "")


@pytest.mark.parametrize("name", [name for name in Reading(RARE).names if name.text == "x"][:4],
                         ids=lambda name: str(name.token.start))
def test_a_use_that_is_left_out_is_noticed(name: Name) -> None:
    """The comparison tells programs apart."""
    hidden = replaced(RARE, name.tokens[:-1], "zz9")
    status, printed = answer([order_for(name.sort)], hidden)
    assert status != 0 or not are_alike(printed, answer([order_for(name.sort)], RARE)[1], "x", "zz9")


def test_printed_lines_with_another_name_are_alike() -> None:
    before = "f : num<m s> -> num\ng : num<s m/kg>\n"
    assert are_alike(before, "f : num<m s> -> num\nh : num<m s/kg>\n", "g", "h")
    assert are_alike("", "", "g", "h")
    for after in ("f : num<m s> -> num\n", "f : num<m s> -> num\ni : num<m s/kg>\n", before + before,
                  "f : num<m s> -> num\nh : num<m/kg>\n", "g : num<m s> -> num\nh : num<m s/kg>\n"):
        assert not are_alike(before, after, "g", "h")


@pytest.mark.parametrize("text", TEXTS)
def test_tokens_are_the_text(text: str) -> None:
    tokens = split(text)
    assert all(text[token.start:token.end] == token.text for token in tokens)
    between = [text[a:b] for a, b in zip([0, *(token.end for token in tokens)],
                                         [*(token.start for token in tokens), len(text)])]
    assert set("".join(between)) <= set(" \t\r\n\ufeff")


@pytest.mark.parametrize("text, kinds", [
    ("x é1 मीटर _ _a let", "name name name hole name word"), ("'u 'é '", "variable variable bad"),
    ("12 2.5 7r2 3. 4r 5.x", "number number number number sign number name number sign name"),
    ("[< > >= <= <> :: || | && & -> - //c", "sign sign sign sign sign sign sign sign sign sign bad sign sign comment"),
    ("é² a€b", "name bad name bad name"), ("café 'mètre aé1b x_é", "name variable name name"),
    ("x//y\r\nz", "name comment name"), ("\ufeffx \ufeff", "name bad")])
def test_kinds(text: str, kinds: str) -> None:
    assert [token.kind.value for token in split(text)] == kinds.split()


def test_positions_and_offsets() -> None:
    text = "a\U0001f600b\r\nc\rd\n\U0001f600"
    lines = Lines(text)
    for offset in range(len(text) + 1):
        if text[offset - 1:offset + 1] != "\r\n":
            assert lines.offset(lines.position(offset)) == offset
    assert lines.position(2) == {"line": 0, "character": 3}
    assert lines.offset({"line": 0, "character": 2}) == 1
    assert lines.offset({"line": 0, "character": 99}) == 3
    assert lines.offset({"line": 99, "character": 0}) == len(text)
    assert (lines.at(1, 3), lines.at(2, 1), lines.at(2, 3), lines.at(9, 9)) == (2, 5, 7, len(text))


def test_changes() -> None:
    where = {"start": {"line": 0, "character": 1}, "end": {"line": 1, "character": 0}}
    assert changed(Lines("ab\ncd"), [{"range": where, "text": "X\n"}, {"text": "y"}]).text == "y"
    assert changed(Lines("ab\ncd"), [{"range": where, "text": "X\n"}]).text == "aX\ncd"


def test_a_text_that_is_cut_off() -> None:
    """A declaration without its end doesn't take the next one in."""
    text = "let f (x: num) =\nlet g (x: num) = let y = 1 in x + y\nlet h = (\nlet i =\n  let z = 1 in g z\n"
    reading = Reading(text)
    assert [declaration.name.text for declaration in reading.declarations if declaration.name] == ["f", "g", "h", "i"]
    assert reading.unknown == []


def test_a_local_let_that_is_cut_off() -> None:
    """It is none of the text if it doesn't stand at the beginning of a line."""
    reading = Reading("let f = let y = 1\nlet g = 2\n")
    assert [declaration.name.text for declaration in reading.declarations if declaration.name] == ["f", "g"]


def test_samples_are_found() -> None:
    assert len(FILES) >= 9 and all(isinstance(file, Path) for file in FILES)
