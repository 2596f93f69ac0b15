"""Each example and each refusal, over plain JSON-RPC."""
import pytest
from lsp.client import Client, answer, position
from lsp.samples import EVERY, EXAMPLES, MARKED, REFUSED, Example, Refused

RIGHT = sorted(path.name for path in EXAMPLES.glob("*.um"))
# They stand after files of the library, which their first line names.
PROBLEMS = sorted(f"problems/{path.name}" for path in (EXAMPLES / "problems").glob("*.um"))


def test_no_sample_is_left_out() -> None:
    assert {example.file for example in EVERY} == set(RIGHT)
    assert {refused.file for refused in REFUSED} == {path.name for path in (EXAMPLES / "refusals").glob("*.um")}


@pytest.mark.parametrize("file", [*RIGHT, *PROBLEMS])
def test_an_example_has_no_diagnostics(client: Client, file: str) -> None:
    assert client.open((EXAMPLES / file).read_text()).diagnostics == []


@pytest.mark.parametrize("refused", REFUSED, ids=lambda refused: refused.file)
def test_a_refusal_is_shown_at_its_token(client: Client, refused: Refused) -> None:
    text = client.open(refused.text)
    [found] = text.diagnostics
    assert found["range"] == text.span(refused.start, refused.start + len(refused.what))
    assert text.piece(found["range"]) == refused.what
    assert (found["severity"], found["code"], found["source"]) == (1, refused.status, "umc")
    assert found["message"].split("\n")[0] == f"error {refused.status}: {refused.report}"


@pytest.mark.needs("explain")
@pytest.mark.parametrize("refused", [one for one in REFUSED if one.explained], ids=lambda refused: refused.file)
def test_a_refusal_has_its_explanation(client: Client, refused: Refused) -> None:
    [found] = client.open(refused.text).diagnostics
    assert refused.explained in [line.strip() for line in found["message"].split("\n")[1:]]


@pytest.mark.parametrize("example", MARKED)
def test_hover(client: Client, example: Example) -> None:
    shown = client.open(example.text).ask("hover", example.use)
    assert example.shown in shown["contents"]["value"]
    assert shown["contents"]["kind"] == "markdown"


@pytest.mark.parametrize("example", EVERY, ids=lambda example: example.file)
def test_definition(client: Client, example: Example) -> None:
    text = client.open(example.text)
    assert text.ask("definition", example.use)["range"]["start"] == _declared(example)


def _declared(example: Example) -> object:
    """Where a name is declared. That of a unit variable begins with its sign."""
    offset = example.text.index(example.declared)
    return position(example.text, offset - (example.text[offset - 1] == "'"))


@pytest.mark.parametrize("example", EVERY, ids=lambda example: example.file)
def test_rename(client: Client, example: Example) -> None:
    text = client.open(example.text)
    edits = text.ask("rename", example.use, newName=example.new)["changes"][text.uri]
    assert len(edits) == example.count
    renamed = client.open(text.applied(edits), "file:///renamed.um")
    assert renamed.diagnostics == []
    assert len(renamed.ask("references", example.new, context={"includeDeclaration": True})) == example.count


@pytest.mark.needs("tidy")
@pytest.mark.parametrize("file", RIGHT)
def test_formatting(client: Client, file: str) -> None:
    text = client.open((EXAMPLES / file).read_text())
    status, laid_out = answer(["tidy"], text.text)
    assert status == 0
    assert text.applied(text.ask("formatting", options={"tabSize": 2, "insertSpaces": True})) == laid_out


@pytest.mark.needs("tidy")
def test_formatting_keeps_what_is_refused(client: Client) -> None:
    assert client.open("let f = (1").ask("formatting", options={}) is None
