"""What docs/LIBRARY.md says beside the functions: the table of overflows, that of costs, and what stands for map."""
import re
import shlex
from collections.abc import Callable

from library_files import HOME, LIBRARY, all_in_order, in_order, joined, needs

DOCUMENT = (HOME / "docs" / "LIBRARY.md").read_text(encoding="utf-8")
ANSWERED = re.compile(r"\| `([^`]+)` \| (\d+) \|")
FITTING = re.compile(r"\| [^|`]+ \| `([^`]+)` \| `([^`]+)` \|")
STANDS = re.compile(r"\| `(\w+)\.um` \| [^|]+ \| (?:`([\w ]+)` )?\|")


def test_what_fits_and_what_overflows(program: Callable[..., str]) -> None:
    rows = FITTING.findall(DOCUMENT)
    assert len(rows) >= 6
    for fits, overflows in rows:
        assert not program(f"let k = {fits}\n", "run", "1", "k").startswith("error"), fits
        assert program(f"let k = {overflows}\n", "run", "1", "k") == "error 12: overflow", overflows


def test_what_calls_cost(program: Callable[..., str]) -> None:
    text = joined(all_in_order([LIBRARY / "si.um", LIBRARY / "money.um"]))
    rows = ANSWERED.findall(DOCUMENT)
    assert len(rows) >= 8
    for call, count in rows:
        words = shlex.split(call)
        assert not program(text, "run", count, *words).startswith("error"), call
        assert program(text, "run", str(int(count) - 1), *words) == "error 13: budget", call


def test_what_each_file_stands_after() -> None:
    rows = dict(STANDS.findall(DOCUMENT))
    assert len(rows) == 8
    for stem, before in rows.items():
        path = LIBRARY / f"{stem}.um"
        assert {each.stem for each in in_order(path)} - {stem} == set(before.split())
        assert set(needs(path)) <= set(before.split())


def test_what_stands_for_map(program: Callable[..., str]) -> None:
    block = DOCUMENT.split("## In place of map")[1].split("```")[1]
    text = joined(all_in_order([LIBRARY / "si.um", LIBRARY / "list.um"])) + block
    assert program(text, "run", "99", "in_metres", "[1<ft>; 10<ft>]") == "[381r1250<m>; 381r125<m>]"
    assert program(text, "run", "99", "positive", "[1<ft>; -1<ft>; 0<ft>; 2<ft>]") == "[1<ft>; 2<ft>]"
    assert program(text, "run", "99", "product", "[2; 3; 7]") == "42"
