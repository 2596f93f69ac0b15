"""Tests of the tool for the table of runs: `python3 -m pytest tools/test_answers.py`."""
import argparse
import importlib.machinery
import importlib.util
import sys
from pathlib import Path
from types import ModuleType

import pytest

from repository import ROOT

TABLE = """# a comment
text two lines
| let k = 1
* 2  + 1
$ run 9 f "1 2" 3
= 0
| 4r5\\x3Cm>
$ types
< 7 each
= 5
+ error
"""


def tool() -> ModuleType:
    """The tool as a module."""
    loader = importlib.machinery.SourceFileLoader("answers", str(ROOT / "tools" / "answers"))
    spec = importlib.util.spec_from_loader("answers", loader)
    assert spec
    module = importlib.util.module_from_spec(spec)
    sys.modules["answers"] = module
    loader.exec_module(module)
    return module


answers = tool()


def test_a_table_has_questions_about_texts() -> None:
    first, second = answers.questions(TABLE.split("\n"))
    assert first.text == second.text == b"let k = 1\n + 1 + 1"
    assert (first.words, first.status, first.answer) == ([b"run", b"9", b"f", b"1 2", b"3"], 0, b"4r5<m>\n")
    assert (second.words, second.status, second.answer) == ([b"types"], 5, b"error")
    assert (second.sources, second.each, second.faults) == (1, ("<", "7 each"), True)


def test_a_repeated_piece_may_have_the_number_of_its_round() -> None:
    assert answers.line_bytes("*", r"3 f\k\x20\K;") == b"f1 2;f2 3;f3 4;"
    assert answers.line_bytes("*", r"2 \n") == b"\n\n"


@pytest.mark.parametrize("data", [b"", b"one\ntwo\n", b"no end", b"\\ \x00\xff\xef\xbb\xbf\n", b" spaces  \n"])
def test_plain_lines_stand_for_the_bytes(data: bytes) -> None:
    lines = answers.plain(data)
    assert b"".join(answers.line_bytes(*line.partition(" ")[::2]) for line in lines) == data


def test_a_question_that_no_command_line_asks_is_left_out() -> None:
    first, second = answers.questions(TABLE.split("\n"))
    every = argparse.Namespace(only=None, status=None)
    assert answers.is_asked(first, every)
    assert not answers.is_asked(second, every)
    assert not answers.is_asked(first, argparse.Namespace(only="three", status=None))
    assert not answers.is_asked(first, argparse.Namespace(only="two", status=5))


def test_what_is_printed_is_what_stands_there() -> None:
    before = Path(answers.SHOWN).read_text(encoding="utf-8")
    found = list(answers.questions(Path(answers.TABLE).read_text(encoding="utf-8").split("\n")))
    assert answers.printed(found, before) == before
