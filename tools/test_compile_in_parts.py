"""Tests of `tools/compile_in_parts` with the kit's compiler: `python3 -m pytest tools/test_compile_in_parts.py`."""
import re
import subprocess
from importlib.machinery import SourceFileLoader
from importlib.util import module_from_spec, spec_from_loader
from pathlib import Path

import pytest

from repository import kit_folder

LOADER = SourceFileLoader("compile_in_parts", str(Path(__file__).with_name("compile_in_parts")))
TOOL = module_from_spec(spec_from_loader("compile_in_parts", LOADER))
LOADER.exec_module(TOOL)

WORDS = "--no-default-config --target=x86_64-unknown-linux-gnu -Wno-override-module -fPIE -O1 -c -x ir".split()
# `main` ends with 41 + 41 + 7 + 111 - 1. Its functions call one another across parts and back, by a table too.
MODULE = r"""
target triple = "x86_64-unknown-linux-gnu"
@word = private unnamed_addr constant [3 x i8] c"odd", align 1
@alone = private constant <{ ptr, i64 }> <{ ptr @alone, i64 7 }>, align 8
@count = private unnamed_addr global i64 40, align 8
@table = private unnamed_addr constant [1 x ptr] [ptr @"low::right"], align 8

define i32 @main() {
  %a = call i64 @"low::left::<#1>"(i64 1)
  %t = load ptr, ptr @table, align 8
  %b = call i64 %t(i64 %a)
  %c = trunc i64 %b to i32
  ret i32 %c
}

define internal i64 @"low::left::<#1>"(i64 %a) noinline {
  %b = load i64, ptr @count, align 8
  %c = add i64 %a, %b
  store i64 %c, ptr @count, align 8
  ret i64 %c
}

declare void @llvm.trap()

define internal i64 @"low::right"(i64 %a) noinline {
  %p = getelementptr i8, ptr @alone, i64 8
  %b = load i64, ptr %p, align 8
  %s = load ptr, ptr @alone, align 8
  %same = icmp eq ptr %s, @alone
  br i1 %same, label %good, label %bad

good:
  %c = call i64 @"low::left::<#1>"(i64 0)
  %d = load i8, ptr @word, align 1
  %e = zext i8 %d to i64
  %f = add i64 %b, %c
  %g = add i64 %f, %e
  %h = add i64 %g, %a
  %i = sub i64 %h, 1
  ret i64 %i

bad:
  ret i64 0
}

define internal void @"nobody's"() {
  call void @llvm.trap()
  unreachable
}
"""


# `even` and `odd` call one another, as `even2` and `odd2` do. `even3` calls `odd`, and `odd3` ends with another number.
# `main` ends with 1 + 2 + 0 + 4.
ALIKE = "".join(
    f"""
define {kept} i32 @{name}(i32 %a) noinline {{
  %c = icmp eq i32 %a, 0
  br i1 %c, label %end, label %on
on:
  %b = sub i32 %a, 1
  %d = call i32 @{other}(i32 %b)
  ret i32 %d
end:
  ret i32 {number}
}}
"""
    for kept, name, other, number in [
        ("internal", "even", "odd", 1), ("internal", "odd", "even", 0), ("internal", "even2", "odd2", 1),
        ("internal", "odd2", "even2", 0), ("internal", "even3", "odd", 1), ("internal", "odd3", "even3", 2),
        ("", "seen", "even", 0),
    ]
) + """
@table = private unnamed_addr constant [2 x ptr] [ptr @even3, ptr @odd3]
define i32 @main() {
  %a = call i32 @even(i32 6)
  %b = call i32 @odd3(i32 0)
  %c = call i32 @odd2(i32 8)
  %p = load ptr, ptr @table
  %d = call i32 %p(i32 2)
  %e = mul i32 %d, 4
  %f = add i32 %a, %b
  %g = add i32 %f, %c
  %h = add i32 %g, %e
  ret i32 %h
}
"""


def clang() -> Path:
    return kit_folder() / "toolchain" / "bin" / "clang"


@pytest.mark.parametrize("count", [1, 2, 3, 8])
@pytest.mark.parametrize(("module", "status"), [(MODULE, 41 + 41 + 7 + 111 - 1), (ALIKE, 1 + 2 + 0 + 4)])
def test_parts_make_the_same_program(tmp_path: Path, module: str, status: int, count: int) -> None:
    (tmp_path / "module.bc").write_text(module)
    words = [*WORDS, str(tmp_path / "module.bc"), "-o", str(tmp_path / "module.o")]
    assert TOOL.compile_parts(str(clang()), words, words[-3], count) == 0
    subprocess.run(["cc", tmp_path / "module.o", "-o", tmp_path / "program"], check=True)
    assert subprocess.run([tmp_path / "program"]).returncode == status


def test_functions_that_do_the_same_are_one() -> None:
    _, functions = TOOL.functions_of(ALIKE)
    assert TOOL.same_as(functions) == {"@even2": "@even", "@odd2": "@odd", "@even3": "@even"}
    assert "@odd2" not in "".join(TOOL.texts(ALIKE, 2)) and "ptr @even, ptr @odd3" in TOOL.texts(ALIKE, 2)[0]


def test_each_is_defined_once() -> None:
    parts = TOOL.texts(MODULE, 3)
    text = "".join(parts)
    for name in ("main", '"low::left::<#1>"', '"low::right"'):
        assert len(re.findall(rf"^define (?!available_externally ).*@{name}\(", text, re.M)) == 1
    assert text.count("global i64 40") == text.count("i64 7 }>") == 1
    assert "nobody's" not in text


def test_long_functions_are_only_declared_elsewhere(monkeypatch: pytest.MonkeyPatch) -> None:
    assert "available_externally" in "".join(TOOL.texts(MODULE, 3))
    monkeypatch.setattr(TOOL, "SHORT", 0)
    text = "".join(TOOL.texts(MODULE, 3))
    assert "available_externally" not in text and 'declare hidden i64 @"low::right"(i64 %a)' in text


def test_the_compilers_refusal_is_the_status(tmp_path: Path, capfd: pytest.CaptureFixture[str]) -> None:
    (tmp_path / "module.bc").write_text(MODULE.replace("ret i32 %c", "ret i32 %a"))
    words = [*WORDS, str(tmp_path / "module.bc"), "-o", str(tmp_path / "module.o")]
    assert TOOL.compile_parts(str(clang()), words, words[-3], 2) == 1
    assert "error: " in capfd.readouterr().err and not (tmp_path / "module.o").exists()
