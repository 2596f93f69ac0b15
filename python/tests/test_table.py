"""table: calls of a function on the rows of a CSV file."""
import csv
import io
import os
import pty
import shlex
import signal
import subprocess
import sys
from fractions import Fraction
from pathlib import Path
from typing import Any

import pytest

from conftest import HOME, UM, Um, Write, answer
from waiting import WAIT, wait_for

pytestmark = pytest.mark.needs("calls")
VEHICLE = "examples/vehicle.um"
MOTION = "mass [kg],speed [m/s]\n2,3\n1.5,2\n"


def rows(output: str) -> list[list[str]]:
    return list(csv.reader(io.StringIO(output)))


def test_each_row_is_a_call(um: Um) -> None:
    found = um("table", VEHICLE, "kinetic", "-", stdin=MOTION)
    assert (found.status, found.err) == (0, "")
    assert found.out == "mass [kg],speed [m/s],kinetic [kg m^2/s^2]\n2,3,9\n1.5,2,3\n"


def test_each_result_is_that_of_run(um: Um, tmp_path: Path) -> None:
    data = tmp_path / "data.csv"
    data.write_text("d [ft]\n" + "".join(f"{n / 8}\n" for n in range(-40, 40)))
    found = rows(um("table", VEHICLE, "metres", data, "--chunk", "7").out)
    assert found[0] == ["d [ft]", "metres [m]"]
    assert len(found) == 81
    for cell, result in found[1::13]:
        line = answer(["run", "9", "metres", f"{cell}<ft>"], (HOME / VEHICLE).read_bytes())[1]
        assert Fraction(result) == Fraction(line.removesuffix("<m>\n").replace("r", "/"))
    assert [Fraction(result) for _, result in found[1:]] == [
        Fraction(n, 8) * Fraction("0.3048") for n in range(-40, 40)]


@pytest.mark.parametrize("rows_of_a_chunk", ["1", "2", "3", "100"])
def test_chunks_change_nothing(um: Um, rows_of_a_chunk: str) -> None:
    data = "a,b\n" + "".join(f"{n},{n + 1}\n" for n in range(8))
    found = um("table", "examples/mechanics.um", "ratio", "-", "--chunk", rows_of_a_chunk, stdin=data)
    assert [row[2] for row in rows(found.out)] == ["ratio", "0", "0.5", "2/3", "0.75", "0.8", "5/6", "6/7", "0.875"]


def test_columns_are_chosen_by_their_names(um: Um) -> None:
    data = "id,speed [m/s],note,mass [kg]\na,3,\"x, y\",2\nb,2,,1.5\n"
    found = um("table", VEHICLE, "kinetic", "-", "--columns", "mass,speed", stdin=data)
    assert rows(found.out) == [["id", "speed [m/s]", "note", "mass [kg]", "kinetic [kg m^2/s^2]"],
                               ["a", "3", "x, y", "2", "9"], ["b", "2", "", "1.5", "3"]]
    found = um("table", VEHICLE, "kinetic", "-", "--columns", "mass [kg],speed", "--only-results", stdin=data)
    assert found.out == "kinetic [kg m^2/s^2]\n9\n3\n"


def test_units_may_stand_beside_the_data(um: Um) -> None:
    data = "mass,speed\n2,3\n"
    assert um("table", VEHICLE, "kinetic", "-", "--units", "kg,m/s", stdin=data).out.endswith("\n2,3,9\n")
    data = "mass [g],speed [m/s]\n2,3\n"
    assert um("table", VEHICLE, "kinetic", "-", "--units", "kg,", stdin=data).out.endswith("\n2,3,9\n")
    found = um("table", VEHICLE, "kinetic", "-", "--units", "kg", stdin=data)
    assert (found.status, found.out) == (65, "")
    assert found.err == "um: <stdin>:1: --units has 1 unit for 2 columns\n"


def test_the_fields_of_a_record_are_columns(um: Um) -> None:
    data = "body,t [s]\n{ pos = 1<m>; vel = 2<m/s> },3\n{ pos = 0.5<m>; vel = 0<m/s> },1\n"
    found = um("table", VEHICLE, "move", "-", stdin=data)
    assert rows(found.out) == [["body", "t [s]", "move.pos [m]", "move.vel [m/s]"],
                               ["{ pos = 1<m>; vel = 2<m/s> }", "3", "7", "2"],
                               ["{ pos = 0.5<m>; vel = 0<m/s> }", "1", "0.5", "0"]]


def test_truth_values_lists_and_results_without_a_unit(um: Um, program: Write) -> None:
    file = program("type P = { a: num list; b: bool }\nlet f (x: bool) (l: num list) = { a = l; b = not x }")
    data = "x,l\ntrue,[1; 2.5]\nFALSE, [] \n"
    assert rows(um("table", file, "f", "-", stdin=data).out) == [
        ["x", "l", "f.a", "f.b"], ["true", "[1; 2.5]", "[1; 5r2]", "false"], ["FALSE", " [] ", "[]", "true"]]


def test_a_result_is_exact_unless_it_is_rounded(um: Um, program: Write) -> None:
    file = program("let third (x: num) = x / 3")
    data = "x\n1\n3\n0.5\n-1.5\n0.375\n"
    assert [row[1] for row in rows(um("table", file, "third", "-", stdin=data).out)[1:]] == [
        "1/3", "1", "1/6", "-0.5", "0.125"]
    assert [row[1] for row in rows(um("table", file, "third", "-", "--digits", "2", stdin=data).out)[1:]] == [
        "0.33", "1.00", "0.17", "-0.50", "0.12"]
    assert [row[1] for row in rows(um("table", file, "third", "-", "--digits", "0", stdin="x\n1.5\n-1\n4.5\n").out)[1:]
            ] == ["0", "0", "2"]


@pytest.mark.parametrize("cell, why", [("", "the cell is empty"), ("  ", "the cell is empty"),
                                       ("two", "'two' isn't a number"), ("1,5", "'1,5' isn't a number")])
def test_a_cell_is_refused_with_its_row_and_column(um: Um, cell: str, why: str) -> None:
    data = f'mass [kg],speed [m/s]\n2,3\n"{cell}",1\n1,2\n'
    found = um("table", VEHICLE, "kinetic", "-", stdin=data)
    assert found.status == 65
    assert found.out == "mass [kg],speed [m/s],kinetic [kg m^2/s^2]\n2,3,9\n"
    assert found.err.startswith("<stdin>:3: column 'mass [kg]': ") and found.err.endswith(" (row 2)\n")
    assert why in found.err
    found = um("table", VEHICLE, "kinetic", "-", "--keep-going", stdin=data)
    assert (found.status, found.out) == (65, "mass [kg],speed [m/s],kinetic [kg m^2/s^2]\n2,3,9\n1,2,2\n")


@pytest.mark.needs("trace")
@pytest.mark.needs("explain")
def test_a_refused_call_is_told_with_its_row(um: Um, program: Write) -> None:
    file = program("[<Measure>] type m\nlet inverse (x: num<m>) = 1 / x")
    data = "x [m]\n1\n0\n2\n9223372036854775808\n4\n"
    found = um("table", file, "inverse", "-", stdin=data)
    assert (found.status, found.out) == (12, "x [m],inverse [/m]\n1,1\n")
    trace = f"um trace {shlex.quote(str(file))} inverse '0<m>'"
    assert found.err == f"<stdin>:3: error 12: division by zero\nrow 2\n{trace} says where\n"
    assert "in inverse at 2:29" in um(*shlex.split(trace)[1:]).out
    found = um("table", file, "inverse", "-", "--keep-going", stdin=data)
    assert (found.status, found.out) == (12, "x [m],inverse [/m]\n1,1\n2,0.5\n4,0.25\n")
    assert found.err.splitlines()[3:] == [
        "<stdin>:5: error 11: argument 1, text at 1", "row 4, column 'x [m]'", "  | 9223372036854775808<m>", "  | ^",
        "a number has at most 38 digits, no denominator 0, and parts that fit 64 bits"]


@pytest.mark.needs("explain")
def test_it_is_told_once_why_rows_are_refused(um: Um) -> None:
    data = "mass [kg],speed [m/s^2]\n2,3\n1,2\n"
    found = um("table", VEHICLE, "kinetic", "-", "--keep-going", stdin=data)
    assert (found.status, found.err.splitlines()) == (11, [
        "<stdin>:2: error 11: units of the arguments", "row 1",
        "argument 2 of kinetic must have the type of its parameter", "  parameter: num<m/s>", "  argument: num<m/s^2>",
        "  factor: /s",
        "<stdin>:3: error 11: units of the arguments", "row 2"])
    first, second = um("table", VEHICLE, "kinetic", "-", "--keep-going", "--json", stdin=data).objects
    assert first["explanation"] == found.err.splitlines()[2:6]
    assert "explanation" not in second


@pytest.mark.needs("explain")
def test_a_unit_that_is_not_there_is_told(um: Um) -> None:
    found = um("table", VEHICLE, "kinetic", "-", stdin="mass [lb],speed [m/s]\n2,3\n")
    assert (found.status, found.out) == (11, "mass [lb],speed [m/s],kinetic [kg m^2/s^2]\n")
    assert found.err.splitlines() == ["<stdin>:2: error 11: argument 1, name at 3", "row 1, column 'mass [lb]'",
                                      "  | 2<lb>", "  |   ^", "unknown name"]


def test_a_table_without_rows_has_the_unit_of_its_results(um: Um, program: Write) -> None:
    assert um("table", VEHICLE, "kinetic", "-", stdin="m [kg],v [m/s]\n").out == "m [kg],v [m/s],kinetic [kg m^2/s^2]\n"
    file = program("[<Measure>] type m\nlet twice (x: num<_>) = x + x\nlet both (x: num<m>) = [x; x]\n"
                   "let is_long (x: num<m>) = x > 1<m>\nlet ends (l: num<m> list) = l\nlet k (x: num) = x")
    for name in ("twice", "both", "is_long", "k"):
        assert um("table", file, name, "-", "--only-results", stdin="x\n").out == f"{name}\n"
    assert um("table", file, "ends", "-", "--lists", stdin="x [m]\n").out == "ends [m]\n"


@pytest.mark.parametrize("data, why", [
    ("", "the first line must have the names of the columns"), ("\n1\n", "the first line must have the names"),
    ("a\n1\n", "kinetic takes 2 arguments, and there is 1 column"),
    ("a,b,c\n1,2,3\n", "kinetic takes 2 arguments, and there are 3 columns")])
def test_a_table_that_does_not_fit_is_refused(um: Um, data: str, why: str) -> None:
    found = um("table", VEHICLE, "kinetic", "-", stdin=data)
    assert (found.status, found.out) == (65, "")
    assert found.err.startswith(f"um: <stdin>:1: {why}")


@pytest.mark.parametrize("data, more, hint", [
    ("mass [kg];speed [m/s]\n2;3\n", [], "; if ';' stands between the cells, say --delimiter ';'\n"),
    ("mass [kg]\tspeed [m/s]\n2\t3\n", [], "; if tabs stand between the cells, say --delimiter tab\n"),
    ("mass [kg];speed [m/s]\n2;3\n", ["--columns", "mass,speed"], "between the cells, say --delimiter ';'\n"),
    ("mass [kg],speed [m/s]\n2,3\n", ["--delimiter", ";"], "; --columns names those to take\n"),
    ("a;b,c;d,e\n2,3,4\n", [], "; --columns names those to take\n")])
def test_another_sign_between_cells_is_told(um: Um, data: str, more: list[Any], hint: str) -> None:
    found = um("table", VEHICLE, "kinetic", "-", *more, stdin=data)
    assert (found.status, found.out) == (65, "")
    assert found.err.endswith(hint)


@pytest.mark.parametrize("names, why", [("mass,weight", "no column has the name 'weight'"),
                                        ("mass,a", "several columns have the name 'a'")])
def test_a_column_that_is_not_there_is_refused(um: Um, names: str, why: str) -> None:
    found = um("table", VEHICLE, "kinetic", "-", "--columns", names, stdin="mass [kg],a [m],a [s]\n1,2,3\n")
    assert (found.status, found.out) == (65, "")
    assert why in found.err


def test_a_row_of_another_length_is_refused(um: Um) -> None:
    data = "mass [kg],speed [m/s]\n2,3\n1\n\n1,2,3\n4,1\n"
    found = um("table", VEHICLE, "kinetic", "-", "--keep-going", stdin=data)
    assert (found.status, found.out) == (65, "mass [kg],speed [m/s],kinetic [kg m^2/s^2]\n2,3,9\n4,1,2\n")
    assert found.err == ("<stdin>:3: the row has 1 cell, and the table 2 columns (row 2)\n"
                         "<stdin>:5: the row has 3 cells, and the table 2 columns (row 3)\n")


def test_what_is_no_csv_is_refused_after_the_rows_before(um: Um) -> None:
    found = um("table", VEHICLE, "kinetic", "-", stdin=MOTION + '"open,1\n2,3\n')
    assert found.status == 65
    assert found.out.endswith("\n2,3,9\n1.5,2,3\n")
    assert found.err.startswith("um: <stdin>:") and "this is no row of CSV" in found.err


def test_bytes_that_are_no_text_are_refused_or_kept(um: Um) -> None:
    data = b"note,mass [kg],speed [m/s]\n\xff,2,3\nb,\xff1,2\n"
    found = um("table", VEHICLE, "kinetic", "-", "--columns", "mass,speed", stdin=data)
    assert found.status == 65
    assert found.out.splitlines()[1] == "\udcff,2,3,9"
    assert found.err.startswith("<stdin>:3: column 'mass [kg]': ")


def test_marks_line_ends_quotes_and_other_delimiters(um: Um) -> None:
    data = "\ufeffmass [kg];speed [m/s]\r\n\"2\";3\r\n1.5;2\r\n"
    found = um("table", VEHICLE, "kinetic", "-", "--delimiter", ";", stdin=data)
    assert found.out == "mass [kg];speed [m/s];kinetic [kg m^2/s^2]\n2;3;9\n1.5;2;3\n"
    found = um("table", VEHICLE, "kinetic", "-", "--delimiter", "tab", stdin=MOTION.replace(",", "\t"))
    assert found.out == "mass [kg]\tspeed [m/s]\tkinetic [kg m^2/s^2]\n2\t3\t9\n1.5\t2\t3\n"


def test_a_function_or_a_text_that_is_refused_is_told_as_always(um: Um) -> None:
    found = um("table", VEHICLE, "kinetik", "-", stdin=MOTION)
    assert (found.status, found.out) == (11, "")
    assert found.err == f"{VEHICLE}: error 11: no such function\nsimilar: kinetic\n"
    found = um("table", "examples/refusals/units.um", "total", "-", stdin=MOTION)
    assert (found.status, found.out) == (9, "")
    assert um("table", VEHICLE, "kinetic", "none.csv").err == "um: none.csv: No such file or directory\n"
    assert um("table", VEHICLE, "kinetic", "examples").err == "um: examples: Is a directory\n"


def test_whole_columns_are_lists(um: Um) -> None:
    found = um("table", VEHICLE, "mean", "-", "--lists", stdin="d [m]\n1\n2\n6\n")
    assert (found.status, found.out) == (0, "mean [m]\n3\n")
    found = um("table", "examples/mechanics.um", "centre", "-", "--lists", stdin="x [m],w [kg]\n1,1\n3,3\n")
    assert found.out == "centre [m]\n2.5\n"
    found = um("table", VEHICLE, "mean", "-", "--lists", stdin="d [m]\n1\nx\n6\n")
    assert (found.status, found.err) == (
        65, "<stdin>:3: column 'd [m]': 'x' isn't a number such as 2.5, 1.5e3 or 1/3 (row 2)\n")
    found = um("table", VEHICLE, "mean", "-", "--lists", "--keep-going", stdin="d [m]\n1\nx\n6\n")
    assert (found.status, found.out) == (65, "mean [m]\n3.5\n")
    found = um("table", VEHICLE, "mean", "-", "--lists", stdin="d [m]\n")
    assert (found.status, found.err.splitlines()[0]) == (12, "<stdin>: error 12: division by zero")


def test_a_list_that_comes_out_is_rows(um: Um, program: Write) -> None:
    file = program("let rec twice (l: num<_> list) : num<_> list =\n"
                   "  match l with [] -> ([] : num<_> list) | x :: r -> 2 * x :: twice r\n[<Measure>] type m\n")
    found = um("table", file, "twice", "-", "--lists", stdin="d [m]\n1\n2.5\n")
    assert found.out == "twice [m]\n2\n5\n"


def test_results_as_json(um: Um) -> None:
    found = um("table", VEHICLE, "kinetic", "-", "--json", "--keep-going", stdin=MOTION + "x,1\n")
    assert found.objects == [
        {"status": 0, "row": 1, "line": 2, "text": "9<kg m^2/s^2>",
         "value": {"number": "9", "unit": {"kg": 1, "m": 2, "s": -2}}},
        {"status": 0, "row": 2, "line": 3, "text": "3<kg m^2/s^2>",
         "value": {"number": "3", "unit": {"kg": 1, "m": 2, "s": -2}}},
        {"status": 65, "kind": "data", "file": "<stdin>", "row": 3, "line": 4, "column": "mass [kg]",
         "message": "'x' isn't a number such as 2.5, 1.5e3 or 1/3"}]
    assert found.status == 65


def test_results_in_a_file(um: Um, tmp_path: Path) -> None:
    data = tmp_path / "data.csv"
    data.write_text(MOTION)
    found = um("table", VEHICLE, "kinetic", data, "-o", data)
    assert (found.status, found.out) == (0, "")
    assert data.read_text() == "mass [kg],speed [m/s],kinetic [kg m^2/s^2]\n2,3,9\n1.5,2,3\n"
    assert list(tmp_path.iterdir()) == [data]


def test_a_result_whose_unit_changes_is_refused(um: Um, program: Write) -> None:
    file = program("[<Measure>] type m\n[<Measure>] type s\nlet first (l: num<_> list) : num<_> = "
                   "match l with [] -> 0<_> | x :: _ -> x")
    found = um("table", file, "first", "-", "--keep-going", stdin="l\n[]\n[1<m>]\n[1<s>]\n[2<m>]\n")
    assert (found.status, found.out) == (65, "l,first [m]\n[],0\n[1<m>],1\n[2<m>],2\n")
    assert found.err == "<stdin>:4: the result first is in s here, and in m above (row 3)\n"


def test_the_budget_and_the_limits_are_those_of_each_run(um: Um, script: Write) -> None:
    found = um("table", VEHICLE, "mean", "-", "--budget", "4", stdin="l\n[1<m>]\n\"[1<m>; 2<m>]\"\n")
    assert found.status == 13
    assert found.err.splitlines()[0] == "<stdin>:2: error 13: budget"
    stub = script(f'case $1 in calls) [ $2 = 1 ] || sleep 1000;; *) exec "{os.environ["UMC"]}" "$@";; esac')
    found = um("table", VEHICLE, "mean", "-", "--limit-time", "0.5", stdin="l\n[1<m>]\n", UMC=str(stub))
    assert (found.status, found.err) == (124, "um: the run took more than 0.5 s (--limit-time)\n")


def test_a_hundred_megabytes_are_read_in_little_memory(tmp_path: Path) -> None:
    data, out = tmp_path / "data.csv", tmp_path / "out.csv"
    with data.open("w") as file:
        file.write("mass [kg],speed [m/s],note\n")
        for number in range(20000):
            file.write(f"{number},2,{'n' * 5000}\n")
    assert data.stat().st_size > 100_000_000
    measured = ("import resource, subprocess, sys\ncode = subprocess.call(sys.argv[1:])\n"
                "print(resource.getrusage(resource.RUSAGE_CHILDREN).ru_maxrss)\nsys.exit(code)")
    done = subprocess.run([sys.executable, "-c", measured, sys.executable, UM, "table", VEHICLE, "kinetic", data,
                           "--columns", "mass,speed", "-o", out], cwd=HOME, capture_output=True, text=True)
    assert (done.returncode, done.stderr) == (0, "")
    assert int(done.stdout) < 200_000
    with out.open() as file:
        assert file.readline() == "mass [kg],speed [m/s],note,kinetic [kg m^2/s^2]\n"
        last = file.readlines()[-1]
    assert last.startswith("19999,2,n") and last.endswith(",39998\n")
    data.unlink()
    out.unlink()


def test_there_is_a_bar_on_a_terminal(tmp_path: Path) -> None:
    data = tmp_path / "data.csv"
    data.write_text(MOTION + "3,1\n" * 50)
    ours, theirs = pty.openpty()
    done = subprocess.run([sys.executable, UM, "table", VEHICLE, "kinetic", data, "--chunk", "5"], cwd=HOME,
                          stdout=subprocess.PIPE, stderr=theirs, text=True)
    os.close(theirs)
    assert done.returncode == 0
    assert len(done.stdout.splitlines()) == 53
    pytest.importorskip("tqdm")
    assert f"/{data.stat().st_size}".encode() in os.read(ours, 65536)  # how far it came depends on the clock
    os.close(ours)


def test_it_ends_quietly_when_nobody_reads_the_results(tmp_path: Path) -> None:
    data = tmp_path / "data.csv"
    data.write_text("mass [kg],speed [m/s],note\n" + f"2,3,{'n' * 5000}\n" * 400)
    um = subprocess.Popen([sys.executable, UM, "table", VEHICLE, "kinetic", data, "--columns", "mass,speed", "--chunk",
                           "100"], cwd=HOME, stdout=subprocess.PIPE, stderr=subprocess.PIPE)
    assert um.stdout and um.stderr
    assert um.stdout.readline() == b"mass [kg],speed [m/s],note,kinetic [kg m^2/s^2]\n"
    um.stdout.close()
    assert um.stderr.read() == b""
    assert um.wait(timeout=WAIT) == -signal.SIGPIPE


def test_a_file_of_results_is_left_as_it_was_when_a_signal_comes(tmp_path: Path, script: Write) -> None:
    data, out = tmp_path / "data.csv", tmp_path / "out.csv"
    data.write_text(MOTION)
    out.write_text("before\n")
    stub = script(f'case $1 in calls) [ $2 = 1 ] || {{ touch {tmp_path}/begun; exec sleep 1000; }};; '
                  f'*) exec "{os.environ["UMC"]}" "$@";; esac')
    um = subprocess.Popen([sys.executable, UM, "table", VEHICLE, "kinetic", data, "-o", out], cwd=HOME,
                          env={**os.environ, "UMC": str(stub)})
    wait_for((tmp_path / "begun").exists, "the run")
    um.send_signal(signal.SIGINT)
    assert um.wait(timeout=WAIT) == -signal.SIGINT
    assert out.read_text() == "before\n"
    assert sorted(path.name for path in tmp_path.iterdir()) == ["begun", "data.csv", "out.csv", "script"]
