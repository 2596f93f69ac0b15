"""The texts that programs are measured on, each made for a size."""
import os
import re
from collections.abc import Callable
from typing import NamedTuple

VEHICLE = os.path.join(os.path.dirname(os.path.abspath(__file__)), "..", "examples", "vehicle.um")
DECLARED = re.compile(r"(?:type|let rec|let) ([A-Za-z]+)|[{;] ([a-z]+):")
MEASURES = "".join("[<Measure>] type %s\n" % name for name in ("m", "s", "kg")) + "[<Measure>] type J = kg m^2/s^2\n"
MODEL = """
// number {0}
let rec total{0} (l: num<_> list) : num<_> =
  match l with
  | [] -> 0<_>
  | x :: r -> x + total{0} r
let kinetic{0} (mass: num<kg>) (speed: num<m/s>) : num<J> =
  let square = speed * speed in
  mass * square / 2
let higher{0} (h: num<m>) (t: num<s>) = 1.50<m> + h < 9.8<m/s^2> * t * t / 2
"""


def copies(count: int) -> str:
    """The vehicle's model so many times, each with names of its own."""
    with open(VEHICLE) as file:
        model = file.read()
    names = {name for pair in DECLARED.findall(model) for name in pair if name}
    name = re.compile(r"\b(%s)\b" % "|".join(sorted(names)))
    return "".join(name.sub(r"\g<1>%d" % copy, model) for copy in range(count))


def models(lines: int) -> str:
    """A program of about so many lines as one edits it: a small model again and again, with comments and layout."""
    return MEASURES + "".join(MODEL.format(number) for number in range(lines // MODEL.count("\n")))


def middle_model(lines: int) -> int:
    """The number of the model in the middle of so many lines."""
    return lines // MODEL.count("\n") // 2


def products(functions: int) -> str:
    """Functions of 25 products each, over names of ordinary length."""
    factors = " * ".join(["starting_speed", "elapsed_duration"] * 13)
    head = "let travelled%04d (starting_speed: num<_>) (elapsed_duration: num<_>) = "
    return "".join(head % number + factors + "\n" for number in range(functions))


def zeros(slots: int) -> str:
    """One function with a list of zeros, each with a unit of its own to be found."""
    return "let zeros = [%s]\n" % "; ".join(["0<_>"] * slots)


def open_records(records: int) -> tuple[str, str, list[str]]:
    """Records of four open units: their declarations, the `let`s of a body, and their slots in order."""
    units = ["p", "q", "r", "s"]
    text = "type R<%s> = { %s }\n" % (
        ", ".join("[<Measure>] '" + unit for unit in units), "; ".join("%s: num<'%s>" % (unit, unit) for unit in units))
    text += "let open = { %s }\n" % "; ".join(unit + " = 0<_>" for unit in units)
    slots = ["r%d.%s" % (record, unit) for record in range(records) for unit in units]
    return text, "".join("let r%d = open in " % record for record in range(records)), slots


def chain(records: int) -> str:
    """One function with four slots a record, whose equations each change all slots that were solved before."""
    text, lets, slots = open_records(records)
    equations = "; ".join("%s < %s" % pair for pair in reversed(list(zip(slots, slots[1:]))))
    return text + "let chain = %s[%s]\n" % (lets, equations)


def unlike(records: int) -> str:
    """The same, whose first slot is a metre and whose last is a second, so that all equations disagree together."""
    text, lets, slots = open_records(records)
    measures = "[<Measure>] type metre\n[<Measure>] type second\n"
    ends = [slots[0] + " < 1<metre>"], [slots[-1] + " < 1<second>"]
    equations = "; ".join(ends[0] + ["%s < %s" % pair for pair in zip(slots, slots[1:])] + ends[1])
    return measures + text + "let unlike = %s[%s]\n" % (lets, equations)


def small(functions: int) -> str:
    """Many functions of one line, each of which calls the one before it."""
    text = "[<Measure>] type m\nlet f0 (x: num<_>) = x * 2<m>\n"
    return text + "".join("let f%d (x: num<_>) = f%d x / 3<m>\n" % (k, k - 1) for k in range(1, functions))


def parametric(functions: int) -> str:
    """Functions of one line with a unit parameter each, beside as many measures."""
    line = "[<Measure>] type m%d\nlet f%d<[<Measure>] 'u> (x: num<'u>) = x * 2<m%d>\n"
    return "".join(line % (k, k, k) for k in range(functions))


def wide(functions: int) -> str:
    """Records of 32 fields and 4 unit parameters, each with a function of 16 parameters that makes one."""
    units = ["a", "b", "c", "d"]
    parameters = " ".join("(x%d: num<_>)" % k for k in range(16))
    text = ""
    for number in range(functions):
        fields = ["f%d_%d" % (number, k) for k in range(32)]
        declared = "; ".join("%s: num<'%s>" % (field, units[k % 4]) for k, field in enumerate(fields))
        parts = "; ".join("%s = x%d" % (field, k % 16) for k, field in enumerate(fields))
        text += "type R%d<%s> = { %s }\n" % (number, ", ".join("[<Measure>] '" + unit for unit in units), declared)
        text += "let w%d %s = { %s }\n" % (number, parameters, parts)
    return text


def small_and_fault(functions: int) -> str:
    """Many functions of one line, and a last one that adds a metre to a number without a unit."""
    return small(functions - 1) + "let last (x: num<m>) = f0 x + x\n"


def sums_and_fault(functions: int) -> str:
    """`sums` with a bracket too many at the end."""
    return sums(functions) + ")\n"


def sums(functions: int) -> str:
    """Sums and products of short names and numbers, a token every three bytes or four."""
    terms = " + ".join(["speed * time", "2.5 / length", "(speed - 10)"] * 11)
    head = "let sum%d (speed: num) (time: num) (length: num) = "
    return "".join(head % number + terms + "\n" for number in range(functions))


def items(count: int) -> str:
    """A list of so many numbers."""
    return "let items = [%s]\n" % "; ".join(str(k) for k in range(count))


def literals(count: int) -> str:
    """A list of literals whose unit is an abbreviation of 100 measures."""
    measures = ["m%d" % k for k in range(100)]
    text = "".join("[<Measure>] type %s\n" % measure for measure in measures)
    return text + "[<Measure>] type A = %s\nlet k = [%s]\n" % (" ".join(measures), "; ".join(["1<A>"] * count))


def readings(functions: int) -> str:
    """Functions of 60 literals with written units."""
    literals = "; ".join(["1.5<m>; 2<m>; 37<m>; 0.25<m>; 1200<m>"] * 12)
    text = "[<Measure>] type m\n"
    return text + "".join("let readings%04d = [%s]\n" % (number, literals) for number in range(functions))


def nested(units: int) -> str:
    """Unit texts in as many brackets as may be."""
    unit = "(" * 399 + "m" + ")" * 399
    return "".join("[<Measure>] type a%d = %s\n" % (k, unit) for k in range(units))


def conditions(count: int) -> str:
    """One function of ten nodes a condition."""
    condition = "if x < 1 then x * 2 else y + 3"
    return "let conditions (x: num) (y: num) = [%s]\n" % "; ".join([condition] * count)


def calls(_: int) -> str:
    """A function that does nothing but call itself and count; the size is its argument."""
    return "let rec fib (n: num) : num = if n < 2 then n else fib (n - 1) + fib (n - 2)\n"


def walks(_: int) -> str:
    """A list is built and its items are added up; the size is how many it has."""
    return """let rec build (n: num) (l: num list) : num list = if n < 1 then l else build (n - 1) (n :: l)
let rec total (l: num list) (sum: num) : num = match l with [] -> sum | x :: r -> total r (sum + x)
let walk (n: num) = total (build n ([] : num list)) 0
"""


def comments(lines: int) -> str:
    """Lines of a comment each, and one function."""
    return "".join("// The measurement of line %d, as it was written down.\n" % k for k in range(lines)) + "let k = 1\n"


def rows(lines: int) -> str:
    """A program of one function with units, and lines of a call each."""
    text = "[<Measure>] type kg\n[<Measure>] type m\n[<Measure>] type s\n"
    text += "let kinetic (mass: num<kg>) (speed: num<m/s>) = mass * speed * speed / 2\n---\n"
    call = "kinetic\t%d.%03d<kg>\t%d.5<m/s>\n"
    return text + "".join(call % (k % 97, k % 1000, k % 4001) for k in range(lines))


def ocaml_small(functions: int) -> str:
    """`small` in OCaml, without units."""
    return "let f0 x = x *. 2.\n" + "".join("let f%d x = f%d x /. 3.\n" % (k, k - 1) for k in range(1, functions))


def ocaml_products(functions: int) -> str:
    """`products` in OCaml, without units."""
    return products(functions).replace(" * ", " *. ").replace("(starting_speed: num<_>)", "starting_speed").replace(
        "(elapsed_duration: num<_>)", "elapsed_duration")


def ocaml_copies(count: int) -> str:
    """The vehicle's model in OCaml, without units, so many times."""
    return "".join("""type body{0} = {{ pos{0} : float; vel{0} : float }}
let rec total{0} l = match l with [] -> 0. | x :: r -> x +. total{0} r
let rec count{0} l = match l with [] -> 0. | _ :: r -> 1. +. count{0} r
let mean{0} l = total{0} l /. count{0} l
let kinetic{0} k v = k *. v *. v /. 2.
let metres{0} d = d *. 0.3048
let move{0} b t = {{ pos{0} = b.pos{0} +. b.vel{0} *. t; vel{0} = b.vel{0} }}
""".format(k) for k in range(count))


def lua_calls(_: int) -> str:
    """`calls` in Lua."""
    return """local function fib(n) if n < 2 then return n end return fib(n - 1) + fib(n - 2) end
print(fib(tonumber(arg[1])))
"""


def lua_walks(_: int) -> str:
    """`walks` in Lua, with lists of linked tables."""
    return """local function build(n, l) while n >= 1 do l = { n, l } n = n - 1 end return l end
local function total(l) local sum = 0 while l do sum = sum + l[1] l = l[2] end return sum end
print(total(build(tonumber(arg[1]), nil)))
"""


class Rival(NamedTuple):
    """What a user has today for a part of the same work: a command, where {file} is the text and {size} the size, the
    end of the file's name, and the text."""

    command: str
    suffix: str
    text: Callable[[int], str]


class Workload(NamedTuple):
    """The name of a text, the words of a command, the text of a size, and a small and a large size."""

    name: str
    words: str
    text: Callable[[int], str]
    sizes: tuple[int, int]
    rivals: tuple[Rival, ...] = ()


# A new command is a line here: its name in the table, the words, where {} stands for the size, the text, and a small
# and a large size.
WORKLOADS = [
    Workload("copies of a model", "types", copies, (82, 330), (Rival("ocamlc -i {file}", ".ml", ocaml_copies),)),
    Workload("functions of 25 products", "types", products, (475, 1900),
             (Rival("ocamlc -i {file}", ".ml", ocaml_products),)),
    Workload("small functions", "types", small, (500, 2000), (Rival("ocamlc -i {file}", ".ml", ocaml_small),)),
    Workload("wide records and functions", "types", wide, (100, 400)),
    Workload("a list of zeros", "types", zeros, (475, 1900)),
    Workload("a chain of 1,560 slots", "types", chain, (97, 390)),
    Workload("literals of a long unit", "types", literals, (1000, 4000)),
    Workload("sums and products", "fmt", sums, (475, 1900)),
    Workload("a list of numbers", "fmt", items, (4750, 19000)),
    Workload("units in brackets", "fmt", nested, (20, 80)),
    Workload("functions of 25 products", "fmt", products, (475, 1900)),
    Workload("small functions", "fmt", small, (500, 2000)),
    Workload("one function of 20,000 nodes", "code", conditions, (499, 1999)),
    Workload("small functions", "code", small, (500, 2000)),
    Workload("fib", "run 10000000 fib {}", calls, (24, 29), (Rival("lua {file} {size}", ".lua", lua_calls),)),
    Workload("a list built and walked", "run 10000000 walk {}", walks, (50000, 200000),
             (Rival("lua {file} {size}", ".lua", lua_walks),)),
    Workload("literals with written units", "rescale m=100", readings, (550, 2000)),
    Workload("copies of a model", "annot", copies, (82, 330)),
    Workload("functions of 25 products", "annot", products, (475, 1900)),
    Workload("small functions", "annot", small, (500, 2000)),
    Workload("sums and products", "tidy", sums, (475, 1900)),
    Workload("lines of a comment", "tidy", comments, (4000, 16000)),
    Workload("copies of a model", "explain", copies, (82, 330)),
    Workload("small functions, a fault in the last", "explain", small_and_fault, (500, 2000)),
    Workload("seventeen of 1,561 equations", "explain", unlike, (97, 390)),
    Workload("sums and products, a fault at the end", "explain", sums_and_fault, (475, 1900)),
    Workload("copies of a model", "prove", copies, (82, 330)),
    Workload("small functions", "prove", small, (500, 2000)),
    Workload("functions of 25 products", "prove", products, (475, 1900)),
    Workload("functions with unit parameters", "prove", parametric, (500, 2000)),
    Workload("of so many functions", "big {}", lambda _: "", (500, 2000)),
    Workload("fib", "steps 10000000 fib {}", calls, (19, 24)),
    Workload("fib", "eval 10000000 fib {}", calls, (19, 24)),
    Workload("a list built and walked", "eval 10000000 walk {}", walks, (50000, 200000)),
    Workload("fib", "trace 10000000 fib {}", calls, (19, 24)),
    Workload("fib", "show 2 1 10000000 fib {}", calls, (24, 29)),
    Workload("lines of a call", "calls 10000000", rows, (25000, 100000)),
]
