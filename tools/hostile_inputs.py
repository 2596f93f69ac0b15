"""The worst inputs that are known for the program, of each kind, each with its bound: what tools/hostile runs."""
import importlib.machinery
import importlib.util
import struct
import sys
from collections.abc import Callable, Iterator
from dataclasses import dataclass
from pathlib import Path
from types import ModuleType

from hostile_bounds import (ANSWER, CALLS, CERTIFICATE, FULL, GIB, IMAGE, MEMORY, MIB, NODES, PAIRS, STATED,
                            TEXT, TWICE, VALUE, Bound, Most, Stated)
from repository import ROOT

TEXT_BYTES, IMAGE_BYTES = 1 << 20, 1 << 24
MOST_FIELDS = 32
TOKENS = ["(", ")", "[", "]", "{", "}", "<", ">", "[<", ">]", "->", "::", ":", ";", ",", "=", "|", "_", ".", "+", "-",
          "*", "/", "^", "&&", "||", "<=", "'a", "let", "rec", "in", "if", "then", "else", "match", "with", "type",
          "true", "false", "not", "num", "bool", "list", "Measure", "pown", "x", "1", "2.5", "7r2", "// c\n", "\t",
          "\n", "\r", "\0", "\x7f", "\u00e9", "\U0001f600", "\ufeff", "\ud800"]
PLAIN = "[<Measure>] type {}\n"


@dataclass(frozen=True)
class Case:
    """An input: its kind, what it is, the words of the command, what makes its bytes, and its bound.

    `count` is of what the bound counts; without one it is the MiB of the input. If there are `limits`, the words are
    those of a call, which is made within them by the command `um` or from Python (`by`), and must end at one of them
    with the message `said`.
    """

    kind: str
    title: str
    words: list[str]
    make: Callable[[], bytes]
    bound: Bound = TEXT
    count: float | None = None
    by: str = "umc"
    limits: Stated | None = None
    said: str = ""

    def most(self, size: int) -> Most:
        """What it may take, if it has so many bytes."""
        if self.limits:
            return self.limits.most()
        return self.bound.most(size / MIB if self.count is None else self.count)


def script(path: Path) -> ModuleType:
    """A script of the repository without `.py` at its end, as a module."""
    if path.stem not in sys.modules:
        loader = importlib.machinery.SourceFileLoader(path.stem, str(path))
        spec = importlib.util.spec_from_loader(path.stem, loader)
        assert spec
        module = importlib.util.module_from_spec(spec)
        sys.modules[path.stem] = module
        written, sys.dont_write_bytecode = sys.dont_write_bytecode, True
        loader.exec_module(module)
        sys.dont_write_bytecode = written
    return sys.modules[path.stem]


def filled(front: str, part: str, back: str = "") -> bytes:
    """As many bytes as a text may have, of one part again and again."""
    begun, again, ended = (it.encode("utf-8", "surrogatepass") for it in (front, part, back))
    return begun + again * ((TEXT_BYTES - len(begun) - len(ended)) // len(again)) + ended


# ---- names

def measures(names: list[str]) -> bytes:
    """A measure of each name."""
    return "".join(map(PLAIN.format, names)).encode() + b"let k = 1\n"


def ordinary(count: int) -> list[str]:
    """Names of eight characters that nobody has chosen for a table."""
    return [f"a{k * 2654435761 % (1 << 28):07x}" for k in range(count)]


def colliding(count: int, bits: int) -> list[str]:
    """Names that the kit's hash tables put in one place."""
    return script(ROOT / "bench" / "colliding").colliding(count, group_bits=bits)


# ---- images

def number(value: int) -> bytes:
    return struct.pack(">I", value)


def name(text: str) -> bytes:
    return number(len(text)) + text.encode()


def image(records: list[bytes], functions: list[bytes]) -> bytes:
    """An image of these records and functions."""
    return b"UMI1" + number(len(records)) + b"".join(records) + number(len(functions)) + b"".join(functions)


def function(code: list[bytes], parameters: bytes = b"", count: int = 0, its_name: str = "f") -> bytes:
    """A function with a result that is a truth value."""
    return name(its_name) + number(count) + parameters + b"\0" + number(len(code)) + b"".join(code)


TRUE, RET = b"\1\1", b"\x15"


def fields(names: list[str]) -> bytes:
    """Records with these fields, each with as many as a record may have."""
    records = []
    for at in range(0, len(names), MOST_FIELDS):
        own = names[at:at + MOST_FIELDS]
        records.append(name(f"R{at}") + number(len(own)) + b"".join(name(it) + b"\0" for it in own))
    return image(records, [function([TRUE, RET])])


def jumps(count: int) -> bytes:
    """So many pushes, each with a branch after it whose two ways go to the next address."""
    steps = (TRUE + TRUE + b"\x0d" + number(3 * k + 3) for k in range(count))
    code = b"".join(steps) + TRUE + RET
    return image([], [name("f") + number(0) + b"\0" + number(3 * count + 2) + code])


def joins(pushes: int, branches: int) -> bytes:
    """So many pushes, and then branches that all go to one address."""
    end = pushes + 2 * branches
    return image([], [function([*[TRUE] * pushes, *[TRUE, b"\x0d" + number(end)] * branches, RET])])


def meetings(pushes: int, addresses: int) -> bytes:
    """Two stacks of so many values, made apart from one another, which meet at each of so many addresses."""
    second = 2 + pushes + 2 * addresses + 1
    first_met = second + pushes + 2 * addresses + 1
    way = [TRUE] * pushes
    for place in range(addresses):
        way += [TRUE, b"\x0d" + number(first_met + place)]
    return image([], [function([TRUE, b"\x0d" + number(second), *way, RET, *way, RET, *[RET] * addresses])])


def lists(pushes: int, branches: int) -> bytes:
    """So many pushes, and then branches, each of which makes a list of all values on one way."""
    code = [TRUE] * pushes
    for branch in range(1, branches + 1):
        code += [TRUE, b"\x0d" + number(pushes + 5 * branch), b"\x0e" + number(pushes), TRUE, RET]
    return image([], [function([*code, RET])])


def shapes(bytes_: int) -> bytes:
    """Functions whose parameters are lists in lists, 400 high, as many as there is room for."""
    parameter = b"\2" * 399 + b"\1"
    one = len(function([TRUE, RET], parameter * 16, 16, "f0000000"))
    return image([], [function([TRUE, RET], parameter * 16, 16, f"f{k:07}") for k in range((bytes_ - 12) // one)])


# ---- runs

def doubling(levels: int) -> bytes:
    """A list of a list, each of them twice, so many times: its text has 2^LEVELS numbers."""
    lets = "".join(f"  let x{k + 1} = [x{k}; x{k}] in\n" for k in range(levels))
    return f"let f (x0: num) =\n{lets}  x{levels}\n".encode()


def doubled_text(levels: int) -> int:
    """The bytes of the answer: two of the text before, brackets, a semicolon and a space, and at last a line feed."""
    return 5 * 2 ** levels - 4 + 1


METRE = "[<Measure>] type m\n"
FIRST = "let first (l: num list) = match l with [] -> 0 | x :: r -> x\n"
LOOP = "let rec f (n: num) : num = f n\n"
DEEP = "let rec f (n: num) : num = 1 + f n\n"
FIBONACCI = 4660046610375530309, 7540113804746346429    # the 91st and the 92nd: the longest run of divisions


def products(count: int) -> str:
    """Calls of so many products each, of numbers whose greatest common divisor is found last."""
    items = "; ".join(["x * y"] * count)
    body = f"let rec g (x: num) (y: num) : num = g x (first [{items}] * 0 + y)\n"
    return f"{FIRST}{body}let f (n: num) = g {FIBONACCI[1]} 1r{FIBONACCI[0]}\n"


def kept_lists(count: int) -> str:
    """Calls that each make a list of so many items."""
    return f"{FIRST}let rec f (n: num) : num = f (first [{'; '.join(['n'] * count)}])\n"


def waiting_items(count: int) -> str:
    """Calls in one another, each with so many values that wait."""
    return f"{FIRST}let rec f (n: num) : num = first [{'; '.join(['n'] * count)}; f n]\n"


def local_names(count: int) -> str:
    """Calls in one another, each within so many `let`."""
    return f"let rec f (n: num) : num = {''.join(f'let x{k} = n in ' for k in range(count))}(1 + f n)\n"


def minuses(count: int) -> str:
    """Calls in one another, each within so many signs."""
    return f"let rec f (n: num) : num = {'- ' * count}(f n)\n"


# What it is, its text, how many calls the budget allows, and how many nodes a call looks at on average. (Of two calls
# one may be that of `first`, which looks at three.)
RUNS = [
    ("10,000,000 last calls", LOOP, 10_000_000, 2),
    ("10,000,000 calls in one another", DEEP, 10_000_000, 4),
    ("3,000 lists of 1,000 products", products(1000), 6000, 1506),
    ("10,000 lists of 1,000 items", kept_lists(1000), 20_000, 503),
    ("10,000 calls in one another, with 1,000 values that wait", waiting_items(1000), 10_000, 1004),
    ("20,000 calls in one another, each within 380 let", local_names(380), 20_000, 764),
    ("20,000 calls in one another, each within 190 signs", minuses(190), 20_000, 192),
]
WAYS = [(["run"], NODES), (["steps"], NODES), (["show", "2", "-"], NODES), (["eval"], NODES), (["trace"], TWICE)]


def runs() -> Iterator[Case]:
    """Whole budgets, and values that double."""
    for title, text, budget, nodes in RUNS:
        millions = budget * nodes / 1e6
        for words, bound in WAYS:
            yield Case("budget", f"{title}, {words[0]}", [*words, str(budget), "f", "1"],
                       lambda t=text: t.encode(), bound, millions)
        yield Case("budget", f"{title}, twin", ["twin", str(budget), "m=2", "f", "1"],
                   lambda t=text: (METRE + t).encode(), TWICE, millions)
    yield Case("budget", "10,000,000 calls in one another, calls", ["calls", "10000000"],
               lambda: f"{DEEP}---\nf\t1\n".encode(), NODES, 40)
    for levels in (16, 22):
        yield Case("doubling", f"a list doubled {levels} times", ["run", BUDGET, "f", "1"],
                   lambda n=levels: doubling(n), VALUE, doubled_text(levels) / MIB)
    for command in ("run", "eval"):
        yield Case("doubling", f"a list doubled {LEVELS} times, {command}", [command, BUDGET, "f", "1"],
                   lambda: doubling(LEVELS), FULL, MEMORY / GIB)


def many_calls() -> bytes:
    """As many calls as fit, of one that is long to look at."""
    front = b"let k = 1\n---\n"
    return front + b"k\n" * ((IMAGE_BYTES - len(front)) // 2)


LEVELS = 39     # the doubled list has 2,748,779,069,436 bytes then
BUDGET = "10000000"


def limited() -> Iterator[Case]:
    """The doubled list within limits that a user states."""
    for by in ("um", "python"):
        for levels, limits, said in [
            (LEVELS, Stated(time=2), "the run took more than 2 s (--limit-time)"),
            (LEVELS, Stated(memory=500 * MIB), "the run held more than 500 MiB of memory (--limit-memory)"),
            (18, Stated(output=MIB), "the answer is longer than 1 MiB (--limit-output)"),
        ]:
            yield Case("limits", f"a list doubled {levels} times", ["f", "1"], lambda n=levels: doubling(n), STATED,
                       by=by, limits=limits, said=said)


# ---- refusals

def late_shape(items: int) -> bytes:
    """A list whose last item has another shape."""
    return f"let k = [{'1; ' * items}true]\n".encode()


def near_names(count: int, length: int) -> bytes:
    """Names of this length that are at two edits from one that isn't known."""
    common = "k" * (length - 6)
    lines = "".join(PLAIN.format(f"{common}{number:05}m") for number in range(count))
    return f"{lines}let f (x: num<{common}00000xx>) = x\n".encode()


LONG = "k" * (1 << 19)


def refused() -> Iterator[Case]:
    """Texts that take long to explain."""
    workloads = script(ROOT / "bench" / "workloads.py")
    made: list[tuple[str, Callable[[], bytes]]] = [
        ("1 MiB of numbers, and a bracket too many", lambda: filled("let k = [1", "; 1", ")")),
        ("1 MiB of sums of names, and a bracket too many", lambda: filled("let k = [x", "+x;x", ")")),
        ("1 MiB of measures, and a bracket too many", lambda: filled("", "[<Measure>] type m\n", ")")),
        ("a line of 1 MiB", lambda: filled("let k =", " ", "@")),
        ("1 MiB of tabs before the place", lambda: filled("", "\t", "@")),
        ("a name of 512 KiB that is nearly known", lambda: f"let {LONG} = 1\nlet j = {LONG[:-64]}\n".encode()),
        ("2,000 names that are nearly known", lambda: near_names(2000, 480)),
        ("a list of 19,000 items, the last of another shape", lambda: late_shape(19_000)),
        ("seventeen of 1,561 equations", lambda: workloads.unlike(390).encode()),
    ]
    for title, make in made:
        yield Case("refusals", title, ["explain"], make)


# ---- all

def long_unit(functions: int) -> bytes:
    """So many functions of a unit whose name is as long as can be."""
    lines = "".join(f"let f{k} = f{k - 1}\n" for k in range(1, functions))
    long = "m" * ((TEXT_BYTES - len(lines) - 100) // 2)
    return f"{PLAIN.format(long)}let f0 = 1<{long}>\n{lines}".encode()


def named() -> Iterator[Case]:
    """Long names, and names that collide."""
    for count, bits in ((10_000, 11), (40_000, 13)):
        yield Case("names", f"{count:,} measures", ["types"], lambda n=count: measures(ordinary(n)))
        yield Case("collisions", f"{count:,} measures with colliding names", ["types"],
                   lambda n=count, b=bits: measures(colliding(n, b)))
    yield Case("names", "a name of 1 MiB", ["types"], lambda: filled("let ", "k", " = 1"))
    yield Case("names", "200 functions of a unit with a name of 500 KiB", ["types"], lambda: long_unit(200), ANSWER,
               200 * (TEXT_BYTES / 2) / MIB)
    yield Case("names", "a field's name of 16 MiB", ["exec", "9", "f"],
               lambda: fields(["k" * (IMAGE_BYTES - 60)]), IMAGE)
    yield Case("names", "100,000 fields", ["exec", "9", "f"], lambda: fields(ordinary(100_000)), IMAGE)
    yield Case("collisions", "100,000 fields with colliding names", ["exec", "9", "f"],
               lambda: fields(colliding(100_000, 14)), IMAGE)


def images() -> Iterator[Case]:
    """Images with many jumps, joins and shapes."""
    for count in (25_000, 100_000):
        yield Case("jumps", f"{count:,} pushes, each with a branch", ["exec", "9", "f"],
                   lambda n=count: jumps(n), IMAGE)
        yield Case("joins", f"{count:,} pushes, {count // 2:,} joins", ["exec", "9", "f"],
                   lambda n=count: joins(n, n // 2), IMAGE)
    yield Case("joins", "two stacks of 10,000 values that meet at 10,000 addresses", ["exec", "9", "f"],
               lambda: meetings(10_000, 10_000), IMAGE)
    yield Case("joins", "10,000 pushes, 10,000 lists of them", ["exec", "9", "f"], lambda: lists(10_000, 10_000), IMAGE)
    pairs = script(ROOT / "bench" / "images.py").pairs
    for count in (280, 1_120):
        met = count ** 3 / 2e6
        bound, counted = (PAIRS, met) if count < 500 else (FULL, MEMORY / GIB)
        yield Case("joins", f"{count:,} stacks of {count:,} values, of which each two meet", ["exec", "9", "f", "[1]"],
                   lambda n=count: pairs(n), bound, counted)
    yield Case("shapes", "2 MiB of shapes 400 high", ["exec", "9", "f0000000"], lambda: shapes(1 << 21), IMAGE)
    yield Case("shapes", "16 MiB of shapes 400 high", ["exec", "9", "f0000000"], lambda: shapes(IMAGE_BYTES), IMAGE)


def texts() -> Iterator[Case]:
    """Equations, deep and wide texts, and 1 MiB of each token."""
    workloads = script(ROOT / "bench" / "workloads.py")
    yield Case("equations", "a chain of 1,560 slots, types", ["types"], lambda: workloads.chain(390).encode())
    yield Case("equations", "powers that double, types", ["types"], lambda: powers(2000))
    yield Case("equations", "a chain of 1,560 slots, prove", ["prove"], lambda: workloads.chain(390).encode(),
               CERTIFICATE, CHAIN / MIB)
    yield Case("equations", "powers that double, prove", ["prove"], lambda: powers(2000))
    wide = script(ROOT / "tools" / "deep_and_wide")
    for title, text, words, _ in wide.WIDE:
        yield Case("wide", title, words, lambda t=text: t.encode())
    for title, text, levels in wide.FORMS:
        yield Case("deep", f"{title}, 400 high", ["types"], lambda t=text, n=levels: t(n).encode())
    for token in TOKENS:
        yield Case("tokens", f"1 MiB of {token!r}", ["types"], lambda t=token: filled("let k = ", f"{t} "))


CHAIN = 8_049_797   # the bytes of the certificates of the chain


def powers(functions: int) -> bytes:
    """Functions that each square the one before, so that the powers of their units double."""
    lines = "".join(f"let f{k} (x: num<_>) = f{k - 1} x * f{k - 1} x\n" for k in range(1, functions))
    return f"let f0 (x: num<_>) = x * x\n{lines}".encode()


def cases() -> Iterator[Case]:
    """All inputs."""
    yield from named()
    yield from images()
    yield from runs()
    yield from limited()
    yield from texts()
    yield Case("calls", "16 MiB of calls", ["calls", "1"], many_calls, CALLS)
    yield from refused()
