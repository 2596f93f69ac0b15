"""The grammar of docs/LANGUAGE.md as a table of rules, and the nodes of raw trees that they make.

A line is one rule: what it derives, its symbols, and after `=>` what becomes of its parts. A quoted symbol is a word
or a sign. `Name`, `Var` and `Number` are tokens of that kind, `Whole` is a number of digits alone that can be a power,
`One` the number `1`, `"<#"` a `<` directly after a number and `"<"` any other, `"=#"` a `=` directly after the token
before it. The parts are what isn't quoted. The place of a node is that of the symbol after `@`, otherwise of its first
token.

  pass       the only part itself, or nothing
  list       a list of the parts
  more       the list that is the first part, and the others after it
  KIND       a node of this kind, one higher than its highest part
  KIND~      a node as high as its highest part
  KIND!N     a node of height N; its parts are heights by themselves
"""
from __future__ import annotations

from dataclasses import dataclass, field
from typing import Any

HIGHEST = 400
TOO_HIGH = 10**9

UNITS = '''
unit : product => pass
product : useq => pass
product : @"/" useq => inverse
product : product @"*" useq => times
product : product @"/" useq => over
useq : upow => pass
useq : upows => side
upows : upow upow => list
upows : upows upow => more
upow : uprim => pass
upow : uprim "^" Whole => power
upow : uprim "^" "-" Whole => root
uprim : Name => measure
uprim : Var => variable
uprim : One => one
uprim : @"(" unit ")" => ubracket
unote : "_" => hole!0
unote : unit => note!0
'''

TYPES = '''
type : tatom => pass
type : type "list" => tlist
tatom : "bool" => tbool!1
tatom : "num" => tnum!1
tatom : "num" "<" unote ">" => tnum!1
tatom : Name unotes => trecord!1
tatom : "(" type ")" => tbracket
unotes : => list
unotes : "<" unotes1 ">" => pass
unotes1 : unote => list
unotes1 : unotes1 "," unote => more
signature : type => list
signature : signature "->" type => more
'''

EXPRESSIONS = '''
expr : @"let" binder "=" expr "in" expr => let
expr : @"if" expr "then" expr "else" expr => if
expr : @"match" expr "with" bar "[" "]" "->" expr "|" binder "::" binder "->" expr => match
expr : or => pass
bar : => pass
bar : "|" => bar~
binder : Name => bound!0
binder : "_" => bound!0
or : and => pass
or : or @"||" and => ||
and : cmp => pass
and : and @"&&" cmp => &&
cmp : cons => pass
cmp : cons @"<" cons => <
cmp : cons @"<=" cons => <=
cmp : cons @"=" cons => =
cmp : cons @"<>" cons => <>
cmp : cons @">" cons => >
cmp : cons @">" "=#" cons => >=
cons : add => pass
cons : add @"::" cons => ::
add : mul => pass
add : add @"+" mul => +
add : add @"-" mul => -
mul : un => pass
mul : mul @"*" un => *
mul : mul @"/" un => /
un : app => pass
un : @"-" un => negate
app : atom => pass
app : Name atoms => call
app : @"not" atom => not
app : @"pown" atom Whole => pown
app : @"pown" atom "(" "-" Whole ")" => rootn
atoms : atom => list
atoms : atoms atom => more
atom : prim => pass
atom : atom @"." Name => field
prim : Number => number!1
prim : Number "<#" unote ">" => number!1
prim : "true" => true
prim : "false" => false
prim : Name => name
prim : "(" expr ")" => bracket
prim : "(" "[" "]" ":" type ")" => nil!3
prim : "[" exprs "]" => items
prim : "{" parts "}" => record
exprs : expr => list
exprs : exprs ";" expr => more
parts : part => list
parts : parts ";" part => more
part : Name "=" expr => part~
'''

DECLARATIONS = '''
program : decls => program!0
decls : => list
decls : decls decl => more
attr : "[<" "Measure" ">" "]" => list
decl : attr "type" @Name => base!0
decl : attr "type" @Name "=" unit => short!0
decl : "type" @Name uparams "=" "{" fdecls "}" => struct!0
decl : "let" @Name uparams params "=" expr => fun!0
decl : "let" @Name uparams params ":" type "=" expr => noted!0
decl : "let" "rec" @Name uparams params ":" type "=" expr => rec!0
uparams : => list
uparams : "<" uparams1 ">" => pass
uparams1 : uparam => list
uparams1 : uparams1 "," uparam => more
uparam : attr @Var => uparam!0
fdecls : fdecl => list
fdecls : fdecls ";" fdecl => more
fdecl : Name ":" type => fdecl!0
params : => list
params : params param => more
param : "(" binder ":" type ")" => param!0
'''


@dataclass
class Node:
    """A node of a raw tree: its kind, its place, and its parts, which are nodes, lists and tokens."""

    kind: str
    at: int
    parts: list = field(default_factory=list)


@dataclass(eq=False)
class Rule:
    """A rule of the grammar. `marked` is the number of the symbol whose token is the node's place."""

    left: str
    symbols: list[str]
    action: str
    marked: int

    def __post_init__(self) -> None:
        self.following = [*self.symbols, None]
        self.fixed = int(self.action.partition("!")[2]) if "!" in self.action else None
        self.higher = 0 if self.action in ("pass", "list", "more") or self.action.endswith("~") else 1

    def height(self, parts: int) -> int:
        """The height of what the rule makes, from that of its highest part."""
        if self.fixed is not None:
            return TOO_HIGH if parts > HIGHEST else self.fixed
        return min(parts + self.higher, TOO_HIGH)

    def made(self, parts: list, at: int) -> Any:
        """What the rule makes of its parts."""
        if self.action == "pass":
            return parts[0] if parts else None
        if self.action == "list":
            return parts
        if self.action == "more":
            return parts[0] + parts[1:]
        return Node(self.action.rstrip("~").partition("!")[0], at, parts)


def rule_of(line: str) -> Rule:
    """The rule that a line of the table writes."""
    left, _, after = line.partition(" : ")
    symbols, _, action = after.rpartition("=> ")
    names = symbols.split()
    marked = [number for number, name in enumerate(names) if name.startswith("@")]
    return Rule(left.strip(), [name.lstrip("@") for name in names], action, marked[0] if marked else 0)


def rules_of(table: str) -> list[Rule]:
    """The rules of a table."""
    return [rule_of(line) for line in table.splitlines() if line]


RULES = rules_of(UNITS + TYPES + EXPRESSIONS + DECLARATIONS)
