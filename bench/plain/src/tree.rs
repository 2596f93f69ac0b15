//! The tree of a program with its names looked up.

use crate::frac::Frac;
use crate::syntax::{Arith, Comparison};
use crate::unit::Unit;
use std::collections::HashMap;

/// A unit in an annotation, which may be left open.
#[derive(Clone)]
pub enum UnitNote {
    Hole,
    Written(Unit),
}

/// The type of an annotation.
pub enum Note {
    Bool,
    Num(UnitNote),
    List(Box<Note>),
    Rec(u32, Vec<UnitNote>),
}

/// A type.
#[derive(Clone)]
pub enum Ty {
    Bool,
    Num(Unit),
    List(Box<Ty>),
    Rec(u32, Vec<Unit>),
}

/// An expression and its place.
pub struct Expr {
    pub at: u32,
    pub node: Node,
}

/// The forms of expressions; variables are numbered from the outermost.
pub enum Node {
    Bool(bool),
    Num(Frac, UnitNote),
    Local(u32),
    Call(u32, Vec<Expr>),
    Neg(Box<Expr>),
    Not(Box<Expr>),
    Pow(Box<Expr>, i32),
    Arith(Arith, Box<Expr>, Box<Expr>),
    Compare(Comparison, Box<Expr>, Box<Expr>),
    And(Box<Expr>, Box<Expr>),
    Or(Box<Expr>, Box<Expr>),
    If(Box<Expr>, Box<Expr>, Box<Expr>),
    Let(Box<Expr>, Box<Expr>),
    Match(Box<Expr>, Box<Expr>, Box<Expr>),
    Nil(Note),
    List(Vec<Expr>),
    Cons(Box<Expr>, Box<Expr>),
    Rec(u32, Vec<Expr>),
    Field(u32, u32, Box<Expr>),
}

/// A record.
pub struct Record<'a> {
    pub name: &'a str,
    pub at: u32,
    pub units: u32,
    pub field_names: Vec<&'a str>,
    pub fields: Vec<Ty>,
}

/// A function. `named` is how many unit variables it has, of which the first `units` are its unit parameters.
pub struct Function<'a> {
    pub name: &'a str,
    pub at: u32,
    pub units: u32,
    pub params: Vec<Note>,
    pub named: u32,
    pub result: Option<Note>,
    pub body: Expr,
}

/// What a name of a measure, abbreviation or record stands for.
pub enum Entry {
    Measure(Unit),
    Record(u32),
}

/// The names of measures, abbreviations and records.
pub type Types<'a> = HashMap<&'a str, Entry>;

/// A program.
pub struct Program<'a> {
    pub bases: Vec<&'a str>,
    pub records: Vec<Record<'a>>,
    pub functions: Vec<Function<'a>>,
    pub types: Types<'a>,
}

/// The most general type of a function, over numbered variables.
pub struct Scheme {
    pub params: Vec<Ty>,
    pub result: Ty,
    pub vars: u32,
}
