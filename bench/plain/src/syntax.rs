//! The tree of a program as it is written.

use crate::frac::Frac;

/// A unit text.
pub enum RawUnit<'a> {
    One(u32),
    Name(u32, &'a str),
    Var(u32, &'a str),
    Power(Box<RawUnit<'a>>, i32),
    Side(Vec<RawUnit<'a>>),
    Times(Box<RawUnit<'a>>, Box<RawUnit<'a>>),
    Over(Box<RawUnit<'a>>, Box<RawUnit<'a>>),
    Inverse(u32, Box<RawUnit<'a>>),
    Bracket(u32, Box<RawUnit<'a>>),
}

impl RawUnit<'_> {
    /// The place of the first token.
    pub fn at(&self) -> u32 {
        match self {
            RawUnit::One(at) | RawUnit::Name(at, _) | RawUnit::Var(at, _) => *at,
            RawUnit::Inverse(at, _) | RawUnit::Bracket(at, _) => *at,
            RawUnit::Power(u, _) | RawUnit::Times(u, _) | RawUnit::Over(u, _) => u.at(),
            RawUnit::Side(us) => us[0].at(),
        }
    }
}

/// A unit, or a place that leaves it open.
pub enum RawNote<'a> {
    Hole(u32),
    Unit(RawUnit<'a>),
}

/// A type text.
pub enum RawType<'a> {
    Bool,
    Num(Option<RawNote<'a>>),
    Name(u32, &'a str, Vec<RawNote<'a>>),
    List(Box<RawType<'a>>),
    Bracket(Box<RawType<'a>>),
}

/// A sign between two numbers that gives a number.
#[derive(Clone, Copy, PartialEq, Eq)]
pub enum Arith {
    Add,
    Sub,
    Mul,
    Div,
}

/// A sign between two numbers that gives a truth value.
#[derive(Clone, Copy, PartialEq, Eq)]
pub enum Comparison {
    Lt,
    Le,
    Eq,
    Gt,
    Ge,
    Ne,
}

/// A name, or `_`.
#[derive(Clone, Copy)]
pub struct Binder<'a> {
    pub at: u32,
    pub name: Option<&'a str>,
}

/// An expression and its place.
pub struct RawExpr<'a> {
    pub at: u32,
    pub node: RawNode<'a>,
}

/// The forms of expressions.
pub enum RawNode<'a> {
    Bool(bool),
    Num(Frac, Option<RawNote<'a>>),
    Name(&'a str),
    Call(&'a str, Vec<RawExpr<'a>>),
    Neg(Box<RawExpr<'a>>),
    Not(Box<RawExpr<'a>>),
    Pow(Box<RawExpr<'a>>, i32),
    Arith(Arith, Box<RawExpr<'a>>, Box<RawExpr<'a>>),
    Compare(Comparison, Box<RawExpr<'a>>, Box<RawExpr<'a>>),
    And(Box<RawExpr<'a>>, Box<RawExpr<'a>>),
    Or(Box<RawExpr<'a>>, Box<RawExpr<'a>>),
    If(Box<RawExpr<'a>>, Box<RawExpr<'a>>, Box<RawExpr<'a>>),
    Let(Binder<'a>, Box<RawExpr<'a>>, Box<RawExpr<'a>>),
    Match(Box<RawExpr<'a>>, Box<RawExpr<'a>>, Binder<'a>, Binder<'a>, Box<RawExpr<'a>>),
    Nil(RawType<'a>),
    List(Vec<RawExpr<'a>>),
    Cons(Box<RawExpr<'a>>, Box<RawExpr<'a>>),
    Rec(Vec<(u32, &'a str, RawExpr<'a>)>),
    Field(u32, &'a str, Box<RawExpr<'a>>),
    Bracket(Box<RawExpr<'a>>),
}

/// A record.
pub struct RawRecord<'a> {
    pub at: u32,
    pub name: &'a str,
    pub units: Vec<(u32, &'a str)>,
    pub fields: Vec<(u32, &'a str, RawType<'a>)>,
}

/// A function.
pub struct RawFunction<'a> {
    pub at: u32,
    pub name: &'a str,
    pub recursive: bool,
    pub units: Vec<(u32, &'a str)>,
    pub params: Vec<(Binder<'a>, RawType<'a>)>,
    pub result: Option<RawType<'a>>,
    pub body: RawExpr<'a>,
}

/// A declaration.
pub enum RawDecl<'a> {
    Base(u32, &'a str),
    Short(u32, &'a str, RawUnit<'a>),
    Record(RawRecord<'a>),
    Function(RawFunction<'a>),
}
