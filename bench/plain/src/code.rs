//! Instructions, and the code of a program.

use crate::frac::Frac;
use crate::show::number_text;
use crate::syntax::{Arith, Comparison};
use crate::tree::*;
use std::fmt::Write;

/// An instruction.
#[derive(Clone, Copy)]
pub enum Op {
    PushNum(Frac),
    PushBool(bool),
    Load(u32),
    Add,
    Sub,
    Mul,
    Div,
    Neg,
    Not,
    Lt,
    Le,
    Eq,
    Jump(u32),
    JumpIfNot(u32),
    MakeList(u32),
    Cons,
    Split(u32),
    MakeRec(u32, u32),
    Field(u32),
    Slide(u32),
    Call(u32),
    Ret,
    Pow(i32),
}

/// Where the code of a function begins, and how many parameters it has.
pub struct Entry {
    pub start: u32,
    pub params: u32,
}

/// The code of a program.
pub struct Code {
    pub ops: Vec<Op>,
    pub entries: Vec<Entry>,
}

/// The code of all functions, in order.
pub fn generate(program: &Program) -> Code {
    let mut generator = Generator { ops: Vec::new(), places: Vec::new() };
    let mut entries = Vec::with_capacity(program.functions.len());
    for function in &program.functions {
        let params = function.params.len() as u32;
        entries.push(Entry { start: generator.here(), params });
        generator.places.clear();
        generator.places.extend(0..params);
        generator.expr(&function.body, params);
        generator.ops.push(Op::Ret);
    }
    Code { ops: generator.ops, entries }
}

struct Generator {
    ops: Vec<Op>,
    /// Where in the frame each variable of the scope stands.
    places: Vec<u32>,
}

impl Generator {
    fn here(&self) -> u32 {
        self.ops.len() as u32
    }

    /// Leaves room for a jump whose address isn't known yet.
    fn room(&mut self) -> usize {
        self.ops.push(Op::Jump(0));
        self.ops.len() - 1
    }

    fn fill(&mut self, room: usize, jump: impl Fn(u32) -> Op) {
        self.ops[room] = jump(self.here());
    }

    fn exprs(&mut self, exprs: &[Expr], depth: u32) {
        for (k, expr) in exprs.iter().enumerate() {
            self.expr(expr, depth + k as u32);
        }
    }

    fn two(&mut self, a: &Expr, b: &Expr, depth: u32) {
        self.expr(a, depth);
        self.expr(b, depth + 1);
    }

    /// `depth` is how many values stand in the frame before the expression's.
    fn expr(&mut self, expr: &Expr, depth: u32) {
        match &expr.node {
            Node::Bool(b) => self.ops.push(Op::PushBool(*b)),
            Node::Num(value, _) => self.ops.push(Op::PushNum(*value)),
            Node::Local(k) => self.ops.push(Op::Load(self.places[*k as usize])),
            Node::Nil(_) => self.ops.push(Op::MakeList(0)),
            Node::List(items) => {
                self.exprs(items, depth);
                self.ops.push(Op::MakeList(items.len() as u32));
            }
            Node::Call(f, args) => {
                self.exprs(args, depth);
                self.ops.push(Op::Call(*f));
            }
            Node::Rec(record, parts) => {
                self.exprs(parts, depth);
                self.ops.push(Op::MakeRec(*record, parts.len() as u32));
            }
            Node::Neg(a) => self.one(a, depth, Op::Neg),
            Node::Not(a) => self.one(a, depth, Op::Not),
            Node::Pow(a, power) => self.one(a, depth, Op::Pow(*power)),
            Node::Field(_, field, a) => self.one(a, depth, Op::Field(*field)),
            Node::Arith(op, a, b) => {
                self.two(a, b, depth);
                self.ops.push(match op {
                    Arith::Add => Op::Add,
                    Arith::Sub => Op::Sub,
                    Arith::Mul => Op::Mul,
                    Arith::Div => Op::Div,
                });
            }
            Node::Cons(a, b) => {
                self.two(a, b, depth);
                self.ops.push(Op::Cons);
            }
            Node::Compare(sign, a, b) => {
                self.two(a, b, depth);
                self.ops.extend_from_slice(match sign {
                    Comparison::Lt => &[Op::Lt],
                    Comparison::Le => &[Op::Le],
                    Comparison::Eq => &[Op::Eq],
                    Comparison::Gt => &[Op::Le, Op::Not],
                    Comparison::Ge => &[Op::Lt, Op::Not],
                    Comparison::Ne => &[Op::Eq, Op::Not],
                });
            }
            Node::And(a, b) => self.arms(a, depth, |g| g.expr(b, depth), |g| g.ops.push(Op::PushBool(false))),
            Node::Or(a, b) => self.arms(a, depth, |g| g.ops.push(Op::PushBool(true)), |g| g.expr(b, depth)),
            Node::If(a, b, c) => self.arms(a, depth, |g| g.expr(b, depth), |g| g.expr(c, depth)),
            Node::Let(a, b) => {
                self.expr(a, depth);
                self.places.push(depth);
                self.expr(b, depth + 1);
                self.places.pop();
                self.ops.push(Op::Slide(1));
            }
            Node::Match(list, empty, full) => self.match_list(list, empty, full, depth),
        }
    }

    fn one(&mut self, part: &Expr, depth: u32, op: Op) {
        self.expr(part, depth);
        self.ops.push(op);
    }

    fn arms(&mut self, condition: &Expr, depth: u32, yes: impl FnOnce(&mut Self), no: impl FnOnce(&mut Self)) {
        self.expr(condition, depth);
        let branch = self.room();
        yes(self);
        let end = self.room();
        self.fill(branch, Op::JumpIfNot);
        no(self);
        self.fill(end, Op::Jump);
    }

    fn match_list(&mut self, list: &Expr, empty: &Expr, full: &Expr, depth: u32) {
        self.expr(list, depth);
        let branch = self.room();
        self.places.push(depth);
        self.places.push(depth + 1);
        self.expr(full, depth + 2);
        self.places.truncate(self.places.len() - 2);
        self.ops.push(Op::Slide(2));
        let end = self.room();
        self.fill(branch, Op::Split);
        self.expr(empty, depth);
        self.fill(end, Op::Jump);
    }
}

/// The code as text, an instruction a line.
pub fn listing(code: &Code, program: &Program) -> String {
    let mut out = String::new();
    let mut ends = code.entries.iter().skip(1).map(|entry| entry.start as usize);
    for (function, entry) in program.functions.iter().zip(&code.entries) {
        let _ = writeln!(out, "{} {}", function.name, entry.params);
        let start = entry.start as usize;
        let end = ends.next().unwrap_or(code.ops.len());
        for (k, op) in code.ops[start..end].iter().enumerate() {
            let _ = write!(out, "{} ", start + k);
            op_text(&mut out, op, program);
            out.push('\n');
        }
    }
    out
}

fn op_text(out: &mut String, op: &Op, program: &Program) {
    let _ = match op {
        Op::PushNum(value) => {
            out.push_str("num ");
            number_text(out, *value);
            Ok(())
        }
        Op::PushBool(b) => write!(out, "bool {}", b),
        Op::Load(k) => write!(out, "load {}", k),
        Op::Add => out.write_str("add"),
        Op::Sub => out.write_str("sub"),
        Op::Mul => out.write_str("mul"),
        Op::Div => out.write_str("div"),
        Op::Neg => out.write_str("neg"),
        Op::Not => out.write_str("not"),
        Op::Lt => out.write_str("lt"),
        Op::Le => out.write_str("le"),
        Op::Eq => out.write_str("eq"),
        Op::Jump(to) => write!(out, "jump {}", to),
        Op::JumpIfNot(to) => write!(out, "jumpifnot {}", to),
        Op::MakeList(n) => write!(out, "list {}", n),
        Op::Cons => out.write_str("cons"),
        Op::Split(to) => write!(out, "split {}", to),
        Op::MakeRec(record, n) => write!(out, "rec {} {}", program.records[*record as usize].name, n),
        Op::Field(k) => write!(out, "field {}", k),
        Op::Slide(k) => write!(out, "slide {}", k),
        Op::Call(f) => write!(out, "call {}", program.functions[*f as usize].name),
        Op::Ret => out.write_str("ret"),
        Op::Pow(power) => write!(out, "pown {}", power),
    };
}
