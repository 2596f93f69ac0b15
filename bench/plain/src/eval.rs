//! The tree walker. What is left to do stands on a vector, so that a deep recursion of the program needs no stack.

use crate::frac::{Frac, Trap};
use crate::machine::Stop;
use crate::syntax::{Arith, Comparison};
use crate::tree::*;
use crate::value::{List, Value};

enum Task<'t> {
    Begin(&'t Expr),
    Call(u32),
    /// Ends a function; the caller's variables begin there.
    Return(usize),
    Neg,
    Not,
    Pow(i32),
    Arith(Arith),
    Compare(Comparison),
    And(&'t Expr),
    Or(&'t Expr),
    If(&'t Expr, &'t Expr),
    Let(&'t Expr),
    Match(&'t Expr, &'t Expr),
    /// Ends the scope of so many variables.
    Forget(usize),
    List(usize),
    Cons,
    Rec(usize),
    Field(u32),
}

struct Walker<'t> {
    functions: &'t [Function<'t>],
    tasks: Vec<Task<'t>>,
    values: Vec<Value>,
    variables: Vec<Value>,
    /// Where the running function's variables begin.
    base: usize,
    budget: u64,
}

/// The value of a call, by the tree.
pub fn eval<'t>(program: &'t Program<'t>, f: usize, args: Vec<Value>, budget: u64) -> Result<Value, Stop> {
    let functions = &program.functions[..];
    let (tasks, variables) = (Vec::new(), Vec::new());
    let mut walker = Walker { functions, tasks, values: args, variables, base: 0, budget };
    let mut next = walker.call(f)?;
    loop {
        next = match next {
            Some(expr) => walker.begin(expr),
            None => match walker.tasks.pop() {
                Some(task) => walker.go_on(task)?,
                None => return Ok(walker.pop()),
            },
        };
    }
}

impl<'t> Walker<'t> {
    fn pop(&mut self) -> Value {
        self.values.pop().expect("a value")
    }

    fn give(&mut self, value: Value) -> Option<&'t Expr> {
        self.values.push(value);
        None
    }

    fn call(&mut self, f: usize) -> Result<Option<&'t Expr>, Stop> {
        if self.budget == 0 {
            return Err(Stop::Budget);
        }
        self.budget -= 1;
        let function = &self.functions[f];
        self.tasks.push(Task::Return(self.base));
        self.base = self.variables.len();
        let first = self.values.len() - function.params.len();
        self.variables.extend(self.values.drain(first..));
        Ok(Some(&function.body))
    }

    fn parts(&mut self, task: Task<'t>, parts: &'t [Expr]) -> Option<&'t Expr> {
        self.tasks.push(task);
        self.tasks.extend(parts.iter().rev().map(Task::Begin));
        None
    }

    fn one(&mut self, task: Task<'t>, part: &'t Expr) -> Option<&'t Expr> {
        self.tasks.push(task);
        Some(part)
    }

    fn two(&mut self, task: Task<'t>, a: &'t Expr, b: &'t Expr) -> Option<&'t Expr> {
        self.tasks.push(task);
        self.tasks.push(Task::Begin(b));
        Some(a)
    }

    /// Gives a value, or says which part comes first.
    fn begin(&mut self, expr: &'t Expr) -> Option<&'t Expr> {
        match &expr.node {
            Node::Bool(b) => self.give(Value::Bool(*b)),
            Node::Num(value, _) => self.give(Value::Num(*value)),
            Node::Local(k) => {
                let value = self.variables[self.base + *k as usize].clone();
                self.give(value)
            }
            Node::Nil(_) => self.give(Value::List(List::empty())),
            Node::Call(f, args) => self.parts(Task::Call(*f), args),
            Node::List(items) => self.parts(Task::List(items.len()), items),
            Node::Rec(_, parts) => self.parts(Task::Rec(parts.len()), parts),
            Node::Neg(a) => self.one(Task::Neg, a),
            Node::Not(a) => self.one(Task::Not, a),
            Node::Pow(a, power) => self.one(Task::Pow(*power), a),
            Node::Field(_, field, a) => self.one(Task::Field(*field), a),
            Node::Arith(op, a, b) => self.two(Task::Arith(*op), a, b),
            Node::Compare(sign, a, b) => self.two(Task::Compare(*sign), a, b),
            Node::Cons(a, b) => self.two(Task::Cons, a, b),
            Node::And(a, b) => self.one(Task::And(b), a),
            Node::Or(a, b) => self.one(Task::Or(b), a),
            Node::If(a, b, c) => self.one(Task::If(b, c), a),
            Node::Let(a, b) => self.one(Task::Let(b), a),
            Node::Match(list, empty, full) => self.one(Task::Match(empty, full), list),
        }
    }

    /// Goes on with a task whose parts have their values.
    fn go_on(&mut self, task: Task<'t>) -> Result<Option<&'t Expr>, Stop> {
        Ok(match task {
            Task::Begin(expr) => Some(expr),
            Task::Call(f) => self.call(f as usize)?,
            Task::Return(base) => {
                self.variables.truncate(self.base);
                self.base = base;
                None
            }
            Task::Neg => {
                let x = self.pop().number();
                self.give(Value::Num(x.neg()))
            }
            Task::Not => {
                let x = self.pop().truth();
                self.give(Value::Bool(!x))
            }
            Task::Pow(power) => {
                let x = self.pop().number();
                self.give(Value::Num(x.pow(power)?))
            }
            Task::Arith(op) => {
                let y = self.pop().number();
                let x = self.pop().number();
                self.give(Value::Num(arith(op, x, y)?))
            }
            Task::Compare(sign) => {
                let y = self.pop().number();
                let x = self.pop().number();
                self.give(Value::Bool(compare(sign, x, y)))
            }
            Task::And(b) if self.pop().truth() => Some(b),
            Task::And(_) => self.give(Value::Bool(false)),
            Task::Or(_) if self.pop().truth() => self.give(Value::Bool(true)),
            Task::Or(b) => Some(b),
            Task::If(yes, no) => Some(if self.pop().truth() { yes } else { no }),
            Task::Let(body) => {
                let value = self.pop();
                self.variables.push(value);
                self.one(Task::Forget(1), body)
            }
            Task::Match(empty, full) => self.arm(empty, full),
            Task::Forget(count) => {
                self.variables.truncate(self.variables.len() - count);
                None
            }
            Task::List(n) => {
                let first = self.values.len() - n;
                let list = List::of(self.values.drain(first..));
                self.give(Value::List(list))
            }
            Task::Cons => {
                let tail = self.pop().list();
                let head = self.pop();
                self.give(Value::List(List::cons(head, tail)))
            }
            Task::Rec(n) => {
                let first = self.values.len() - n;
                let parts = self.values.drain(first..).collect();
                self.give(Value::Rec(parts))
            }
            Task::Field(k) => {
                let parts = self.pop().parts();
                self.give(parts[k as usize].clone())
            }
        })
    }

    fn arm(&mut self, empty: &'t Expr, full: &'t Expr) -> Option<&'t Expr> {
        let list = self.pop().list();
        let cell = match list.first() {
            Some(cell) => cell,
            None => return Some(empty),
        };
        self.variables.push(cell.head.clone());
        self.variables.push(Value::List(cell.tail.clone()));
        self.one(Task::Forget(2), full)
    }
}

fn arith(op: Arith, x: Frac, y: Frac) -> Result<Frac, Trap> {
    match op {
        Arith::Add => x.add(y),
        Arith::Sub => x.sub(y),
        Arith::Mul => x.mul(y),
        Arith::Div => x.div(y),
    }
}

fn compare(sign: Comparison, x: Frac, y: Frac) -> bool {
    let order = x.compare(y);
    match sign {
        Comparison::Lt => order.is_lt(),
        Comparison::Le => order.is_le(),
        Comparison::Eq => order.is_eq(),
        Comparison::Gt => order.is_gt(),
        Comparison::Ge => order.is_ge(),
        Comparison::Ne => order.is_ne(),
    }
}
