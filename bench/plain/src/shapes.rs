//! Shapes: types without their units.

use crate::refusal::Refusal;
use crate::tree::*;

/// A type without its units.
#[derive(Clone, PartialEq, Eq)]
pub enum Shape {
    Bool,
    Num,
    List(Box<Shape>),
    Rec(u32),
}

const MAX_HEIGHT: u32 = 400;

/// Refuses the first node whose parts don't have the shapes that it asks for.
pub fn check(program: &Program) -> Result<Shapes, Refusal> {
    let mut shapes = Shapes::default();
    for record in &program.records {
        let fields: Vec<Shape> = record.fields.iter().map(of_type).collect();
        let height = 1 + fields.iter().map(|f| shapes.height(f)).max().unwrap_or(0);
        if height > MAX_HEIGHT {
            return Err(Refusal::Limit("depth", record.at));
        }
        shapes.heights.push(height);
        shapes.fields.push(fields);
    }
    for function in &program.functions {
        shapes.function(function)?;
    }
    Ok(shapes)
}

/// The shapes of a function.
pub struct Signature {
    pub params: Vec<Shape>,
    result: Shape,
}

/// The shapes of fields and functions, and how high each record is.
#[derive(Default)]
pub struct Shapes {
    heights: Vec<u32>,
    pub fields: Vec<Vec<Shape>>,
    pub functions: Vec<Signature>,
}

fn of_type(ty: &Ty) -> Shape {
    match ty {
        Ty::Bool => Shape::Bool,
        Ty::Num(_) => Shape::Num,
        Ty::List(item) => Shape::List(Box::new(of_type(item))),
        Ty::Rec(record, _) => Shape::Rec(*record),
    }
}

fn of_note(note: &Note) -> Shape {
    match note {
        Note::Bool => Shape::Bool,
        Note::Num(_) => Shape::Num,
        Note::List(item) => Shape::List(Box::new(of_note(item))),
        Note::Rec(record, _) => Shape::Rec(*record),
    }
}

impl Shapes {
    fn height(&self, shape: &Shape) -> u32 {
        match shape {
            Shape::Bool | Shape::Num => 1,
            Shape::List(item) => 1 + self.height(item),
            Shape::Rec(record) => self.heights[*record as usize],
        }
    }

    fn low(&self, shape: Shape, at: u32) -> Result<Shape, Refusal> {
        if self.height(&shape) > MAX_HEIGHT { Err(Refusal::Limit("depth", at)) } else { Ok(shape) }
    }

    fn function(&mut self, function: &Function) -> Result<(), Refusal> {
        let mut params = Vec::new();
        for param in &function.params {
            params.push(self.low(of_note(param), function.at)?);
        }
        let noted = function.result.as_ref().map(of_note);
        let mut scope = params.clone();
        let itself = Signature { params, result: noted.clone().unwrap_or(Shape::Bool) };
        self.functions.push(itself);
        let body = self.expr(&function.body, &mut scope)?;
        if noted.map_or(false, |noted| noted != body) {
            return Err(Refusal::Shape(function.at));
        }
        self.functions.last_mut().expect("the function itself").result = body;
        Ok(())
    }

    fn all(&self, parts: &[&Expr], wanted: &Shape, at: u32, scope: &mut Vec<Shape>) -> Result<(), Refusal> {
        let mut fits = true;
        for part in parts {
            fits &= self.expr(part, scope)? == *wanted;
        }
        if fits { Ok(()) } else { Err(Refusal::Shape(at)) }
    }

    fn parts<'s>(
        &self,
        parts: &[Expr],
        wanted: impl Iterator<Item = &'s Shape>,
        at: u32,
        scope: &mut Vec<Shape>,
    ) -> Result<(), Refusal> {
        let mut fits = true;
        for (part, wanted) in parts.iter().zip(wanted) {
            fits &= self.expr(part, scope)? == *wanted;
        }
        if fits { Ok(()) } else { Err(Refusal::Shape(at)) }
    }

    fn expr(&self, expr: &Expr, scope: &mut Vec<Shape>) -> Result<Shape, Refusal> {
        let at = expr.at;
        let refused = Err(Refusal::Shape(at));
        match &expr.node {
            Node::Bool(_) => Ok(Shape::Bool),
            Node::Num(..) => Ok(Shape::Num),
            Node::Local(k) => Ok(scope[*k as usize].clone()),
            Node::Call(f, args) => {
                let signature = &self.functions[*f as usize];
                self.parts(args, signature.params.iter(), at, scope)?;
                self.low(signature.result.clone(), at)
            }
            Node::Neg(a) | Node::Pow(a, _) => {
                self.all(&[a], &Shape::Num, at, scope)?;
                Ok(Shape::Num)
            }
            Node::Not(a) => {
                self.all(&[a], &Shape::Bool, at, scope)?;
                Ok(Shape::Bool)
            }
            Node::Arith(_, a, b) => {
                self.all(&[a, b], &Shape::Num, at, scope)?;
                Ok(Shape::Num)
            }
            Node::Compare(_, a, b) => {
                self.all(&[a, b], &Shape::Num, at, scope)?;
                Ok(Shape::Bool)
            }
            Node::And(a, b) | Node::Or(a, b) => {
                self.all(&[a, b], &Shape::Bool, at, scope)?;
                Ok(Shape::Bool)
            }
            Node::If(a, b, c) => {
                let condition = self.expr(a, scope)?;
                let yes = self.expr(b, scope)?;
                let no = self.expr(c, scope)?;
                if condition == Shape::Bool && yes == no { Ok(yes) } else { refused }
            }
            Node::Let(a, b) => {
                let value = self.expr(a, scope)?;
                scope.push(value);
                let body = self.expr(b, scope)?;
                scope.pop();
                Ok(body)
            }
            Node::Match(list, empty, full) => {
                let list = self.expr(list, scope)?;
                let head = match &list {
                    Shape::List(item) => (**item).clone(),
                    _ => return refused,
                };
                let empty = self.expr(empty, scope)?;
                scope.push(head);
                scope.push(list);
                let full = self.expr(full, scope)?;
                scope.truncate(scope.len() - 2);
                if empty == full { Ok(full) } else { refused }
            }
            Node::Nil(note) => match of_note(note) {
                shape @ Shape::List(_) => self.low(shape, at),
                _ => refused,
            },
            Node::List(items) => {
                let first = self.expr(&items[0], scope)?;
                self.parts(&items[1..], std::iter::repeat(&first), at, scope)?;
                self.low(Shape::List(Box::new(first)), at)
            }
            Node::Cons(a, b) => {
                let head = self.expr(a, scope)?;
                let tail = self.expr(b, scope)?;
                if let Shape::List(item) = &tail {
                    if **item == head {
                        return Ok(tail);
                    }
                }
                refused
            }
            Node::Rec(record, parts) => {
                self.parts(parts, self.fields[*record as usize].iter(), at, scope)?;
                Ok(Shape::Rec(*record))
            }
            Node::Field(record, field, a) => {
                self.all(&[a], &Shape::Rec(*record), at, scope)?;
                Ok(self.fields[*record as usize][*field as usize].clone())
            }
        }
    }
}
