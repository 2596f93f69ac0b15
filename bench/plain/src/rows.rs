//! The equations of one function.

use crate::syntax::Arith;
use crate::tree::*;
use crate::unit::{Atom, OutOfRange, Unit};
use std::rc::Rc;

/// The most slots of a function or a call.
pub const MAX_SLOTS: u32 = 2000;

/// Asks that the unit, over slots, is 1.
pub struct Row {
    pub at: u32,
    pub unit: Unit,
}

/// The equations, and the types of the parameters and the result over slots.
pub struct Rows {
    pub slots: u32,
    pub list: Vec<Row>,
    pub params: Vec<Ty>,
    pub result: Ty,
}

/// Why there are no equations: too many slots, or a power out of range at a place.
pub enum RowStop {
    Slots,
    Range(u32),
}

/// More slots than there may be.
struct TooMany;

type Walked<T> = Result<T, TooMany>;

/// The equations of a function, given the schemes of those before it.
pub fn rows(program: &Program, function: &Function, number: u32, schemes: &[Scheme]) -> Result<Rows, RowStop> {
    let mut walk = Walk {
        program,
        schemes,
        number,
        itself: None,
        named: vec![None; function.named as usize],
        slots: 0,
        rows: Vec::new(),
        range: None,
        scope: Vec::new(),
    };
    let (params, result) = walk.function(function).map_err(|_| RowStop::Slots)?;
    match walk.range {
        Some(at) => Err(RowStop::Range(at)),
        None => Ok(Rows { slots: walk.slots, list: walk.rows, params, result }),
    }
}

/// Puts a unit for each variable.
pub fn put(ty: &Ty, by: &[Unit]) -> Result<Ty, OutOfRange> {
    let unit = |u: &Unit| u.replace(|k| &by[k as usize]);
    Ok(match ty {
        Ty::Bool => Ty::Bool,
        Ty::Num(u) => Ty::Num(unit(u)?),
        Ty::List(item) => Ty::List(Box::new(put(item, by)?)),
        Ty::Rec(record, units) => Ty::Rec(*record, units.iter().map(unit).collect::<Result<_, _>>()?),
    })
}

/// Renames the atoms of each unit.
pub fn rename(ty: &Ty, by: &impl Fn(Atom) -> Atom) -> Ty {
    match ty {
        Ty::Bool => Ty::Bool,
        Ty::Num(u) => Ty::Num(u.rename(by)),
        Ty::List(item) => Ty::List(Box::new(rename(item, by))),
        Ty::Rec(record, units) => Ty::Rec(*record, units.iter().map(|u| u.rename(by)).collect()),
    }
}

fn shift(ty: &Ty, first: u32) -> Ty {
    rename(ty, &|atom| match atom {
        Atom::Var(k) => Atom::Var(first + k),
        base => base,
    })
}

struct Walk<'w, 'a> {
    program: &'w Program<'a>,
    schemes: &'w [Scheme],
    number: u32,
    itself: Option<Rc<(Vec<Ty>, Ty)>>,
    named: Vec<Option<u32>>,
    slots: u32,
    rows: Vec<Row>,
    range: Option<u32>,
    scope: Vec<Ty>,
}

impl Walk<'_, '_> {
    fn function(&mut self, function: &Function) -> Walked<(Vec<Ty>, Ty)> {
        for k in 0..function.units {
            self.named[k as usize] = Some(self.fresh(1)?);
        }
        let mut params = Vec::new();
        for note in &function.params {
            params.push(self.note(note)?);
        }
        let noted = match &function.result {
            Some(note) => Some(self.note(note)?),
            None => None,
        };
        if let Some(noted) = &noted {
            self.itself = Some(Rc::new((params.clone(), noted.clone())));
        }
        self.scope = params.clone();
        let result = self.expr(&function.body)?;
        if let Some(noted) = &noted {
            self.against(function.at, &result, noted);
        }
        Ok((params, result))
    }

    /// The first of so many new slots.
    fn fresh(&mut self, count: u32) -> Walked<u32> {
        let first = self.slots;
        if count > MAX_SLOTS - first {
            return Err(TooMany);
        }
        self.slots += count;
        Ok(first)
    }

    fn unit_note(&mut self, note: &UnitNote) -> Walked<Unit> {
        let written = match note {
            UnitNote::Hole => return Ok(Unit::atom(Atom::Var(self.fresh(1)?))),
            UnitNote::Written(unit) => unit,
        };
        for &(atom, _) in written.terms() {
            if let Atom::Var(k) = atom {
                if self.named[k as usize].is_none() {
                    self.named[k as usize] = Some(self.fresh(1)?);
                }
            }
        }
        let named = &self.named;
        Ok(written.rename(|atom| match atom {
            Atom::Var(k) => Atom::Var(named[k as usize].expect("a slot")),
            base => base,
        }))
    }

    fn note(&mut self, note: &Note) -> Walked<Ty> {
        Ok(match note {
            Note::Bool => Ty::Bool,
            Note::Num(unit) => Ty::Num(self.unit_note(unit)?),
            Note::List(item) => Ty::List(Box::new(self.note(item)?)),
            Note::Rec(record, units) => {
                Ty::Rec(*record, units.iter().map(|u| self.unit_note(u)).collect::<Walked<_>>()?)
            }
        })
    }

    /// Keeps the first place at which a power passed its range.
    fn formed(&mut self, at: u32, unit: Result<Unit, OutOfRange>) -> Unit {
        unit.unwrap_or_else(|_| {
            self.range.get_or_insert(at);
            Unit::one()
        })
    }

    fn row(&mut self, at: u32, a: &Unit, b: &Unit) {
        let unit = self.formed(at, a.div(b));
        if !unit.is_one() {
            self.rows.push(Row { at, unit });
        }
    }

    fn against(&mut self, at: u32, a: &Ty, b: &Ty) {
        match (a, b) {
            (Ty::Num(u), Ty::Num(v)) => self.row(at, u, v),
            (Ty::List(a), Ty::List(b)) => self.against(at, a, b),
            (Ty::Rec(_, us), Ty::Rec(_, vs)) => {
                for (u, v) in us.iter().zip(vs) {
                    self.row(at, u, v);
                }
            }
            _ => {}
        }
    }

    fn number(&mut self, expr: &Expr) -> Walked<Unit> {
        match self.expr(expr)? {
            Ty::Num(unit) => Ok(unit),
            _ => unreachable!("shapes were looked at"),
        }
    }

    fn exprs(&mut self, exprs: &[Expr]) -> Walked<Vec<Ty>> {
        exprs.iter().map(|e| self.expr(e)).collect()
    }

    fn expr(&mut self, expr: &Expr) -> Walked<Ty> {
        let at = expr.at;
        Ok(match &expr.node {
            Node::Bool(_) => Ty::Bool,
            Node::Num(_, UnitNote::Written(unit)) => Ty::Num(unit.clone()),
            Node::Num(_, UnitNote::Hole) => Ty::Num(Unit::atom(Atom::Var(self.fresh(1)?))),
            Node::Local(k) => self.scope[*k as usize].clone(),
            Node::Call(f, args) => self.call(at, *f, args)?,
            Node::Neg(a) => self.expr(a)?,
            Node::Not(a) => self.expr(a)?,
            Node::Pow(a, power) => {
                let unit = self.number(a)?;
                Ty::Num(self.formed(at, unit.pow(*power)))
            }
            Node::And(a, b) | Node::Or(a, b) => {
                self.expr(a)?;
                self.expr(b)?
            }
            Node::Arith(op, a, b) => {
                let a = self.number(a)?;
                let b = self.number(b)?;
                match op {
                    Arith::Add | Arith::Sub => {
                        self.row(at, &a, &b);
                        Ty::Num(a)
                    }
                    Arith::Mul => Ty::Num(self.formed(at, a.mul(&b))),
                    Arith::Div => Ty::Num(self.formed(at, a.div(&b))),
                }
            }
            Node::Compare(_, a, b) => {
                let a = self.number(a)?;
                let b = self.number(b)?;
                self.row(at, &a, &b);
                Ty::Bool
            }
            Node::If(a, b, c) => {
                self.expr(a)?;
                let yes = self.expr(b)?;
                let no = self.expr(c)?;
                self.against(at, &yes, &no);
                yes
            }
            Node::Let(a, b) => {
                let value = self.expr(a)?;
                self.scope.push(value);
                let body = self.expr(b)?;
                self.scope.pop();
                body
            }
            Node::Match(list, empty, full) => self.match_list(at, list, empty, full)?,
            Node::Nil(note) => self.note(note)?,
            Node::List(items) => {
                let first = self.expr(&items[0])?;
                let others = self.exprs(&items[1..])?;
                for other in &others {
                    self.against(at, &first, other);
                }
                Ty::List(Box::new(first))
            }
            Node::Cons(a, b) => {
                let head = self.expr(a)?;
                let tail = self.expr(b)?;
                if let Ty::List(item) = &tail {
                    self.against(at, &head, item);
                }
                tail
            }
            Node::Rec(record, parts) => self.record_text(at, *record, parts)?,
            Node::Field(record, field, a) => {
                let units = match self.expr(a)? {
                    Ty::Rec(_, units) => units,
                    _ => unreachable!("shapes were looked at"),
                };
                self.field(at, *record, *field as usize, &units)
            }
        })
    }

    fn call(&mut self, at: u32, f: u32, args: &[Expr]) -> Walked<Ty> {
        if f == self.number {
            let itself = Rc::clone(self.itself.as_ref().expect("a result note"));
            for_each_against(self, at, &itself.0, args)?;
            return Ok(itself.1.clone());
        }
        let scheme = &self.schemes[f as usize];
        let first = self.fresh(scheme.vars)?;
        let params: Vec<Ty> = scheme.params.iter().map(|t| shift(t, first)).collect();
        for_each_against(self, at, &params, args)?;
        Ok(shift(&scheme.result, first))
    }

    fn match_list(&mut self, at: u32, list: &Expr, empty: &Expr, full: &Expr) -> Walked<Ty> {
        let list = self.expr(list)?;
        let head = match &list {
            Ty::List(item) => (**item).clone(),
            _ => unreachable!("shapes were looked at"),
        };
        let empty = self.expr(empty)?;
        self.scope.push(head);
        self.scope.push(list);
        let full = self.expr(full)?;
        self.scope.truncate(self.scope.len() - 2);
        self.against(at, &empty, &full);
        Ok(empty)
    }

    fn record_text(&mut self, at: u32, record: u32, parts: &[Expr]) -> Walked<Ty> {
        let count = self.program.records[record as usize].units;
        let first = self.fresh(count)?;
        let units: Vec<Unit> = (first..first + count).map(|k| Unit::atom(Atom::Var(k))).collect();
        let types = self.exprs(parts)?;
        for (k, ty) in types.iter().enumerate() {
            let declared = self.field(at, record, k, &units);
            self.against(at, &declared, ty);
        }
        Ok(Ty::Rec(record, units))
    }

    fn field(&mut self, at: u32, record: u32, field: usize, units: &[Unit]) -> Ty {
        let declared = &self.program.records[record as usize].fields[field];
        put(declared, units).unwrap_or_else(|_| {
            self.range.get_or_insert(at);
            erased(declared)
        })
    }
}

/// The parameters against the arguments.
fn for_each_against(walk: &mut Walk, at: u32, params: &[Ty], args: &[Expr]) -> Walked<()> {
    let args = walk.exprs(args)?;
    for (param, arg) in params.iter().zip(&args) {
        walk.against(at, param, arg);
    }
    Ok(())
}

/// The type with the unit 1 everywhere.
fn erased(ty: &Ty) -> Ty {
    match ty {
        Ty::Bool => Ty::Bool,
        Ty::Num(_) => Ty::Num(Unit::one()),
        Ty::List(item) => Ty::List(Box::new(erased(item))),
        Ty::Rec(record, units) => Ty::Rec(*record, vec![Unit::one(); units.len()]),
    }
}
