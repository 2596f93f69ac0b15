//! Looking names up.

use crate::refusal::Refusal;
use crate::syntax::*;
use crate::tree::*;
use crate::unit::{Atom, OutOfRange, Unit};
use std::collections::HashMap;

type Resolve<T> = Result<T, Refusal>;

/// The program with its names looked up, or the first fault of a name.
pub fn resolve<'a>(decls: &[RawDecl<'a>]) -> Resolve<Program<'a>> {
    let mut names = Names::default();
    for decl in decls {
        names.decl(decl)?;
    }
    Ok(Program { bases: names.bases, records: names.records, functions: names.functions, types: names.types })
}

/// The place of the first name of a unit without variables that is no measure.
pub fn unknown_measure<'a>(types: &Types<'a>, raw: &RawUnit<'a>) -> Option<u32> {
    match known(types, raw, &mut Vars::None) {
        Err(Refusal::Names(_, at)) => Some(at),
        _ => None,
    }
}

/// The unit of a text whose names are all measures.
pub fn closed_unit<'a>(types: &Types<'a>, raw: &RawUnit<'a>) -> Result<Unit, OutOfRange> {
    value(types, raw, &Vars::None)
}

fn unknown(at: u32) -> Refusal {
    Refusal::Names("unknown name", at)
}

fn twice(at: u32) -> Refusal {
    Refusal::Names("declared twice", at)
}

fn wrong_count(at: u32) -> Refusal {
    Refusal::Names("wrong count", at)
}

fn hole(at: u32) -> Refusal {
    Refusal::Names("hole", at)
}

/// The unit variables that may be named.
enum Vars<'v, 'a> {
    None,
    Declared(&'v [(u32, &'a str)]),
    Any(&'v mut Vec<&'a str>),
}

#[derive(Default)]
struct Names<'a> {
    types: Types<'a>,
    fields: HashMap<&'a str, (u32, u32)>,
    function_numbers: HashMap<&'a str, u32>,
    bases: Vec<&'a str>,
    records: Vec<Record<'a>>,
    functions: Vec<Function<'a>>,
}

/// What is known inside a function.
struct Scope<'a> {
    locals: Vec<Option<&'a str>>,
    vars: Vec<&'a str>,
    /// Name, number and parameter count, where it may call itself.
    itself: Option<(&'a str, u32, usize)>,
}

impl<'a> Names<'a> {
    fn decl(&mut self, decl: &RawDecl<'a>) -> Resolve<()> {
        match decl {
            RawDecl::Base(at, name) => {
                self.free_type(*at, name)?;
                let base = Atom::Base(self.bases.len() as u32);
                self.bases.push(name);
                self.types.insert(name, Entry::Measure(Unit::atom(base)));
                Ok(())
            }
            RawDecl::Short(at, name, raw) => {
                self.free_type(*at, name)?;
                let unit = self.unit(raw, &mut Vars::None)?;
                self.types.insert(name, Entry::Measure(unit));
                Ok(())
            }
            RawDecl::Record(record) => self.record(record),
            RawDecl::Function(function) => self.function(function),
        }
    }

    fn free_type(&self, at: u32, name: &str) -> Resolve<()> {
        if self.types.contains_key(name) { Err(twice(at)) } else { Ok(()) }
    }

    fn record(&mut self, raw: &RawRecord<'a>) -> Resolve<()> {
        self.free_type(raw.at, raw.name)?;
        no_repeat(&raw.units)?;
        let number = self.records.len() as u32;
        let mut fields = Vec::new();
        let mut field_names = Vec::new();
        for (k, (at, name, ty)) in raw.fields.iter().enumerate() {
            if self.fields.insert(name, (number, k as u32)).is_some() {
                return Err(twice(*at));
            }
            field_names.push(*name);
            fields.push(self.field_type(ty, &raw.units)?);
        }
        self.types.insert(raw.name, Entry::Record(number));
        let units = raw.units.len() as u32;
        self.records.push(Record { name: raw.name, at: raw.at, units, field_names, fields });
        Ok(())
    }

    fn function(&mut self, raw: &RawFunction<'a>) -> Resolve<()> {
        if self.function_numbers.contains_key(raw.name) {
            return Err(twice(raw.at));
        }
        no_repeat(&raw.units)?;
        let number = self.functions.len() as u32;
        let mut scope = Scope {
            locals: Vec::new(),
            vars: raw.units.iter().map(|u| u.1).collect(),
            itself: raw.recursive.then_some((raw.name, number, raw.params.len())),
        };
        let mut params = Vec::new();
        for (binder, ty) in &raw.params {
            if binder.name.is_some() && scope.locals.contains(&binder.name) {
                return Err(twice(binder.at));
            }
            scope.locals.push(binder.name);
            params.push(self.note(ty, &mut Vars::Any(&mut scope.vars))?);
        }
        let result = match &raw.result {
            Some(ty) => Some(self.note(ty, &mut Vars::Any(&mut scope.vars))?),
            None => None,
        };
        let body = self.expr(&raw.body, &mut scope)?;
        self.function_numbers.insert(raw.name, number);
        self.functions.push(Function {
            name: raw.name,
            at: raw.at,
            units: raw.units.len() as u32,
            params,
            named: scope.vars.len() as u32,
            result,
            body,
        });
        Ok(())
    }

    // Units and types

    fn unit(&self, raw: &RawUnit<'a>, vars: &mut Vars<'_, 'a>) -> Resolve<Unit> {
        known(&self.types, raw, vars)?;
        value(&self.types, raw, vars).map_err(|_| Refusal::UnitRange(raw.at()))
    }

    fn record_number(&self, at: u32, name: &str, units: usize) -> Resolve<u32> {
        let number = match self.types.get(name) {
            Some(Entry::Record(number)) => number,
            _ => return Err(unknown(at)),
        };
        if self.records[*number as usize].units as usize != units {
            return Err(wrong_count(at));
        }
        Ok(*number)
    }

    fn field_type(&self, raw: &RawType<'a>, units: &[(u32, &'a str)]) -> Resolve<Ty> {
        let unit = |note: &RawNote<'a>| match note {
            RawNote::Hole(at) => Err(hole(*at)),
            RawNote::Unit(raw) => self.unit(raw, &mut Vars::Declared(units)),
        };
        match raw {
            RawType::Bool => Ok(Ty::Bool),
            RawType::Num(None) => Ok(Ty::Num(Unit::one())),
            RawType::Num(Some(note)) => Ok(Ty::Num(unit(note)?)),
            RawType::Name(at, name, notes) => {
                let number = self.record_number(*at, name, notes.len())?;
                Ok(Ty::Rec(number, notes.iter().map(unit).collect::<Resolve<_>>()?))
            }
            RawType::List(item) => Ok(Ty::List(Box::new(self.field_type(item, units)?))),
            RawType::Bracket(inner) => self.field_type(inner, units),
        }
    }

    fn unit_note(&self, raw: &RawNote<'a>, vars: &mut Vars<'_, 'a>) -> Resolve<UnitNote> {
        match raw {
            RawNote::Hole(_) => Ok(UnitNote::Hole),
            RawNote::Unit(raw) => Ok(UnitNote::Written(self.unit(raw, vars)?)),
        }
    }

    fn note(&self, raw: &RawType<'a>, vars: &mut Vars<'_, 'a>) -> Resolve<Note> {
        match raw {
            RawType::Bool => Ok(Note::Bool),
            RawType::Num(None) => Ok(Note::Num(UnitNote::Written(Unit::one()))),
            RawType::Num(Some(note)) => Ok(Note::Num(self.unit_note(note, vars)?)),
            RawType::Name(at, name, notes) => {
                let number = self.record_number(*at, name, notes.len())?;
                let notes = notes.iter().map(|n| self.unit_note(n, vars)).collect::<Resolve<_>>()?;
                Ok(Note::Rec(number, notes))
            }
            RawType::List(item) => Ok(Note::List(Box::new(self.note(item, vars)?))),
            RawType::Bracket(inner) => self.note(inner, vars),
        }
    }

    // Expressions

    fn boxed(&self, raw: &RawExpr<'a>, scope: &mut Scope<'a>) -> Resolve<Box<Expr>> {
        Ok(Box::new(self.expr(raw, scope)?))
    }

    fn exprs(&self, raws: &[RawExpr<'a>], scope: &mut Scope<'a>) -> Resolve<Vec<Expr>> {
        raws.iter().map(|raw| self.expr(raw, scope)).collect()
    }

    fn expr(&self, raw: &RawExpr<'a>, scope: &mut Scope<'a>) -> Resolve<Expr> {
        let node = match &raw.node {
            RawNode::Bracket(inner) => return self.expr(inner, scope),
            RawNode::Bool(b) => Node::Bool(*b),
            RawNode::Num(value, note) => {
                let note = match note {
                    None => UnitNote::Written(Unit::one()),
                    Some(RawNote::Hole(_)) if !value.is_zero() => return Err(hole(raw.at)),
                    Some(note) => self.unit_note(note, &mut Vars::None)?,
                };
                Node::Num(*value, note)
            }
            RawNode::Name(name) => self.name(raw.at, name, &[], scope)?,
            RawNode::Call(name, args) => self.name(raw.at, name, args, scope)?,
            RawNode::Neg(a) => Node::Neg(self.boxed(a, scope)?),
            RawNode::Not(a) => Node::Not(self.boxed(a, scope)?),
            RawNode::Pow(a, power) => Node::Pow(self.boxed(a, scope)?, *power),
            RawNode::Arith(op, a, b) => Node::Arith(*op, self.boxed(a, scope)?, self.boxed(b, scope)?),
            RawNode::Compare(op, a, b) => Node::Compare(*op, self.boxed(a, scope)?, self.boxed(b, scope)?),
            RawNode::And(a, b) => Node::And(self.boxed(a, scope)?, self.boxed(b, scope)?),
            RawNode::Or(a, b) => Node::Or(self.boxed(a, scope)?, self.boxed(b, scope)?),
            RawNode::If(a, b, c) => {
                Node::If(self.boxed(a, scope)?, self.boxed(b, scope)?, self.boxed(c, scope)?)
            }
            RawNode::Let(binder, a, b) => {
                let a = self.boxed(a, scope)?;
                scope.locals.push(binder.name);
                let b = self.boxed(b, scope)?;
                scope.locals.pop();
                Node::Let(a, b)
            }
            RawNode::Match(list, empty, head, tail, full) => {
                let list = self.boxed(list, scope)?;
                let empty = self.boxed(empty, scope)?;
                if head.name.is_some() && head.name == tail.name {
                    return Err(twice(tail.at));
                }
                scope.locals.push(head.name);
                scope.locals.push(tail.name);
                let full = self.boxed(full, scope)?;
                scope.locals.pop();
                scope.locals.pop();
                Node::Match(list, empty, full)
            }
            RawNode::Nil(ty) => Node::Nil(self.note(ty, &mut Vars::Any(&mut scope.vars))?),
            RawNode::List(items) => Node::List(self.exprs(items, scope)?),
            RawNode::Cons(a, b) => Node::Cons(self.boxed(a, scope)?, self.boxed(b, scope)?),
            RawNode::Rec(parts) => self.record_text(raw.at, parts, scope)?,
            RawNode::Field(at, name, a) => {
                let a = self.boxed(a, scope)?;
                let (record, field) = *self.fields.get(name).ok_or(unknown(*at))?;
                Node::Field(record, field, a)
            }
        };
        Ok(Expr { at: raw.at, node })
    }

    fn name(&self, at: u32, name: &'a str, args: &[RawExpr<'a>], scope: &mut Scope<'a>) -> Resolve<Node> {
        if let Some(k) = scope.locals.iter().rposition(|l| *l == Some(name)) {
            if !args.is_empty() {
                return Err(wrong_count(at));
            }
            return Ok(Node::Local(k as u32));
        }
        let (number, params) = match scope.itself {
            Some((itself, number, params)) if itself == name => (number, params),
            _ => {
                let number = *self.function_numbers.get(name).ok_or(unknown(at))?;
                (number, self.functions[number as usize].params.len())
            }
        };
        if params != args.len() {
            return Err(wrong_count(at));
        }
        Ok(Node::Call(number, self.exprs(args, scope)?))
    }

    fn record_text(
        &self,
        at: u32,
        parts: &[(u32, &'a str, RawExpr<'a>)],
        scope: &mut Scope<'a>,
    ) -> Resolve<Node> {
        for (name_at, name, _) in parts {
            if !self.fields.contains_key(name) {
                return Err(unknown(*name_at));
            }
        }
        let (record, _) = self.fields[parts[0].1];
        let names = &self.records[record as usize].field_names;
        if parts.len() != names.len() || parts.iter().zip(names).any(|(part, name)| part.1 != *name) {
            return Err(wrong_count(at));
        }
        let exprs = parts.iter().map(|(_, _, part)| self.expr(part, scope)).collect::<Resolve<_>>()?;
        Ok(Node::Rec(record, exprs))
    }
}

fn no_repeat(names: &[(u32, &str)]) -> Resolve<()> {
    for (k, (at, name)) in names.iter().enumerate() {
        if names[..k].iter().any(|other| other.1 == *name) {
            return Err(twice(*at));
        }
    }
    Ok(())
}

/// Whether each name is known; a new variable gets its number.
fn known<'a>(types: &Types<'a>, raw: &RawUnit<'a>, vars: &mut Vars<'_, 'a>) -> Resolve<()> {
    match raw {
        RawUnit::One(_) => Ok(()),
        RawUnit::Name(at, name) => match types.get(name) {
            Some(Entry::Measure(_)) => Ok(()),
            _ => Err(unknown(*at)),
        },
        RawUnit::Var(at, name) => match vars {
            Vars::Declared(known) if known.iter().any(|v| v.1 == *name) => Ok(()),
            Vars::Any(known) => {
                if !known.contains(name) {
                    known.push(name);
                }
                Ok(())
            }
            _ => Err(unknown(*at)),
        },
        RawUnit::Power(a, _) | RawUnit::Inverse(_, a) | RawUnit::Bracket(_, a) => known(types, a, vars),
        RawUnit::Side(units) => units.iter().try_for_each(|a| known(types, a, vars)),
        RawUnit::Times(a, b) | RawUnit::Over(a, b) => {
            known(types, a, vars)?;
            known(types, b, vars)
        }
    }
}

fn value<'a>(types: &Types<'a>, raw: &RawUnit<'a>, vars: &Vars<'_, 'a>) -> Result<Unit, OutOfRange> {
    match raw {
        RawUnit::One(_) => Ok(Unit::one()),
        RawUnit::Name(_, name) => match &types[name] {
            Entry::Measure(unit) => Ok(unit.clone()),
            Entry::Record(_) => unreachable!("a known measure"),
        },
        RawUnit::Var(_, name) => {
            let number = match vars {
                Vars::None => None,
                Vars::Declared(known) => known.iter().position(|v| v.1 == *name),
                Vars::Any(known) => known.iter().position(|v| v == name),
            };
            Ok(Unit::atom(Atom::Var(number.expect("a known variable") as u32)))
        }
        RawUnit::Power(a, power) => value(types, a, vars)?.pow(*power),
        RawUnit::Inverse(_, a) => Ok(value(types, a, vars)?.inverse()),
        RawUnit::Bracket(_, a) => value(types, a, vars),
        RawUnit::Side(units) => {
            let mut product = value(types, &units[0], vars)?;
            for unit in &units[1..] {
                product = product.mul(&value(types, unit, vars)?)?;
            }
            Ok(product)
        }
        RawUnit::Times(a, b) => value(types, a, vars)?.mul(&value(types, b, vars)?),
        RawUnit::Over(a, b) => value(types, a, vars)?.div(&value(types, b, vars)?),
    }
}
