//! Printed numbers, units, types and schemes.

use crate::frac::Frac;
use crate::rows::put;
use crate::tree::*;
use crate::unit::{Atom, OutOfRange, Unit};
use crate::value::{List, Value};
use std::fmt::Write;

/// A number as it is printed.
pub fn number_text(out: &mut String, value: Frac) {
    let _ = write!(out, "{}", value.num);
    if value.den != 1 {
        let _ = write!(out, "r{}", value.den);
    }
}

/// Prints what names base units, records or fields.
pub struct Show<'p, 'a> {
    program: &'p Program<'a>,
    /// The place of each base unit by the order of names.
    ranks: Vec<u32>,
}

impl<'p, 'a> Show<'p, 'a> {
    /// Base units are printed in the order of their names.
    pub fn new(program: &'p Program<'a>) -> Self {
        let mut order: Vec<usize> = (0..program.bases.len()).collect();
        order.sort_by_key(|&k| program.bases[k]);
        let mut ranks = vec![0; order.len()];
        for (rank, &base) in order.iter().enumerate() {
            ranks[base] = rank as u32;
        }
        Show { program, ranks }
    }

    /// The line of a function.
    pub fn scheme(&self, out: &mut String, name: &str, scheme: &Scheme) {
        out.push_str(name);
        out.push_str(" : ");
        for param in &scheme.params {
            self.ty(out, param);
            out.push_str(" -> ");
        }
        self.ty(out, &scheme.result);
    }

    /// The value at the type, whose shape it has.
    pub fn value(&self, out: &mut String, value: &Value, ty: &Ty) -> Result<(), OutOfRange> {
        match (value, ty) {
            (Value::Bool(b), Ty::Bool) => out.push_str(if *b { "true" } else { "false" }),
            (Value::Num(x), Ty::Num(unit)) => {
                number_text(out, *x);
                self.unit_of_number(out, unit);
            }
            (Value::List(list), Ty::List(item)) => self.list(out, list, item)?,
            (Value::Rec(parts), Ty::Rec(record, units)) => self.record(out, *record, parts, units)?,
            _ => unreachable!("shapes were looked at"),
        }
        Ok(())
    }

    fn unit_of_number(&self, out: &mut String, unit: &Unit) {
        if unit.is_one() {
            return;
        }
        out.push('<');
        if unit.terms().iter().any(|t| matches!(t.0, Atom::Var(_))) {
            out.push('_');
        } else {
            self.unit(out, unit);
        }
        out.push('>');
    }

    fn list(&self, out: &mut String, list: &List, item: &Ty) -> Result<(), OutOfRange> {
        out.push('[');
        let mut rest = list;
        let mut first = true;
        while let Some(cell) = rest.first() {
            if !first {
                out.push_str("; ");
            }
            first = false;
            self.value(out, &cell.head, item)?;
            rest = &cell.tail;
        }
        out.push(']');
        Ok(())
    }

    fn record(&self, out: &mut String, record: u32, parts: &[Value], units: &[Unit]) -> Result<(), OutOfRange> {
        let declared = &self.program.records[record as usize];
        for (k, part) in parts.iter().enumerate() {
            out.push_str(if k == 0 { "{ " } else { "; " });
            out.push_str(declared.field_names[k]);
            out.push_str(" = ");
            self.value(out, part, &put(&declared.fields[k], units)?)?;
        }
        out.push_str(" }");
        Ok(())
    }

    fn ty(&self, out: &mut String, ty: &Ty) {
        match ty {
            Ty::Bool => out.push_str("bool"),
            Ty::Num(unit) => {
                out.push_str("num");
                if !unit.is_one() {
                    out.push('<');
                    self.unit(out, unit);
                    out.push('>');
                }
            }
            Ty::List(item) => {
                self.ty(out, item);
                out.push_str(" list");
            }
            Ty::Rec(record, units) => {
                out.push_str(self.program.records[*record as usize].name);
                for (k, unit) in units.iter().enumerate() {
                    out.push_str(if k == 0 { "<" } else { ", " });
                    self.unit(out, unit);
                }
                if !units.is_empty() {
                    out.push('>');
                }
            }
        }
    }

    fn unit(&self, out: &mut String, unit: &Unit) {
        if unit.is_one() {
            out.push('1');
            return;
        }
        let mut terms = unit.terms().to_vec();
        terms.sort_by_key(|&(atom, _)| match atom {
            Atom::Base(k) => (false, self.ranks[k as usize]),
            Atom::Var(k) => (true, k),
        });
        self.powers(out, terms.iter().copied().filter(|t| t.1 > 0));
        if terms.iter().any(|t| t.1 < 0) {
            out.push('/');
            self.powers(out, terms.iter().filter(|t| t.1 < 0).map(|t| (t.0, -t.1)));
        }
    }

    fn powers(&self, out: &mut String, terms: impl Iterator<Item = (Atom, i32)>) {
        for (k, (atom, power)) in terms.enumerate() {
            if k > 0 {
                out.push(' ');
            }
            match atom {
                Atom::Base(k) => out.push_str(self.program.bases[k as usize]),
                Atom::Var(k) => {
                    out.push('\'');
                    out.push((b'a' + (k % 26) as u8) as char);
                    if k >= 26 {
                        let _ = write!(out, "{}", k / 26);
                    }
                }
            }
            if power != 1 {
                let _ = write!(out, "^{}", power);
            }
        }
    }
}
