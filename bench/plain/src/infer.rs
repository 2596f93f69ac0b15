//! The scheme of each function.

use crate::refusal::Refusal;
use crate::rows::{put, rename, rows, RowStop, Rows};
use crate::solver::{self, Solver};
use crate::tree::*;
use crate::unit::{Atom, Unit};
use std::collections::HashMap;

/// The schemes of all functions, or the refusal of the first that has none.
pub fn infer(program: &Program) -> Result<Vec<Scheme>, Refusal> {
    let mut schemes = Vec::with_capacity(program.functions.len());
    for number in 0..program.functions.len() {
        let scheme = scheme(program, number as u32, &schemes)?;
        schemes.push(scheme);
    }
    Ok(schemes)
}

fn scheme(program: &Program, number: u32, schemes: &[Scheme]) -> Result<Scheme, Refusal> {
    let function = &program.functions[number as usize];
    solve(program, function, number, schemes).map_err(|stop| match stop {
        Stop::Slots => Refusal::Limit("slots", function.at),
        Stop::Range(at) => Refusal::PowerRange(function.name.to_string(), at),
        Stop::NoSolution(rows, k) => unsolved(function, &rows, k),
    })
}

/// The type of a call, seen as the body of one more function.
pub fn type_call(program: &Program, schemes: &[Scheme], f: u32, args: Vec<Expr>) -> Result<Ty, Refusal> {
    let body = Expr { at: 0, node: Node::Call(f, args) };
    let call = Function { name: "", at: 0, units: 0, params: vec![], named: 0, result: None, body };
    match solve(program, &call, program.functions.len() as u32, schemes) {
        Ok(scheme) => Ok(scheme.result),
        Err(Stop::Slots) => Err(Refusal::CallSlots),
        Err(Stop::Range(_)) => Err(Refusal::CallRange),
        Err(Stop::NoSolution(..)) => Err(Refusal::CallUnits),
    }
}

enum Stop {
    Slots,
    Range(u32),
    /// The rows, and the number of the first that has no solution with those before it.
    NoSolution(Rows, usize),
}

fn solve(program: &Program, function: &Function, number: u32, schemes: &[Scheme]) -> Result<Scheme, Stop> {
    let rows = rows(program, function, number, schemes).map_err(|stop| match stop {
        RowStop::Slots => Stop::Slots,
        RowStop::Range(at) => Stop::Range(at),
    })?;
    let bases = program.bases.len() as u32;
    let mut solver = Solver::new(rows.slots, bases, function.units);
    for (k, row) in rows.list.iter().enumerate() {
        match solver.add(&row.unit) {
            Ok(()) => {}
            Err(solver::Stop::Range) => return Err(Stop::Range(row.at)),
            Err(solver::Stop::NoSolution) => return Err(Stop::NoSolution(rows, k)),
        }
    }
    let free = |atom| match atom {
        Atom::Base(k) if k >= bases => Atom::Var(rows.slots + k - bases),
        atom => atom,
    };
    let solved = |ty: &Ty| match put(ty, solver.units()) {
        Ok(ty) if function.units > 0 => Ok(rename(&ty, &free)),
        Ok(ty) => Ok(ty),
        Err(_) => Err(Stop::Range(function.at)),
    };
    let params = rows.params.iter().map(solved).collect::<Result<Vec<_>, _>>()?;
    let result = solved(&rows.result)?;
    Ok(numbered(params, result))
}

/// The row has no solution with the unit parameters fixed; perhaps it has one without.
fn unsolved(function: &Function, rows: &Rows, k: usize) -> Refusal {
    let at = rows.list[k].at;
    let name = function.name.to_string();
    if function.units == 0 {
        return Refusal::Units(name, at);
    }
    let mut solver = Solver::new(rows.slots, 0, 0);
    for row in &rows.list[..=k] {
        match solver.add(&row.unit) {
            Ok(()) => {}
            Err(solver::Stop::Range) => return Refusal::PowerRange(name, row.at),
            Err(solver::Stop::NoSolution) => return Refusal::Units(name, at),
        }
    }
    Refusal::NotGeneral(name, at)
}

/// Variables get their numbers by first occurrence.
fn numbered(params: Vec<Ty>, result: Ty) -> Scheme {
    let mut numbers = HashMap::new();
    for ty in params.iter().chain([&result]) {
        occurrences(ty, &mut numbers);
    }
    let by = |atom| match atom {
        Atom::Var(k) => Atom::Var(numbers[&k]),
        base => base,
    };
    Scheme {
        params: params.iter().map(|ty| rename(ty, &by)).collect(),
        result: rename(&result, &by),
        vars: numbers.len() as u32,
    }
}

fn occurrences(ty: &Ty, numbers: &mut HashMap<u32, u32>) {
    let mut unit = |u: &Unit| {
        for &(atom, _) in u.terms() {
            if let Atom::Var(k) = atom {
                let next = numbers.len() as u32;
                numbers.entry(k).or_insert(next);
            }
        }
    };
    match ty {
        Ty::Bool => {}
        Ty::Num(u) => unit(u),
        Ty::List(item) => occurrences(item, numbers),
        Ty::Rec(_, units) => units.iter().for_each(unit),
    }
}
