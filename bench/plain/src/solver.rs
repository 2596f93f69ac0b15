//! Elimination: the most general units that make the rows 1.

use crate::unit::{Atom, OutOfRange, Unit};

/// Why a row can't be solved with those before it.
pub enum Stop {
    NoSolution,
    Range,
}

impl From<OutOfRange> for Stop {
    fn from(_: OutOfRange) -> Stop {
        Stop::Range
    }
}

/// The units of the slots that solve the rows so far, and are most general.
pub struct Solver {
    units: Vec<Unit>,
    /// For each variable the slots whose units hold it, in order.
    holders: Vec<Vec<u32>>,
}

impl Solver {
    /// The first slots stand for base units from `bases` on, each other for itself.
    pub fn new(slots: u32, bases: u32, parameters: u32) -> Solver {
        let atom = |k| if k < parameters { Atom::Base(bases + k) } else { Atom::Var(k) };
        let units = (0..slots).map(|k| Unit::atom(atom(k))).collect();
        let holders = (0..slots).map(|k| if k < parameters { vec![] } else { vec![k] }).collect();
        Solver { units, holders }
    }

    /// The unit of each slot.
    pub fn units(&self) -> &[Unit] {
        &self.units
    }

    /// Solves one more row.
    pub fn add(&mut self, row: &Unit) -> Result<(), Stop> {
        let mut row = row.replace(|k| &self.units[k as usize])?;
        loop {
            let (x, power) = match least_variable(&row) {
                Some(least) => least,
                None if row.is_one() => return Ok(()),
                None => return Err(Stop::NoSolution),
            };
            if power < 0 {
                row = row.inverse();
            }
            let power = power.abs();
            let change = self.change(&row, x, power);
            self.replace(x, &change)?;
            row = row.mul_pow(&change, power as i64)?;
            if variables(&row).any(|(y, _)| y != x) {
                continue;
            }
            if row.terms().len() > 1 {
                return Err(Stop::NoSolution);
            }
            return Ok(self.remove(x));
        }
    }

    /// What `x` is multiplied with, so that every other power of the row falls below the power of `x`.
    fn change(&self, row: &Unit, x: u32, power: i32) -> Unit {
        let terms = row.terms().iter().filter(|t| t.0 != Atom::Var(x));
        Unit::from_sorted(terms.map(|&(y, a)| (y, -a.div_euclid(power))).filter(|t| t.1 != 0).collect())
    }

    fn replace(&mut self, x: u32, change: &Unit) -> Result<(), Stop> {
        if change.is_one() {
            return Ok(());
        }
        let slots = self.holders[x as usize].clone();
        for &slot in &slots {
            let old = &self.units[slot as usize];
            let new = old.mul_pow(change, old.power_of(Atom::Var(x)) as i64)?;
            for (y, _) in variables(change) {
                let atom = Atom::Var(y);
                match (old.power_of(atom) != 0, new.power_of(atom) != 0) {
                    (false, true) => insert(&mut self.holders[y as usize], slot),
                    (true, false) => delete(&mut self.holders[y as usize], slot),
                    _ => {}
                }
            }
            self.units[slot as usize] = new;
        }
        Ok(())
    }

    /// Puts 1 for `x`.
    fn remove(&mut self, x: u32) {
        for slot in std::mem::take(&mut self.holders[x as usize]) {
            self.units[slot as usize].drop_atom(Atom::Var(x));
        }
    }
}

fn variables(unit: &Unit) -> impl Iterator<Item = (u32, i32)> + '_ {
    unit.terms().iter().filter_map(|&(atom, power)| match atom {
        Atom::Var(k) => Some((k, power)),
        Atom::Base(_) => None,
    })
}

/// The variable of the least power, and of equals the last.
fn least_variable(unit: &Unit) -> Option<(u32, i32)> {
    variables(unit).min_by_key(|&(k, power)| (power.abs(), std::cmp::Reverse(k)))
}

fn insert(slots: &mut Vec<u32>, slot: u32) {
    if let Err(k) = slots.binary_search(&slot) {
        slots.insert(k, slot);
    }
}

fn delete(slots: &mut Vec<u32>, slot: u32) {
    if let Ok(k) = slots.binary_search(&slot) {
        slots.remove(k);
    }
}
