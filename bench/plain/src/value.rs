//! Values of a run. Lists and records share their parts.

use crate::frac::Frac;
use std::rc::Rc;

/// A value.
#[derive(Clone)]
pub enum Value {
    Bool(bool),
    Num(Frac),
    List(List),
    Rec(Rc<[Value]>),
}

/// A list, by its first cell.
#[derive(Clone, Default)]
pub struct List(Option<Rc<Cell>>);

/// An item, and the items after it.
pub struct Cell {
    pub head: Value,
    pub tail: List,
}

impl List {
    /// The list without items.
    pub fn empty() -> List {
        List(None)
    }

    /// The list with one more item in front.
    pub fn cons(head: Value, tail: List) -> List {
        List(Some(Rc::new(Cell { head, tail })))
    }

    /// The list of these items.
    pub fn of(items: impl DoubleEndedIterator<Item = Value>) -> List {
        items.rev().fold(List::empty(), |tail, head| List::cons(head, tail))
    }

    /// The first cell, if there is one.
    pub fn first(&self) -> Option<&Cell> {
        self.0.as_deref()
    }
}

impl Drop for Cell {
    /// Takes the tail apart in a loop, since it may be long.
    fn drop(&mut self) {
        let mut next = self.tail.0.take();
        while let Some(cell) = next {
            match Rc::try_unwrap(cell) {
                Ok(mut cell) => next = cell.tail.0.take(),
                Err(_) => break,
            }
        }
    }
}

impl Value {
    /// The number that this is.
    pub fn number(self) -> Frac {
        match self {
            Value::Num(x) => x,
            _ => unreachable!("shapes were looked at"),
        }
    }

    /// The truth value that this is.
    pub fn truth(self) -> bool {
        match self {
            Value::Bool(b) => b,
            _ => unreachable!("shapes were looked at"),
        }
    }

    /// The list that this is.
    pub fn list(self) -> List {
        match self {
            Value::List(list) => list,
            _ => unreachable!("shapes were looked at"),
        }
    }

    /// The fields of the record that this is.
    pub fn parts(self) -> Rc<[Value]> {
        match self {
            Value::Rec(parts) => parts,
            _ => unreachable!("shapes were looked at"),
        }
    }
}
