//! Arguments, read from their texts by their shapes.

use crate::frac::Frac;
use crate::lexer::{lex, Kind, Sign, Word};
use crate::names::{closed_unit, unknown_measure};
use crate::parser::{Parse, Parser};
use crate::refusal::Refusal;
use crate::shapes::{Shape, Shapes};
use crate::syntax::RawNote;
use crate::tree::*;
use crate::unit::Unit;
use crate::value::{List, Value};

/// An argument.
pub enum Input {
    Bool(bool),
    Num(Frac, UnitNote),
    List(Vec<Input>),
    Rec(u32, Vec<Input>),
}

enum RawInput<'a> {
    Bool(bool),
    Num(u32, Frac, Option<RawNote<'a>>),
    List(Vec<RawInput<'a>>),
    Rec(u32, Vec<RawInput<'a>>),
}

/// What is wrong with a text, and where.
pub type Fault = (&'static str, u32);

/// Reads the text of an argument of this shape.
pub fn read(text: &str, shape: &Shape, program: &Program, shapes: &Shapes) -> Result<Input, Fault> {
    let tokens = lex(text).map_err(|refusal| ("text", place(refusal)))?;
    let mut reader = Reader { parser: Parser::new(&tokens), program, shapes };
    let raw = reader.whole(shape).map_err(|refusal| ("shape", place(refusal)))?;
    names(&program.types, &raw)?;
    measured(&program.types, raw)
}

fn place(refusal: Refusal) -> u32 {
    match refusal {
        Refusal::Lexical(_, at) | Refusal::Syntax(at) | Refusal::Limit(_, at) => at,
        _ => unreachable!("refusals of reading"),
    }
}

struct Reader<'r, 'a, 'p> {
    parser: Parser<'r, 'a>,
    program: &'r Program<'p>,
    shapes: &'r Shapes,
}

impl<'a> Reader<'_, 'a, '_> {
    fn whole(&mut self, shape: &Shape) -> Parse<RawInput<'a>> {
        let input = self.value(shape)?;
        if self.parser.kind() == Kind::End { Ok(input) } else { self.parser.syntax() }
    }

    fn value(&mut self, shape: &Shape) -> Parse<RawInput<'a>> {
        match shape {
            Shape::Bool => self.truth(),
            Shape::Num => self.number(),
            Shape::List(item) => self.list(item),
            Shape::Rec(record) => self.record(*record),
        }
    }

    fn truth(&mut self) -> Parse<RawInput<'a>> {
        let truth = match self.parser.kind() {
            Kind::Word(Word::True) => true,
            Kind::Word(Word::False) => false,
            _ => return self.parser.syntax(),
        };
        self.parser.step();
        Ok(RawInput::Bool(truth))
    }

    fn number(&mut self) -> Parse<RawInput<'a>> {
        let negative = self.parser.take_if(Sign::Minus);
        let value = match self.parser.kind() {
            Kind::Number(value, _) => value,
            _ => return self.parser.syntax(),
        };
        let at = self.parser.at();
        self.parser.step();
        let note = self.parser.glued_note()?;
        Ok(RawInput::Num(at, if negative { value.neg() } else { value }, note))
    }

    fn list(&mut self, item: &Shape) -> Parse<RawInput<'a>> {
        self.parser.expect(Sign::OpenList)?;
        let mut items = Vec::new();
        if self.parser.take_if(Sign::CloseList) {
            return Ok(RawInput::List(items));
        }
        loop {
            items.push(self.value(item)?);
            if !self.parser.take_if(Sign::Semicolon) {
                break;
            }
        }
        self.parser.expect(Sign::CloseList)?;
        Ok(RawInput::List(items))
    }

    fn record(&mut self, record: u32) -> Parse<RawInput<'a>> {
        self.parser.expect(Sign::OpenRecord)?;
        let names = &self.program.records[record as usize].field_names;
        let fields = &self.shapes.fields[record as usize];
        let mut parts = Vec::new();
        for (k, (name, shape)) in names.iter().zip(fields).enumerate() {
            if k > 0 {
                self.parser.expect(Sign::Semicolon)?;
            }
            if self.parser.kind() != Kind::Name(name) {
                return self.parser.syntax();
            }
            self.parser.step();
            self.parser.expect(Sign::Equal)?;
            parts.push(self.value(shape)?);
        }
        self.parser.expect(Sign::CloseRecord)?;
        Ok(RawInput::Rec(record, parts))
    }
}

/// Refuses the first name that is no measure, and a number other than 0 whose unit is open.
fn names(types: &Types, raw: &RawInput) -> Result<(), Fault> {
    let unknown = match raw {
        RawInput::Num(at, value, Some(RawNote::Hole(_))) if !value.is_zero() => Some(*at),
        RawInput::Num(_, _, Some(RawNote::Unit(unit))) => unknown_measure(types, unit),
        RawInput::List(items) | RawInput::Rec(_, items) => {
            return items.iter().try_for_each(|item| names(types, item));
        }
        _ => None,
    };
    match unknown {
        Some(at) => Err(("name", at)),
        None => Ok(()),
    }
}

fn measured(types: &Types, raw: RawInput) -> Result<Input, Fault> {
    Ok(match raw {
        RawInput::Bool(b) => Input::Bool(b),
        RawInput::Num(_, value, None) => Input::Num(value, UnitNote::Written(Unit::one())),
        RawInput::Num(_, value, Some(RawNote::Hole(_))) => Input::Num(value, UnitNote::Hole),
        RawInput::Num(_, value, Some(RawNote::Unit(unit))) => {
            let closed = closed_unit(types, &unit).map_err(|_| ("power range", unit.at()))?;
            Input::Num(value, UnitNote::Written(closed))
        }
        RawInput::List(items) => Input::List(all_measured(types, items)?),
        RawInput::Rec(record, parts) => Input::Rec(record, all_measured(types, parts)?),
    })
}

fn all_measured(types: &Types, raws: Vec<RawInput>) -> Result<Vec<Input>, Fault> {
    raws.into_iter().map(|raw| measured(types, raw)).collect()
}

impl Input {
    /// The input as an expression; an empty list stands as a list whose units are open.
    pub fn expr(&self, shape: &Shape, program: &Program, shapes: &Shapes) -> Expr {
        let node = match (self, shape) {
            (Input::Bool(b), _) => Node::Bool(*b),
            (Input::Num(value, note), _) => Node::Num(*value, note.clone()),
            (Input::List(items), Shape::List(item)) if !items.is_empty() => {
                Node::List(items.iter().map(|input| input.expr(item, program, shapes)).collect())
            }
            (Input::List(_), _) => Node::Nil(open(shape, program)),
            (Input::Rec(record, parts), _) => {
                let fields = &shapes.fields[*record as usize];
                let parts = parts.iter().zip(fields).map(|(input, shape)| input.expr(shape, program, shapes));
                Node::Rec(*record, parts.collect())
            }
        };
        Expr { at: 0, node }
    }

    /// The value that a run begins with.
    pub fn value(self) -> Value {
        match self {
            Input::Bool(b) => Value::Bool(b),
            Input::Num(value, _) => Value::Num(value),
            Input::List(items) => Value::List(List::of(items.into_iter().map(Input::value))),
            Input::Rec(_, parts) => Value::Rec(parts.into_iter().map(Input::value).collect()),
        }
    }
}

fn open(shape: &Shape, program: &Program) -> Note {
    match shape {
        Shape::Bool => Note::Bool,
        Shape::Num => Note::Num(UnitNote::Hole),
        Shape::List(item) => Note::List(Box::new(open(item, program))),
        Shape::Rec(record) => {
            let units = program.records[*record as usize].units;
            Note::Rec(*record, (0..units).map(|_| UnitNote::Hole).collect())
        }
    }
}
