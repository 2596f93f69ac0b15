//! The grammar, by recursive descent.
//!
//! `room` is how high the tree that is being read may be; a token that makes it higher is refused at once.

use crate::lexer::{Kind, Sign, Token, Word};
use crate::refusal::Refusal;
use crate::syntax::{Binder, RawDecl, RawFunction, RawNote, RawRecord, RawType, RawUnit};

mod expressions;

const MAX_HEIGHT: u32 = 400;
const MAX_FUNCTIONS: usize = 2000;
const MAX_PARAMETERS: usize = 16;
const MAX_FIELDS: usize = 32;
const MAX_UNIT_PARAMETERS: usize = 4;
const MAX_NODES: u32 = 20000;

/// What was read, or why nothing could be.
pub type Parse<T> = Result<T, Refusal>;

/// A tree and its height.
type High<T> = Result<(T, u32), Refusal>;

/// The declarations of a program.
pub fn parse<'a>(tokens: &[Token<'a>]) -> Parse<Vec<RawDecl<'a>>> {
    let mut parser = Parser::new(tokens);
    let mut decls = Vec::new();
    while parser.kind() != Kind::End {
        decls.push(parser.decl()?);
    }
    match parser.limit {
        Some(refusal) => Err(refusal),
        None => Ok(decls),
    }
}

/// A place in the tokens, and what is counted on the way.
pub struct Parser<'t, 'a> {
    tokens: &'t [Token<'a>],
    next: usize,
    nodes: u32,
    functions: usize,
    limit: Option<Refusal>,
}

impl<'t, 'a> Parser<'t, 'a> {
    /// At the first token.
    pub fn new(tokens: &'t [Token<'a>]) -> Self {
        Parser { tokens, next: 0, nodes: 0, functions: 0, limit: None }
    }

    /// What the token here is.
    pub fn kind(&self) -> Kind<'a> {
        self.tokens[self.next].kind
    }

    /// The place of the token here.
    pub fn at(&self) -> u32 {
        self.tokens[self.next].at
    }

    /// Goes to the next token.
    pub fn step(&mut self) {
        self.next += 1;
    }

    /// The token after this one is the sign.
    fn next_is(&self, sign: Sign) -> bool {
        self.tokens.get(self.next + 1).map(|t| t.kind) == Some(Kind::Sign(sign))
    }

    fn is(&self, sign: Sign) -> bool {
        self.kind() == Kind::Sign(sign)
    }

    /// Refuses the token here.
    pub fn syntax<T>(&self) -> Parse<T> {
        Err(Refusal::Syntax(self.at()))
    }

    /// Goes past this sign, if it stands here.
    pub fn take_if(&mut self, sign: Sign) -> bool {
        let found = self.is(sign);
        if found {
            self.next += 1;
        }
        found
    }

    /// Goes past this sign, which must stand here.
    pub fn expect(&mut self, sign: Sign) -> Parse<u32> {
        let at = self.at();
        if self.take_if(sign) { Ok(at) } else { self.syntax() }
    }

    fn expect_word(&mut self, word: Word) -> Parse<()> {
        if self.kind() != Kind::Word(word) {
            return self.syntax();
        }
        self.next += 1;
        Ok(())
    }

    /// A name and its place.
    pub fn name(&mut self) -> Parse<(u32, &'a str)> {
        let name = match self.kind() {
            Kind::Name(name) => name,
            _ => return self.syntax(),
        };
        let at = self.at();
        self.next += 1;
        Ok((at, name))
    }

    /// Refuses the token at which a tree of this height is sure to come.
    fn fits(&self, height: u32, room: u32) -> Parse<()> {
        if height > room { Err(Refusal::Limit("height", self.at())) } else { Ok(()) }
    }

    fn limit(&mut self, found: usize, most: usize, kind: &'static str, at: u32) {
        if found > most && self.limit.is_none() {
            self.limit = Some(Refusal::Limit(kind, at));
        }
    }

    // Declarations

    fn decl(&mut self) -> Parse<RawDecl<'a>> {
        match self.kind() {
            Kind::Sign(Sign::OpenAttribute) => self.measure(),
            Kind::Word(Word::Type) => self.record(),
            Kind::Word(Word::Let) => self.function(),
            _ => self.syntax(),
        }
    }

    fn attribute(&mut self) -> Parse<()> {
        self.expect(Sign::OpenAttribute)?;
        self.expect_word(Word::Measure)?;
        self.expect(Sign::Greater)?;
        self.expect(Sign::CloseList)?;
        Ok(())
    }

    fn measure(&mut self) -> Parse<RawDecl<'a>> {
        self.attribute()?;
        self.expect_word(Word::Type)?;
        let (at, name) = self.name()?;
        if !self.take_if(Sign::Equal) {
            return Ok(RawDecl::Base(at, name));
        }
        let (unit, _) = self.unit(MAX_HEIGHT)?;
        Ok(RawDecl::Short(at, name, unit))
    }

    fn unit_parameters(&mut self) -> Parse<Vec<(u32, &'a str)>> {
        let mut units = Vec::new();
        if self.take_if(Sign::Less) {
            loop {
                self.attribute()?;
                let name = match self.kind() {
                    Kind::Var(name) => name,
                    _ => return self.syntax(),
                };
                units.push((self.at(), name));
                self.next += 1;
                if !self.take_if(Sign::Comma) {
                    break;
                }
            }
            self.expect(Sign::Greater)?;
        }
        Ok(units)
    }

    fn record(&mut self) -> Parse<RawDecl<'a>> {
        self.expect_word(Word::Type)?;
        let (at, name) = self.name()?;
        let units = self.unit_parameters()?;
        self.expect(Sign::Equal)?;
        self.expect(Sign::OpenRecord)?;
        let mut fields = Vec::new();
        loop {
            let (at, name) = self.name()?;
            self.expect(Sign::Colon)?;
            let (ty, _) = self.ty(MAX_HEIGHT)?;
            fields.push((at, name, ty));
            if !self.take_if(Sign::Semicolon) {
                break;
            }
        }
        self.expect(Sign::CloseRecord)?;
        self.limit(fields.len(), MAX_FIELDS, "fields", at);
        self.limit(units.len(), MAX_UNIT_PARAMETERS, "unit parameters", at);
        Ok(RawDecl::Record(RawRecord { at, name, units, fields }))
    }

    fn function(&mut self) -> Parse<RawDecl<'a>> {
        self.expect_word(Word::Let)?;
        let recursive = self.kind() == Kind::Word(Word::Rec);
        if recursive {
            self.next += 1;
        }
        let (at, name) = self.name()?;
        let units = self.unit_parameters()?;
        let mut params = Vec::new();
        while self.take_if(Sign::Open) {
            let binder = self.binder()?;
            self.expect(Sign::Colon)?;
            let (ty, _) = self.ty(MAX_HEIGHT)?;
            self.expect(Sign::Close)?;
            params.push((binder, ty));
        }
        let result = if self.take_if(Sign::Colon) {
            Some(self.ty(MAX_HEIGHT)?.0)
        } else if recursive {
            return self.syntax();
        } else {
            None
        };
        self.expect(Sign::Equal)?;
        self.nodes = 0;
        let (body, _) = self.expr(MAX_HEIGHT)?;
        self.functions += 1;
        self.limit(self.functions, MAX_FUNCTIONS, "functions", at);
        self.limit(params.len(), MAX_PARAMETERS, "parameters", at);
        self.limit(units.len(), MAX_UNIT_PARAMETERS, "unit parameters", at);
        self.limit(self.nodes as usize, MAX_NODES as usize, "nodes", at);
        Ok(RawDecl::Function(RawFunction { at, name, recursive, units, params, result, body }))
    }

    fn binder(&mut self) -> Parse<Binder<'a>> {
        let at = self.at();
        let name = match self.kind() {
            Kind::Name(name) => Some(name),
            Kind::Hole => None,
            _ => return self.syntax(),
        };
        self.next += 1;
        Ok(Binder { at, name })
    }

    // Types

    fn ty(&mut self, room: u32) -> High<RawType<'a>> {
        let (mut ty, mut height) = self.type_atom(room)?;
        while self.kind() == Kind::Word(Word::List) {
            height += 1;
            self.fits(height, room)?;
            self.next += 1;
            ty = RawType::List(Box::new(ty));
        }
        Ok((ty, height))
    }

    fn type_atom(&mut self, room: u32) -> High<RawType<'a>> {
        let at = self.at();
        match self.kind() {
            Kind::Word(Word::Bool) => {
                self.fits(1, room)?;
                self.next += 1;
                Ok((RawType::Bool, 1))
            }
            Kind::Word(Word::Num) => {
                self.fits(1, room)?;
                self.next += 1;
                let mut note = None;
                if self.take_if(Sign::Less) {
                    note = Some(self.note()?);
                    self.expect(Sign::Greater)?;
                }
                Ok((RawType::Num(note), 1))
            }
            Kind::Name(name) => {
                self.fits(1, room)?;
                self.next += 1;
                let mut notes = Vec::new();
                if self.take_if(Sign::Less) {
                    notes.push(self.note()?);
                    while self.take_if(Sign::Comma) {
                        notes.push(self.note()?);
                    }
                    self.expect(Sign::Greater)?;
                }
                Ok((RawType::Name(at, name, notes), 1))
            }
            Kind::Sign(Sign::Open) => {
                self.fits(2, room)?;
                self.next += 1;
                let (ty, height) = self.ty(room - 1)?;
                self.expect(Sign::Close)?;
                Ok((RawType::Bracket(Box::new(ty)), height + 1))
            }
            _ => self.syntax(),
        }
    }

    // Units

    /// A unit, or `_`.
    pub fn note(&mut self) -> Parse<RawNote<'a>> {
        if self.kind() == Kind::Hole {
            let at = self.at();
            self.next += 1;
            return Ok(RawNote::Hole(at));
        }
        let (unit, _) = self.unit(MAX_HEIGHT)?;
        Ok(RawNote::Unit(unit))
    }

    fn unit(&mut self, room: u32) -> High<RawUnit<'a>> {
        let (mut unit, mut height) = if self.is(Sign::Slash) {
            let at = self.at();
            self.fits(2, room)?;
            self.next += 1;
            let (unit, height) = self.unit_sequence(room - 1)?;
            (RawUnit::Inverse(at, Box::new(unit)), height + 1)
        } else {
            self.unit_sequence(room)?
        };
        loop {
            let node = match self.kind() {
                Kind::Sign(Sign::Star) => RawUnit::Times,
                Kind::Sign(Sign::Slash) => RawUnit::Over,
                _ => return Ok((unit, height)),
            };
            self.fits(height + 1, room)?;
            self.next += 1;
            let (right, right_height) = self.unit_sequence(room - 1)?;
            unit = node(Box::new(unit), Box::new(right));
            height = 1 + height.max(right_height);
        }
    }

    fn begins_unit(&self) -> bool {
        matches!(self.kind(), Kind::Name(_) | Kind::Var(_) | Kind::Number(_, "1") | Kind::Sign(Sign::Open))
    }

    fn unit_sequence(&mut self, room: u32) -> High<RawUnit<'a>> {
        let (first, mut height) = self.unit_power(room)?;
        if !self.begins_unit() {
            return Ok((first, height));
        }
        self.fits(height + 1, room)?;
        let mut units = vec![first];
        while self.begins_unit() {
            let (unit, unit_height) = self.unit_power(room - 1)?;
            height = height.max(unit_height);
            units.push(unit);
        }
        Ok((RawUnit::Side(units), height + 1))
    }

    fn unit_power(&mut self, room: u32) -> High<RawUnit<'a>> {
        let (unit, height) = self.unit_atom(room)?;
        if !self.is(Sign::Caret) {
            return Ok((unit, height));
        }
        self.fits(height + 1, room)?;
        self.next += 1;
        let negative = self.take_if(Sign::Minus);
        let value = match self.kind() {
            Kind::Number(value, _) => value,
            _ => return self.syntax(),
        };
        self.next += 1;
        let power = if negative { -value.num } else { value.num } as i32;
        Ok((RawUnit::Power(Box::new(unit), power), height + 1))
    }

    fn unit_atom(&mut self, room: u32) -> High<RawUnit<'a>> {
        let at = self.at();
        let unit = match self.kind() {
            Kind::Name(name) => RawUnit::Name(at, name),
            Kind::Var(name) => RawUnit::Var(at, name),
            Kind::Number(_, "1") => RawUnit::One(at),
            Kind::Sign(Sign::Open) => {
                self.fits(2, room)?;
                self.next += 1;
                let (unit, height) = self.unit(room - 1)?;
                self.expect(Sign::Close)?;
                return Ok((RawUnit::Bracket(at, Box::new(unit)), height + 1));
            }
            _ => return self.syntax(),
        };
        self.fits(1, room)?;
        self.next += 1;
        Ok((unit, 1))
    }
}
