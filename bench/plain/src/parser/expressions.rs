//! Expressions.

use super::{High, Parse, Parser, MAX_HEIGHT};
use crate::frac::Frac;
use crate::lexer::{Kind, Sign, Word, MAX_POWER};
use crate::syntax::{Arith, Comparison, RawExpr, RawNode, RawNote};

impl<'t, 'a> Parser<'t, 'a> {
    fn node(&mut self, at: u32, node: RawNode<'a>) -> RawExpr<'a> {
        self.nodes = self.nodes.saturating_add(1);
        RawExpr { at, node }
    }

    /// An expression.
    pub(super) fn expr(&mut self, room: u32) -> High<RawExpr<'a>> {
        match self.kind() {
            Kind::Word(Word::Let) => self.local_let(room),
            Kind::Word(Word::If) => self.conditional(room),
            Kind::Word(Word::Match) => self.match_list(room),
            _ => self.binary(1, room),
        }
    }

    fn local_let(&mut self, room: u32) -> High<RawExpr<'a>> {
        let at = self.at();
        self.fits(2, room)?;
        self.next += 1;
        let binder = self.binder()?;
        self.expect(Sign::Equal)?;
        let (value, a) = self.expr(room - 1)?;
        self.expect_word(Word::In)?;
        let (body, b) = self.expr(room - 1)?;
        let node = RawNode::Let(binder, Box::new(value), Box::new(body));
        Ok((self.node(at, node), 1 + a.max(b)))
    }

    fn conditional(&mut self, room: u32) -> High<RawExpr<'a>> {
        let at = self.at();
        self.fits(2, room)?;
        self.next += 1;
        let (condition, a) = self.expr(room - 1)?;
        self.expect_word(Word::Then)?;
        let (yes, b) = self.expr(room - 1)?;
        self.expect_word(Word::Else)?;
        let (no, c) = self.expr(room - 1)?;
        let node = RawNode::If(Box::new(condition), Box::new(yes), Box::new(no));
        Ok((self.node(at, node), 1 + a.max(b).max(c)))
    }

    fn match_list(&mut self, room: u32) -> High<RawExpr<'a>> {
        let at = self.at();
        self.fits(2, room)?;
        self.next += 1;
        let (list, a) = self.expr(room - 1)?;
        self.expect_word(Word::With)?;
        self.take_if(Sign::Bar);
        self.expect(Sign::OpenList)?;
        self.expect(Sign::CloseList)?;
        self.expect(Sign::Arrow)?;
        let (empty, b) = self.expr(room - 1)?;
        self.expect(Sign::Bar)?;
        let head = self.binder()?;
        self.expect(Sign::Cons)?;
        let tail = self.binder()?;
        self.expect(Sign::Arrow)?;
        let (full, c) = self.expr(room - 1)?;
        let node = RawNode::Match(Box::new(list), Box::new(empty), head, tail, Box::new(full));
        Ok((self.node(at, node), 1 + a.max(b).max(c)))
    }

    /// Binary signs by how tightly they bind, from `least` on.
    fn binary(&mut self, least: u8, room: u32) -> High<RawExpr<'a>> {
        let (mut left, mut height) = self.unary(room)?;
        let mut most = u8::MAX;
        while let Some((sign, level)) = self.binary_sign() {
            if level < least || level > most {
                break;
            }
            let at = self.at();
            self.fits(height + 1, room)?;
            self.next += 1;
            let or_equal = sign == Sign::Greater && self.is(Sign::Equal) && self.tokens[self.next].glued;
            if or_equal {
                self.next += 1;
            }
            let (right, right_height) = self.binary(if level == 4 { 4 } else { level + 1 }, room - 1)?;
            height = 1 + height.max(right_height);
            left = self.node(at, joined(sign, or_equal, Box::new(left), Box::new(right)));
            // comparisons aren't chained
            most = if level == 3 { 2 } else { level };
        }
        Ok((left, height))
    }

    /// The sign between two operands that stands here, and how tightly it binds.
    fn binary_sign(&self) -> Option<(Sign, u8)> {
        let sign = match self.kind() {
            Kind::Sign(sign) => sign,
            _ => return None,
        };
        let level = match sign {
            Sign::Or => 1,
            Sign::And => 2,
            Sign::Less | Sign::LessEqual | Sign::Equal | Sign::NotEqual | Sign::Greater => 3,
            Sign::Cons => 4,
            Sign::Plus | Sign::Minus => 5,
            Sign::Star | Sign::Slash => 6,
            _ => return None,
        };
        Some((sign, level))
    }

    fn unary(&mut self, room: u32) -> High<RawExpr<'a>> {
        let at = self.at();
        match self.kind() {
            Kind::Sign(Sign::Minus) => {
                self.fits(2, room)?;
                self.next += 1;
                let (part, height) = self.unary(room - 1)?;
                Ok((self.node(at, RawNode::Neg(Box::new(part))), height + 1))
            }
            Kind::Word(Word::Not) => {
                self.fits(2, room)?;
                self.next += 1;
                let (part, height) = self.atom(room - 1)?;
                Ok((self.node(at, RawNode::Not(Box::new(part))), height + 1))
            }
            Kind::Word(Word::Pown) => {
                self.fits(2, room)?;
                self.next += 1;
                let (part, height) = self.atom(room - 1)?;
                let power = self.whole_power()?;
                Ok((self.node(at, RawNode::Pow(Box::new(part), power)), height + 1))
            }
            Kind::Name(name) if !self.next_is(Sign::Dot) => self.name_or_call(name, room),
            _ => self.atom(room),
        }
    }

    fn whole_power(&mut self) -> Parse<i32> {
        if self.take_if(Sign::Open) {
            self.expect(Sign::Minus)?;
            let power = self.whole_number()?;
            self.expect(Sign::Close)?;
            return Ok(-power);
        }
        let power = self.whole_number()?;
        if self.is(Sign::Less) && self.tokens[self.next].glued {
            return self.syntax();
        }
        Ok(power)
    }

    fn whole_number(&mut self) -> Parse<i32> {
        match self.kind() {
            Kind::Number(Frac { num, .. }, text) if num as u128 <= MAX_POWER && is_digits(text) => {
                self.next += 1;
                Ok(num as i32)
            }
            _ => self.syntax(),
        }
    }

    fn begins_atom(&self) -> bool {
        matches!(
            self.kind(),
            Kind::Number(..)
                | Kind::Name(_)
                | Kind::Word(Word::True | Word::False)
                | Kind::Sign(Sign::Open | Sign::OpenList | Sign::OpenRecord)
        )
    }

    fn name_or_call(&mut self, name: &'a str, room: u32) -> High<RawExpr<'a>> {
        let at = self.at();
        self.fits(1, room)?;
        self.next += 1;
        if !self.begins_atom() {
            return Ok((self.node(at, RawNode::Name(name)), 1));
        }
        self.fits(2, room)?;
        let mut args = Vec::new();
        let mut height = 0;
        while self.begins_atom() {
            let (arg, arg_height) = self.atom(room - 1)?;
            height = height.max(arg_height);
            args.push(arg);
        }
        Ok((self.node(at, RawNode::Call(name, args)), height + 1))
    }

    fn atom(&mut self, room: u32) -> High<RawExpr<'a>> {
        let (mut expr, mut height) = self.primary(room)?;
        while self.is(Sign::Dot) {
            height += 1;
            self.fits(height, room)?;
            let at = self.at();
            self.next += 1;
            let (name_at, name) = self.name()?;
            expr = self.node(at, RawNode::Field(name_at, name, Box::new(expr)));
        }
        Ok((expr, height))
    }

    fn primary(&mut self, room: u32) -> High<RawExpr<'a>> {
        let at = self.at();
        let node = match self.kind() {
            Kind::Number(value, _) => {
                self.fits(1, room)?;
                return self.number(at, value);
            }
            Kind::Word(Word::True) => RawNode::Bool(true),
            Kind::Word(Word::False) => RawNode::Bool(false),
            Kind::Name(name) => RawNode::Name(name),
            Kind::Sign(Sign::Open) => return self.bracket(at, room),
            Kind::Sign(Sign::OpenList) => return self.list(at, room),
            Kind::Sign(Sign::OpenRecord) => return self.record_text(at, room),
            _ => return self.syntax(),
        };
        self.fits(1, room)?;
        self.next += 1;
        Ok((self.node(at, node), 1))
    }

    fn number(&mut self, at: u32, value: Frac) -> High<RawExpr<'a>> {
        self.next += 1;
        let note = self.glued_note()?;
        Ok((self.node(at, RawNode::Num(value, note)), 1))
    }

    /// The unit directly after a number, if there is one.
    pub fn glued_note(&mut self) -> Parse<Option<RawNote<'a>>> {
        if !self.is(Sign::Less) || !self.tokens[self.next].glued {
            return Ok(None);
        }
        self.next += 1;
        let note = self.note()?;
        self.expect(Sign::Greater)?;
        Ok(Some(note))
    }

    fn bracket(&mut self, at: u32, room: u32) -> High<RawExpr<'a>> {
        self.fits(2, room)?;
        self.next += 1;
        let is_nil = self.is(Sign::OpenList) && self.next_is(Sign::CloseList);
        if is_nil {
            self.fits(3, room)?;
            self.next += 2;
            self.expect(Sign::Colon)?;
            let (ty, _) = self.ty(MAX_HEIGHT)?;
            self.expect(Sign::Close)?;
            return Ok((self.node(at, RawNode::Nil(ty)), 3));
        }
        let (inner, height) = self.expr(room - 1)?;
        self.expect(Sign::Close)?;
        Ok((self.node(at, RawNode::Bracket(Box::new(inner))), height + 1))
    }

    fn list(&mut self, at: u32, room: u32) -> High<RawExpr<'a>> {
        self.fits(2, room)?;
        self.next += 1;
        let mut items = Vec::new();
        let mut height = 0;
        loop {
            let (item, item_height) = self.expr(room - 1)?;
            height = height.max(item_height);
            items.push(item);
            if !self.take_if(Sign::Semicolon) {
                break;
            }
        }
        self.expect(Sign::CloseList)?;
        Ok((self.node(at, RawNode::List(items)), height + 1))
    }

    fn record_text(&mut self, at: u32, room: u32) -> High<RawExpr<'a>> {
        self.fits(2, room)?;
        self.next += 1;
        let mut parts = Vec::new();
        let mut height = 0;
        loop {
            let (name_at, name) = self.name()?;
            self.expect(Sign::Equal)?;
            let (part, part_height) = self.expr(room - 1)?;
            height = height.max(part_height);
            parts.push((name_at, name, part));
            if !self.take_if(Sign::Semicolon) {
                break;
            }
        }
        self.expect(Sign::CloseRecord)?;
        Ok((self.node(at, RawNode::Rec(parts)), height + 1))
    }
}

/// The node of a sign between two operands. `>=` is the sign `>` and another.
fn joined<'a>(sign: Sign, or_equal: bool, a: Box<RawExpr<'a>>, b: Box<RawExpr<'a>>) -> RawNode<'a> {
    match sign {
        Sign::Or => RawNode::Or(a, b),
        Sign::And => RawNode::And(a, b),
        Sign::Cons => RawNode::Cons(a, b),
        Sign::Plus => RawNode::Arith(Arith::Add, a, b),
        Sign::Minus => RawNode::Arith(Arith::Sub, a, b),
        Sign::Star => RawNode::Arith(Arith::Mul, a, b),
        Sign::Slash => RawNode::Arith(Arith::Div, a, b),
        Sign::Less => RawNode::Compare(Comparison::Lt, a, b),
        Sign::LessEqual => RawNode::Compare(Comparison::Le, a, b),
        Sign::Equal => RawNode::Compare(Comparison::Eq, a, b),
        Sign::NotEqual => RawNode::Compare(Comparison::Ne, a, b),
        _ if or_equal => RawNode::Compare(Comparison::Ge, a, b),
        _ => RawNode::Compare(Comparison::Gt, a, b),
    }
}

fn is_digits(text: &str) -> bool {
    text.bytes().all(|b| b.is_ascii_digit())
}
