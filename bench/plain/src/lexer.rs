//! Tokens.

use crate::frac::Frac;
use crate::refusal::Refusal;
use crate::xid::{may_continue, may_start};

/// A reserved word.
#[derive(Clone, Copy, PartialEq, Debug)]
pub enum Word {
    Let, Rec, In, If, Then, Else, Match, With, Type, True, False, Not, Num, Bool, List, Measure, Pown,
}

/// A sign.
#[derive(Clone, Copy, PartialEq, Debug)]
pub enum Sign {
    Open, Close, OpenList, CloseList, OpenRecord, CloseRecord, OpenAttribute,
    Less, Greater, Equal, LessEqual, NotEqual,
    Plus, Minus, Star, Slash, Caret, Semicolon, Colon, Cons, Comma, Dot, Bar, Or, And, Arrow,
}

/// What a token is, with the spelling of a name, a variable or a number.
#[derive(Clone, Copy, PartialEq, Debug)]
pub enum Kind<'a> {
    Name(&'a str),
    Var(&'a str),
    Number(Frac, &'a str),
    Word(Word),
    Hole,
    Sign(Sign),
    End,
}

/// A token, its first byte, and whether it follows the one before it directly.
#[derive(Clone, Copy, Debug)]
pub struct Token<'a> {
    pub kind: Kind<'a>,
    pub at: u32,
    pub glued: bool,
}

/// The greatest power.
pub const MAX_POWER: u128 = 2147483647;

/// The tokens of the text, with `End` as the last.
pub fn lex(text: &str) -> Result<Vec<Token<'_>>, Refusal> {
    let mut tokens: Vec<Token> = Vec::new();
    let mut at = if text.starts_with('\u{feff}') { 3 } else { 0 };
    let mut end = None;
    loop {
        at = skip(text, at);
        if at == text.len() {
            tokens.push(Token { kind: Kind::End, at: at as u32, glued: false });
            return Ok(tokens);
        }
        let (kind, next) = token(text, at, &tokens)?;
        tokens.push(Token { kind, at: at as u32, glued: end == Some(at) });
        end = Some(next);
        at = next;
    }
}

fn skip(text: &str, mut at: usize) -> usize {
    let bytes = text.as_bytes();
    while at < bytes.len() {
        match bytes[at] {
            b' ' | b'\t' | b'\r' | b'\n' => at += 1,
            b'/' if bytes.get(at + 1) == Some(&b'/') => {
                at = text[at..].find('\n').map_or(text.len(), |k| at + k);
            }
            _ => break,
        }
    }
    at
}

fn token<'a>(text: &'a str, at: usize, before: &[Token]) -> Result<(Kind<'a>, usize), Refusal> {
    let bytes = text.as_bytes();
    let refused = Refusal::Lexical("character", at as u32);
    match bytes[at] {
        b'0'..=b'9' => number(text, at, before),
        b'\'' => {
            let end = identifier_end(text, at + 1);
            let name = longest_name(&text[at + 1..end]);
            if name.is_empty() {
                return Err(refused);
            }
            Ok((Kind::Var(name), at + 1 + name.len()))
        }
        _ => {
            let end = identifier_end(text, at);
            if end > at {
                return Ok((word_or_name(&text[at..end]), end));
            }
            let (sign, length) = sign(&bytes[at..]).ok_or(refused)?;
            Ok((Kind::Sign(sign), at + length))
        }
    }
}

fn identifier_end(text: &str, at: usize) -> usize {
    let mut chars = text[at..].chars();
    match chars.next() {
        Some(c) if c == '_' || may_start(c) => {}
        _ => return at,
    }
    let rest = chars.as_str();
    let length = rest.find(|c| !may_continue(c)).unwrap_or(rest.len());
    text.len() - rest.len() + length
}

/// The longest start of an identifier that is a name, or nothing.
fn longest_name(text: &str) -> &str {
    let mut name = text;
    while name == "_" || word(name).is_some() {
        name = &name[..name.len() - 1];
    }
    name
}

fn word_or_name(text: &str) -> Kind<'_> {
    if text == "_" {
        return Kind::Hole;
    }
    match word(text) {
        Some(w) => Kind::Word(w),
        None => Kind::Name(text),
    }
}

fn word(text: &str) -> Option<Word> {
    Some(match text {
        "let" => Word::Let,
        "rec" => Word::Rec,
        "in" => Word::In,
        "if" => Word::If,
        "then" => Word::Then,
        "else" => Word::Else,
        "match" => Word::Match,
        "with" => Word::With,
        "type" => Word::Type,
        "true" => Word::True,
        "false" => Word::False,
        "not" => Word::Not,
        "num" => Word::Num,
        "bool" => Word::Bool,
        "list" => Word::List,
        "Measure" => Word::Measure,
        "pown" => Word::Pown,
        _ => return None,
    })
}

fn sign(bytes: &[u8]) -> Option<(Sign, usize)> {
    let second = bytes.get(1).copied().unwrap_or(0);
    Some(match (bytes[0], second) {
        (b'[', b'<') => (Sign::OpenAttribute, 2),
        (b'<', b'=') => (Sign::LessEqual, 2),
        (b'<', b'>') => (Sign::NotEqual, 2),
        (b':', b':') => (Sign::Cons, 2),
        (b'|', b'|') => (Sign::Or, 2),
        (b'&', b'&') => (Sign::And, 2),
        (b'-', b'>') => (Sign::Arrow, 2),
        (b'(', _) => (Sign::Open, 1),
        (b')', _) => (Sign::Close, 1),
        (b'[', _) => (Sign::OpenList, 1),
        (b']', _) => (Sign::CloseList, 1),
        (b'{', _) => (Sign::OpenRecord, 1),
        (b'}', _) => (Sign::CloseRecord, 1),
        (b'<', _) => (Sign::Less, 1),
        (b'>', _) => (Sign::Greater, 1),
        (b'=', _) => (Sign::Equal, 1),
        (b'+', _) => (Sign::Plus, 1),
        (b'-', _) => (Sign::Minus, 1),
        (b'*', _) => (Sign::Star, 1),
        (b'/', _) => (Sign::Slash, 1),
        (b'^', _) => (Sign::Caret, 1),
        (b';', _) => (Sign::Semicolon, 1),
        (b':', _) => (Sign::Colon, 1),
        (b',', _) => (Sign::Comma, 1),
        (b'.', _) => (Sign::Dot, 1),
        (b'|', _) => (Sign::Bar, 1),
        _ => return None,
    })
}

fn digits_end(bytes: &[u8], mut at: usize) -> usize {
    while at < bytes.len() && bytes[at].is_ascii_digit() {
        at += 1;
    }
    at
}

fn number<'a>(text: &'a str, at: usize, before: &[Token]) -> Result<(Kind<'a>, usize), Refusal> {
    let bytes = text.as_bytes();
    let middle = digits_end(bytes, at);
    let mut end = middle;
    if let Some(b'.' | b'r') = bytes.get(middle) {
        let last = digits_end(bytes, middle + 1);
        if last > middle + 1 {
            end = last;
        }
    }
    let value = if is_power(before) {
        let value = if end == middle { power_value(&text[at..end]) } else { None };
        value.ok_or(Refusal::Lexical("power", at as u32))?
    } else {
        number_value(&text[at..middle], &text[middle..end]).ok_or(Refusal::Lexical("number", at as u32))?
    };
    if text[end..].chars().next().map_or(false, may_continue) {
        return Err(Refusal::Lexical("character", end as u32));
    }
    Ok((Kind::Number(value, &text[at..end]), end))
}

fn is_power(before: &[Token]) -> bool {
    let caret = |k: usize| before.len() >= k && before[before.len() - k].kind == Kind::Sign(Sign::Caret);
    let minus = before.last().map_or(false, |t| t.kind == Kind::Sign(Sign::Minus));
    caret(1) || minus && caret(2)
}

fn power_value(digits: &str) -> Option<Frac> {
    let digits = digits.trim_start_matches('0');
    if digits.len() > 10 {
        return None;
    }
    let value = if digits.is_empty() { 0 } else { digits.parse().ok()? };
    if value > MAX_POWER {
        return None;
    }
    Frac::reduced(value, 1)
}

/// `rest` is empty, or a point or an `r` before digits.
fn number_value(first: &str, rest: &str) -> Option<Frac> {
    if rest.is_empty() {
        if first.len() > 38 {
            return None;
        }
        return Frac::reduced(first.parse().ok()?, 1);
    }
    let second = &rest[1..];
    if first.len() + second.len() > 38 {
        return None;
    }
    let (a, b): (u128, u128) = (first.parse().ok()?, second.parse().ok()?);
    if rest.starts_with('r') {
        Frac::reduced(a, b)
    } else {
        let scale = 10u128.pow(second.len() as u32);
        Frac::reduced(a * scale + b, scale)
    }
}
