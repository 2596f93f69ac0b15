//! Why there is no answer, and the line that says so.

use crate::frac::Trap;

/// A cause, most with a place: the number of a byte.
pub enum Refusal {
    Usage,
    TooLong,
    Utf8(u32),
    Lexical(&'static str, u32),
    Syntax(u32),
    Limit(&'static str, u32),
    Names(&'static str, u32),
    UnitRange(u32),
    Shape(u32),
    Units(String, u32),
    NotGeneral(String, u32),
    PowerRange(String, u32),
    CallSlots,
    CallRange,
    NoFunction,
    WrongArguments,
    /// The argument's number, what is wrong, and the number of the character.
    Argument(usize, &'static str, usize),
    CallUnits,
    Trap(Trap),
    Budget,
    Read,
}

impl Refusal {
    /// The status of the process.
    pub fn status(&self) -> u8 {
        match self {
            Refusal::Usage => 1,
            Refusal::TooLong => 2,
            Refusal::Utf8(_) => 3,
            Refusal::Lexical(..) => 4,
            Refusal::Syntax(_) => 5,
            Refusal::Limit(..) | Refusal::CallSlots => 6,
            Refusal::Names(..) => 7,
            Refusal::Shape(_) => 8,
            Refusal::Units(..) => 9,
            Refusal::UnitRange(_) | Refusal::PowerRange(..) | Refusal::CallRange => 10,
            Refusal::NoFunction | Refusal::WrongArguments | Refusal::Argument(..) | Refusal::CallUnits => 11,
            Refusal::Trap(_) => 12,
            Refusal::Budget => 13,
            Refusal::Read => 15,
            Refusal::NotGeneral(..) => 19,
        }
    }

    /// The report line; the text tells the line and the column of a place.
    pub fn line(&self, text: &[u8]) -> String {
        let place = |at: &u32| line_column(text, *at);
        let what = match self {
            Refusal::Usage => "usage".to_string(),
            Refusal::TooLong => "text too long".to_string(),
            Refusal::Read => "read".to_string(),
            Refusal::CallSlots => "limit slots in the call".to_string(),
            Refusal::CallRange => "power range of the call".to_string(),
            Refusal::NoFunction => "no such function".to_string(),
            Refusal::WrongArguments => "wrong number of arguments".to_string(),
            Refusal::Argument(number, what, place) => format!("argument {}, {} at {}", number, what, place),
            Refusal::CallUnits => "units of the arguments".to_string(),
            Refusal::Trap(Trap::Overflow) => "overflow".to_string(),
            Refusal::Trap(Trap::DivZero) => "division by zero".to_string(),
            Refusal::Budget => "budget".to_string(),
            Refusal::Utf8(at) => format!("not UTF-8 at {}", place(at)),
            Refusal::Lexical(kind, at) | Refusal::Names(kind, at) => format!("{} at {}", kind, place(at)),
            Refusal::Syntax(at) => format!("syntax at {}", place(at)),
            Refusal::Limit(kind, at) => format!("limit {} at {}", kind, place(at)),
            Refusal::UnitRange(at) => format!("power range at {}", place(at)),
            Refusal::Shape(at) => format!("shape at {}", place(at)),
            Refusal::Units(name, at) => format!("units of {} at {}", name, place(at)),
            Refusal::NotGeneral(name, at) => format!("not general in {} at {}", name, place(at)),
            Refusal::PowerRange(name, at) => format!("power range of {} at {}", name, place(at)),
        };
        format!("error {}: {}\n", self.status(), what)
    }
}

fn line_column(text: &[u8], at: u32) -> String {
    let before = &text[..at as usize];
    let line = 1 + before.iter().filter(|&&b| b == b'\n').count();
    let start = before.iter().rposition(|&b| b == b'\n').map_or(0, |k| k + 1);
    let column = 1 + before[start..].iter().filter(|&&b| b & 0xc0 != 0x80).count();
    format!("{}:{}", line, column)
}
