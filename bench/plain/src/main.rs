//! A plain program of the same language, to compare speed with. It answers `types`, `fmt`, `code`, `run`, `steps` and
//! `eval` as `umc` does, in ordinary Rust without proofs, and lets want of memory end the process. Letters of names are
//! those of Unicode 14.

mod code;
mod eval;
mod frac;
mod infer;
mod input;
mod layout;
mod lexer;
mod machine;
mod names;
mod parser;
mod refusal;
mod rows;
mod shapes;
mod show;
mod solver;
mod syntax;
mod tree;
mod unit;
mod value;
mod xid;

use machine::Stop;
use refusal::Refusal;
use shapes::Shapes;
use std::io::{Read, Write};
use std::process::ExitCode;
use tree::{Program, Scheme};

const MAX_TEXT: usize = 1048576;
const MAX_BUDGET: u64 = 10000000;

enum Order {
    Types,
    Fmt,
    Code,
    Call(Call),
}

#[derive(Clone, Copy, PartialEq)]
enum Way {
    Run,
    Steps,
    Eval,
}

struct Call {
    way: Way,
    budget: u64,
    name: String,
    args: Vec<String>,
}

fn order() -> Option<Order> {
    let words = std::env::args_os().skip(1).map(|word| word.into_string().ok()).collect::<Option<Vec<_>>>()?;
    if words.iter().any(|word| word.len() > MAX_TEXT) {
        return None;
    }
    let mut words = words.into_iter();
    let order = match words.next()?.as_str() {
        "types" => Order::Types,
        "fmt" => Order::Fmt,
        "code" => Order::Code,
        "run" => return call(Way::Run, words),
        "steps" => return call(Way::Steps, words),
        "eval" => return call(Way::Eval, words),
        _ => return None,
    };
    if words.next().is_some() { None } else { Some(order) }
}

fn call(way: Way, mut words: impl Iterator<Item = String>) -> Option<Order> {
    let budget = budget(&words.next()?)?;
    let name = words.next()?;
    Some(Order::Call(Call { way, budget, name, args: words.collect() }))
}

fn budget(word: &str) -> Option<u64> {
    if word.is_empty() || word.len() > 8 || !word.bytes().all(|b| b.is_ascii_digit()) {
        return None;
    }
    word.parse().ok().filter(|budget| *budget <= MAX_BUDGET)
}

fn read_text(bytes: &mut Vec<u8>) -> Result<(), Refusal> {
    let limit = MAX_TEXT as u64 + 1;
    std::io::stdin().lock().take(limit).read_to_end(bytes).map_err(|_| Refusal::Read)?;
    if bytes.len() > MAX_TEXT { Err(Refusal::TooLong) } else { Ok(()) }
}

fn answer(order: Order, bytes: &[u8]) -> Result<String, Refusal> {
    let text = std::str::from_utf8(bytes).map_err(|e| Refusal::Utf8(e.valid_up_to() as u32))?;
    let tokens = lexer::lex(text)?;
    let decls = parser::parse(&tokens)?;
    drop(tokens);
    if let Order::Fmt = order {
        return Ok(layout::program_text(&decls));
    }
    let program = names::resolve(&decls)?;
    drop(decls);
    let shapes = shapes::check(&program)?;
    let schemes = infer::infer(&program)?;
    match order {
        Order::Code => Ok(code::listing(&code::generate(&program), &program)),
        Order::Call(call) => run(&program, &shapes, &schemes, &call),
        _ => Ok(scheme_lines(&program, &schemes)),
    }
}

fn scheme_lines(program: &Program, schemes: &[Scheme]) -> String {
    let show = show::Show::new(program);
    let mut out = String::new();
    for (function, scheme) in program.functions.iter().zip(schemes) {
        show.scheme(&mut out, function.name, scheme);
        out.push('\n');
    }
    out
}

fn run(program: &Program, shapes: &Shapes, schemes: &[Scheme], call: &Call) -> Result<String, Refusal> {
    let found = program.functions.iter().position(|function| function.name == call.name);
    let f = found.ok_or(Refusal::NoFunction)?;
    let params = &shapes.functions[f].params;
    if params.len() != call.args.len() {
        return Err(Refusal::WrongArguments);
    }
    let mut inputs = Vec::new();
    for (k, (text, shape)) in call.args.iter().zip(params).enumerate() {
        let input = input::read(text, shape, program, shapes).map_err(|(what, at)| {
            let place = 1 + text[..at as usize].chars().count();
            Refusal::Argument(k + 1, what, place)
        })?;
        inputs.push(input);
    }
    let args = inputs.iter().zip(params).map(|(input, shape)| input.expr(shape, program, shapes)).collect();
    let ty = infer::type_call(program, schemes, f as u32, args)?;
    let values = inputs.into_iter().map(|input| input.value()).collect();
    let result = match call.way {
        Way::Eval => eval::eval(program, f, values, call.budget).map(|value| (value, 0)),
        _ => machine::run(&code::generate(program), f, values, call.budget),
    };
    let (value, steps) = result.map_err(|stop| match stop {
        Stop::Trap(trap) => Refusal::Trap(trap),
        Stop::Budget => Refusal::Budget,
    })?;
    let mut out = String::new();
    show::Show::new(program).value(&mut out, &value, &ty).map_err(|_| Refusal::CallRange)?;
    out.push('\n');
    if call.way == Way::Steps {
        out.push_str(&format!("steps {}\n", steps));
    }
    Ok(out)
}

fn main() -> ExitCode {
    let mut bytes = Vec::new();
    let result = match order() {
        None => Err(Refusal::Usage),
        Some(order) => read_text(&mut bytes).and_then(|()| answer(order, &bytes)),
    };
    let (text, status) = match result {
        Ok(text) => (text, 0),
        Err(refusal) => (refusal.line(&bytes), refusal.status()),
    };
    let mut out = std::io::stdout().lock();
    if out.write_all(text.as_bytes()).and_then(|()| out.flush()).is_err() {
        return ExitCode::from(16);
    }
    ExitCode::from(status)
}
