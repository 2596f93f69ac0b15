//! A program's text in the one layout.

use crate::frac::Frac;
use crate::show::number_text;
use crate::syntax::*;
use std::fmt::Write;

/// The text of a program, a declaration a line.
pub fn program_text(decls: &[RawDecl]) -> String {
    let mut out = String::new();
    for decl in decls {
        write_decl(&mut out, decl);
        out.push('\n');
    }
    out
}

fn write_decl(out: &mut String, decl: &RawDecl) {
    match decl {
        RawDecl::Base(_, name) => {
            out.push_str("[<Measure>] type ");
            out.push_str(name);
        }
        RawDecl::Short(_, name, unit) => {
            out.push_str("[<Measure>] type ");
            out.push_str(name);
            out.push_str(" = ");
            write_unit(out, unit);
        }
        RawDecl::Record(record) => write_record(out, record),
        RawDecl::Function(function) => write_function(out, function),
    }
}

fn write_unit_parameters(out: &mut String, units: &[(u32, &str)]) {
    if units.is_empty() {
        return;
    }
    for (k, (_, name)) in units.iter().enumerate() {
        out.push_str(if k == 0 { "<[<Measure>] '" } else { ", [<Measure>] '" });
        out.push_str(name);
    }
    out.push('>');
}

fn write_record(out: &mut String, record: &RawRecord) {
    out.push_str("type ");
    out.push_str(record.name);
    write_unit_parameters(out, &record.units);
    out.push_str(" = { ");
    for (k, (_, name, ty)) in record.fields.iter().enumerate() {
        if k > 0 {
            out.push_str("; ");
        }
        out.push_str(name);
        out.push_str(": ");
        write_type(out, ty);
    }
    out.push_str(" }");
}

fn write_function(out: &mut String, function: &RawFunction) {
    out.push_str(if function.recursive { "let rec " } else { "let " });
    out.push_str(function.name);
    write_unit_parameters(out, &function.units);
    for (binder, ty) in &function.params {
        out.push_str(" (");
        out.push_str(binder_text(binder));
        out.push_str(": ");
        write_type(out, ty);
        out.push(')');
    }
    if let Some(ty) = &function.result {
        out.push_str(" : ");
        write_type(out, ty);
    }
    out.push_str(" = ");
    write_expr(out, &function.body);
}

fn binder_text<'a>(binder: &Binder<'a>) -> &'a str {
    binder.name.unwrap_or("_")
}

fn write_note(out: &mut String, note: &RawNote) {
    match note {
        RawNote::Hole(_) => out.push('_'),
        RawNote::Unit(unit) => write_unit(out, unit),
    }
}

fn write_type(out: &mut String, ty: &RawType) {
    match ty {
        RawType::Bool => out.push_str("bool"),
        RawType::Num(None) => out.push_str("num"),
        RawType::Num(Some(note)) => {
            out.push_str("num<");
            write_note(out, note);
            out.push('>');
        }
        RawType::Name(_, name, notes) => {
            out.push_str(name);
            for (k, note) in notes.iter().enumerate() {
                out.push_str(if k == 0 { "<" } else { ", " });
                write_note(out, note);
            }
            if !notes.is_empty() {
                out.push('>');
            }
        }
        RawType::List(item) => {
            write_type(out, item);
            out.push_str(" list");
        }
        RawType::Bracket(inner) => {
            out.push('(');
            write_type(out, inner);
            out.push(')');
        }
    }
}

fn write_unit(out: &mut String, unit: &RawUnit) {
    match unit {
        RawUnit::One(_) => out.push('1'),
        RawUnit::Name(_, name) => out.push_str(name),
        RawUnit::Var(_, name) => {
            out.push('\'');
            out.push_str(name);
        }
        RawUnit::Power(base, power) => {
            write_unit(out, base);
            let _ = write!(out, "^{}", power);
        }
        RawUnit::Side(units) => {
            for (k, unit) in units.iter().enumerate() {
                if k > 0 {
                    out.push(' ');
                }
                write_unit(out, unit);
            }
        }
        RawUnit::Times(a, b) => {
            write_unit(out, a);
            out.push('*');
            write_unit(out, b);
        }
        RawUnit::Over(a, b) => {
            write_unit(out, a);
            out.push('/');
            write_unit(out, b);
        }
        RawUnit::Inverse(_, a) => {
            out.push('/');
            write_unit(out, a);
        }
        RawUnit::Bracket(_, inner) => {
            out.push('(');
            write_unit(out, inner);
            out.push(')');
        }
    }
}

fn write_binary(out: &mut String, a: &RawExpr, sign: &str, b: &RawExpr) {
    write_expr(out, a);
    out.push(' ');
    out.push_str(sign);
    out.push(' ');
    write_expr(out, b);
}

fn write_number(out: &mut String, value: Frac, note: &Option<RawNote>) {
    number_text(out, value);
    if let Some(note) = note {
        out.push('<');
        write_note(out, note);
        out.push('>');
    }
}

fn write_expr(out: &mut String, expr: &RawExpr) {
    match &expr.node {
        RawNode::Bool(true) => out.push_str("true"),
        RawNode::Bool(false) => out.push_str("false"),
        RawNode::Num(value, note) => write_number(out, *value, note),
        RawNode::Name(name) => out.push_str(name),
        RawNode::Call(name, args) => {
            out.push_str(name);
            for arg in args {
                out.push(' ');
                write_expr(out, arg);
            }
        }
        RawNode::Neg(a) => {
            out.push('-');
            write_expr(out, a);
        }
        RawNode::Not(a) => {
            out.push_str("not ");
            write_expr(out, a);
        }
        RawNode::Pow(a, power) => {
            out.push_str("pown ");
            write_expr(out, a);
            let _ = if *power < 0 { write!(out, " ({})", power) } else { write!(out, " {}", power) };
        }
        RawNode::Arith(op, a, b) => {
            let sign = match op {
                Arith::Add => "+",
                Arith::Sub => "-",
                Arith::Mul => "*",
                Arith::Div => "/",
            };
            write_binary(out, a, sign, b);
        }
        RawNode::Compare(op, a, b) => {
            let sign = match op {
                Comparison::Lt => "<",
                Comparison::Le => "<=",
                Comparison::Eq => "=",
                Comparison::Gt => ">",
                Comparison::Ge => ">=",
                Comparison::Ne => "<>",
            };
            write_binary(out, a, sign, b);
        }
        RawNode::And(a, b) => write_binary(out, a, "&&", b),
        RawNode::Or(a, b) => write_binary(out, a, "||", b),
        RawNode::Cons(a, b) => write_binary(out, a, "::", b),
        RawNode::If(a, b, c) => {
            out.push_str("if ");
            write_expr(out, a);
            out.push_str(" then ");
            write_expr(out, b);
            out.push_str(" else ");
            write_expr(out, c);
        }
        RawNode::Let(binder, a, b) => {
            out.push_str("let ");
            out.push_str(binder_text(binder));
            out.push_str(" = ");
            write_expr(out, a);
            out.push_str(" in ");
            write_expr(out, b);
        }
        RawNode::Match(list, empty, head, tail, full) => {
            out.push_str("match ");
            write_expr(out, list);
            out.push_str(" with [] -> ");
            write_expr(out, empty);
            out.push_str(" | ");
            out.push_str(binder_text(head));
            out.push_str(" :: ");
            out.push_str(binder_text(tail));
            out.push_str(" -> ");
            write_expr(out, full);
        }
        RawNode::Nil(ty) => {
            out.push_str("([] : ");
            write_type(out, ty);
            out.push(')');
        }
        RawNode::List(items) => {
            for (k, item) in items.iter().enumerate() {
                out.push_str(if k == 0 { "[" } else { "; " });
                write_expr(out, item);
            }
            out.push(']');
        }
        RawNode::Rec(parts) => {
            for (k, (_, name, part)) in parts.iter().enumerate() {
                out.push_str(if k == 0 { "{ " } else { "; " });
                out.push_str(name);
                out.push_str(" = ");
                write_expr(out, part);
            }
            out.push_str(" }");
        }
        RawNode::Field(_, name, a) => {
            write_expr(out, a);
            out.push('.');
            out.push_str(name);
        }
        RawNode::Bracket(inner) => {
            out.push('(');
            write_expr(out, inner);
            out.push(')');
        }
    }
}
