//! A sheet's bytes to text.
//!
//! One declaration a line, each line ended by a line feed; handlers below theirs, two spaces in. One space stands between
//! two tokens where the bytes on both sides of it are letters, digits or `_`, and nowhere else; so a formula has none.
//! Brackets stand where another reading would follow without them, and nowhere else.
use crate::bytes::decode;
use crate::tree::{two_sided, Behaviour, Body, Event, Expr, Sheet, IF, NOT};
use std::fmt::Write;

/// The level of what needs no brackets anywhere, and the loosest.
const PRIMARY: u8 = 0;
const LOOSEST: u8 = 6;

/// A sheet's text, or compile's number where the bytes cannot be read: 3 to 11. Whether compile takes the sheet is for
/// compile to say: 12 and 13 are not looked for here.
pub fn describe(bytes: &[u8]) -> Result<String, u32> {
    let sheet = decode(bytes)?;
    let mut out = String::new();
    for number in 0..params_used(&sheet) {
        let _ = writeln!(out, "param p{number}");
    }
    for (number, event) in sheet.events.iter().enumerate() {
        put_event(&mut out, number, event);
    }
    let rows = Rows::of(&sheet);
    let mut first = 0;
    for behaviour in &sheet.behaviours {
        put_behaviour(&mut out, first, behaviour, &rows);
        first += behaviour.count();
    }
    Ok(out)
}

/// For each number of a behaviour: the number that its name has, and its cell.
struct Rows(Vec<(usize, usize)>);

impl Rows {
    fn of(sheet: &Sheet) -> Rows {
        let mut names = vec![];
        for behaviour in &sheet.behaviours {
            let first = names.len();
            names.extend((0..behaviour.count()).map(|cell| (first, cell)));
        }
        Rows(names)
    }
}

/// One more than the highest parameter used.
fn params_used(sheet: &Sheet) -> usize {
    fn of(expr: &Expr) -> usize {
        match expr {
            Expr::Param(number) => number + 1,
            Expr::Apply(_, arguments) => arguments.iter().map(of).max().unwrap_or(0),
            Expr::Constant(_) | Expr::Name(_) => 0,
        }
    }
    let one = |b: &Behaviour| match &b.body {
        Body::Passive(e) => of(e),
        Body::Active(a) | Body::Row(_, a) => a.handlers.iter().map(|h| of(&h.expr)).max().unwrap_or(0),
    };
    sheet.behaviours.iter().map(one).max().unwrap_or(0)
}

fn put_players(out: &mut String, bits: u8) {
    if bits == 0 {
        out.push_str(" nobody");
    }
    for player in (0..8).filter(|n| bits >> n & 1 == 1) {
        let _ = write!(out, " {player}");
    }
}

fn put_event(out: &mut String, number: usize, event: &Event) {
    let _ = write!(out, "event e{number} rank {}", event.rank);
    if let Some(bits) = event.senders {
        out.push_str(" from");
        put_players(out, bits);
    }
    out.push('\n');
}

fn put_behaviour(out: &mut String, first: usize, behaviour: &Behaviour, rows: &Rows) {
    let active = match &behaviour.body {
        Body::Passive(expr) => {
            let _ = write!(out, "passive b{first}=");
            put_expr(out, expr, LOOSEST, rows);
            None
        }
        Body::Active(active) => {
            let _ = write!(out, "active b{first}={}", active.start);
            Some(active)
        }
        Body::Row(cells, active) => {
            let _ = write!(out, "row b{first}[{cells}]={}", active.start);
            Some(active)
        }
    };
    if let Some(bits) = behaviour.viewers {
        // a bracket needs no space behind it
        let space = if out.ends_with([')', ']']) { "" } else { " " };
        let _ = write!(out, "{space}seen by");
        put_players(out, bits);
    }
    out.push('\n');
    for handler in active.iter().flat_map(|a| &a.handlers) {
        let later = if handler.later { " later" } else { "" };
        let _ = write!(out, "  on e{}{later}:", handler.event);
        put_expr(out, &handler.expr, LOOSEST, rows);
        out.push('\n');
    }
}

/// An expression where one of at most so loose a level may stand without brackets.
fn put_expr(out: &mut String, expr: &Expr, level: u8, rows: &Rows) {
    match expr {
        Expr::Constant(value) => {
            let _ = write!(out, "{value}");
        }
        Expr::Param(number) => {
            let _ = write!(out, "p{number}");
        }
        Expr::Name(number) => {
            let _ = match rows.0.get(*number) {
                Some((first, cell)) if *cell > 0 => write!(out, "b{first}[{cell}]"),
                _ => write!(out, "b{number}"),
            };
        }
        Expr::Apply(NOT, arguments) => {
            out.push('!');
            put_list(out, arguments, PRIMARY, rows);
        }
        Expr::Apply(IF, arguments) => {
            out.push_str("if(");
            put_list(out, arguments, LOOSEST, rows);
            out.push(')');
        }
        Expr::Apply(function, arguments) => put_two_sided(out, *function, arguments, level, rows),
    }
}

fn put_list(out: &mut String, arguments: &[Expr], level: u8, rows: &Rows) {
    for (k, argument) in arguments.iter().enumerate() {
        if k > 0 {
            out.push(',');
        }
        put_expr(out, argument, level, rows);
    }
}

/// All group to the left: the operand on the right is of a tighter level.
fn put_two_sided(out: &mut String, function: u8, arguments: &[Expr], level: u8, rows: &Rows) {
    let (text, own) = two_sided(function).unwrap_or(("", PRIMARY));
    let bracketed = own > level;
    if bracketed {
        out.push('(');
    }
    for (k, argument) in arguments.iter().enumerate() {
        if k > 0 {
            out.push_str(text);
        }
        put_expr(out, argument, own - (k > 0) as u8, rows);
    }
    if bracketed {
        out.push(')');
    }
}
