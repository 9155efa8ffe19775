//! Warnings of a text that is accepted: what can be written so, and is hardly meant.
use crate::bytes::decode;
use crate::fault::Place;
use crate::read::{assemble, Assembled};
use crate::token::{all, Spot, Token, Word};
use crate::tree::{two_sided, Active, Body, Expr, Handler, Sheet, IF, NOT};
use crate::words::words;

/// A warning and where it belongs.
#[derive(Clone, Debug, PartialEq, Eq)]
pub struct Warning {
    /// A name's, or an operator's.
    pub place: Place,
    /// What is odd, and what to write.
    pub words: String,
}

/// The levels of operators that compare.
const COMPARES: [u8; 2] = [3, 4];

fn warning(place: Place, key: &str, parts: &[&str]) -> Warning {
    Warning { place, words: words(key, parts).unwrap_or_default() }
}

/// All warnings, by place; none of a text that is not accepted.
pub fn warnings(text: &[u8]) -> Vec<Warning> {
    let Ok(read) = assemble(text) else { return vec![] };
    let Ok(sheet) = decode(&read.sheet) else { return vec![] };
    let spots = all(text);
    let mut found = chains(&spots);
    let chained: Vec<usize> = found.iter().map(|w| w.place.line).collect();
    let formulas = formulas(&sheet, &read, &spots);
    found.extend(unused(&sheet, &read, &formulas));
    for Formula { place, expr, own } in &formulas {
        if let Some(is) = decided(expr).filter(|_| !chained.contains(&place.line)) {
            found.push(warning(*place, if is { "warn.true" } else { "warn.false" }, &[]));
        }
        if let Some(name) = own.filter(|_| matches!(expr, Expr::Name(n) if Some(*n) == own.map(|b| b.first))) {
            found.push(warning(*place, "warn.own", &[&name.name]));
        }
    }
    found.sort_by_key(|w| w.place);
    found
}

/// Comparisons of a comparison, which are not in brackets.
fn chains(spots: &[Spot]) -> Vec<Warning> {
    let mut found = vec![];
    // the last comparison at each depth of brackets
    let mut last: Vec<Option<u8>> = vec![None];
    for Spot { token, place, .. } in spots {
        match *token {
            Token::Mark(b'(') => last.push(None),
            Token::Mark(b')') if last.len() > 1 => drop(last.pop()),
            Token::Mark(_) | Token::Word(_) => *last.last_mut().expect("a depth") = None,
            Token::TwoSided(function) => {
                let (sign, level) = two_sided(function).unwrap_or(("", 0));
                let own = last.last_mut().expect("a depth");
                let before = own.and_then(two_sided);
                if let Some((first, _)) = before.filter(|b| b.1 == level && COMPARES.contains(&level)) {
                    found.push(warning(*place, "warn.chain", &[first, sign]));
                }
                // what binds more tightly stands within an operand
                if level >= COMPARES[0] {
                    *own = Some(function);
                }
            }
            _ => {}
        }
    }
    found
}

/// A formula, where it stands, and the active that it is a handler of.
struct Formula<'s> {
    place: Place,
    expr: &'s Expr,
    own: Option<&'s crate::Declared>,
}

/// All formulas: the passives' at their names, the handlers' at their events' names.
fn formulas<'s>(sheet: &'s Sheet, read: &'s Assembled, spots: &[Spot]) -> Vec<Formula<'s>> {
    let handled = spots.windows(2).filter(|w| w[0].token == Token::Word(Word::On)).map(|w| w[1].place);
    let mut handled = handled.collect::<Vec<_>>().into_iter();
    let mut found = vec![];
    for (behaviour, declared) in sheet.behaviours.iter().zip(&read.behaviours) {
        match &behaviour.body {
            Body::Passive(expr) => found.push(Formula { place: declared.place, expr, own: None }),
            Body::Active(Active { handlers, .. }) | Body::Row(_, Active { handlers, .. }) => {
                let one = |(h, place): (&'s Handler, Place)| Formula { place, expr: &h.expr, own: Some(declared) };
                found.extend(handlers.iter().zip(handled.by_ref()).map(one));
            }
        }
    }
    found
}

fn reads(expr: &Expr, is: &dyn Fn(&Expr) -> bool) -> bool {
    match expr {
        Expr::Apply(_, arguments) => arguments.iter().any(|a| reads(a, is)),
        _ => is(expr),
    }
}

/// Events that nothing handles, parameters that no formula has, behaviours that nobody sees or reads.
fn unused(sheet: &Sheet, read: &Assembled, formulas: &[Formula]) -> Vec<Warning> {
    let mut found = vec![];
    let handlers = |body: &Body| match body {
        Body::Passive(_) => vec![],
        Body::Active(a) | Body::Row(_, a) => a.handlers.iter().map(|h| h.event).collect(),
    };
    let handled: Vec<usize> = sheet.behaviours.iter().flat_map(|b| handlers(&b.body)).collect();
    for event in read.events.iter().filter(|e| !handled.contains(&e.first)) {
        found.push(warning(event.place, "warn.unhandled", &[&event.name]));
    }
    for (k, param) in read.params.iter().enumerate() {
        if !formulas.iter().any(|f| reads(f.expr, &|e| *e == Expr::Param(k))) {
            found.push(warning(param.place, "warn.param", &[&param.name]));
        }
    }
    for (behaviour, declared) in sheet.behaviours.iter().zip(&read.behaviours) {
        let own = declared.first..declared.first + declared.count();
        let other = |f: &&Formula| f.own.map_or(f.place, |b| b.place) != declared.place;
        let read = |f: &Formula| reads(f.expr, &|e| matches!(e, Expr::Name(n) if own.contains(n)));
        if behaviour.viewers == Some(0) && !formulas.iter().filter(other).any(read) {
            found.push(warning(declared.place, "warn.unused", &[&declared.name]));
        }
    }
    found
}

// ---- conditions

/// The values that an expression may have, at most.
type Range = (i64, i64);
const ANY: Range = (i32::MIN as i64, i32::MAX as i64);

fn truth((low, high): Range) -> Option<bool> {
    match (low, high) {
        (0, 0) => Some(false),
        _ if low > 0 || high < 0 => Some(true),
        _ => None,
    }
}

fn answer(is: Option<bool>) -> Range {
    is.map_or((0, 1), |is| (is.into(), is.into()))
}

/// Whether the one is always less than the other, or never.
fn less(a: Range, b: Range) -> Option<bool> {
    match () {
        () if a.1 < b.0 => Some(true),
        () if a.0 >= b.1 => Some(false),
        () => None,
    }
}

fn equal(a: Range, b: Range) -> Option<bool> {
    match () {
        () if a.1 < b.0 || b.1 < a.0 => Some(false),
        () if a == b && a.0 == a.1 => Some(true),
        () => None,
    }
}

/// A sum or a product that may be too large can be anything.
fn exact(ends: &[i64]) -> Range {
    let range = (*ends.iter().min().expect("ends"), *ends.iter().max().expect("ends"));
    if range.0 < ANY.0 || range.1 > ANY.1 {
        return ANY;
    }
    range
}

fn range(expr: &Expr) -> Range {
    let (function, arguments) = match expr {
        Expr::Constant(n) => return (i64::from(*n), i64::from(*n)),
        Expr::Name(_) | Expr::Param(_) => return ANY,
        Expr::Apply(function, arguments) => (*function, arguments),
    };
    let ranges: Vec<Range> = arguments.iter().map(range).collect();
    let (a, b) = (ranges[0], *ranges.last().expect("an argument"));
    match (two_sided(function).map(|(sign, _)| sign), function) {
        (Some("||"), _) => answer(either(truth(a), truth(b))),
        (Some("&&"), _) => answer(either(truth(a).map(|t| !t), truth(b).map(|t| !t)).map(|t| !t)),
        (Some("+"), _) => exact(&[a.0 + b.0, a.1 + b.1]),
        (Some("-"), _) => exact(&[a.0 - b.1, a.1 - b.0]),
        (Some("*"), _) => exact(&[a.0 * b.0, a.0 * b.1, a.1 * b.0, a.1 * b.1]),
        (Some(">"), _) => answer(less(b, a)),
        (Some(">="), _) => answer(less(a, b).map(|t| !t)),
        (Some("<"), _) => answer(less(a, b)),
        (Some("<="), _) => answer(less(b, a).map(|t| !t)),
        (Some("=="), _) => answer(equal(a, b)),
        (Some("!="), _) => answer(equal(a, b).map(|t| !t)),
        (_, NOT) => answer(truth(a).map(|t| !t)),
        (_, IF) => match truth(a) {
            Some(true) => ranges[1],
            Some(false) => b,
            None => (ranges[1].0.min(b.0), ranges[1].1.max(b.1)),
        },
        _ => ANY,
    }
}

fn either(a: Option<bool>, b: Option<bool>) -> Option<bool> {
    match (a, b) {
        (Some(true), _) | (_, Some(true)) => Some(true),
        (Some(false), Some(false)) => Some(false),
        _ => None,
    }
}

/// The first condition in a formula, from the outside, that is always true or always false: an `if`'s, or a comparison.
fn decided(expr: &Expr) -> Option<bool> {
    let Expr::Apply(function, arguments) = expr else { return None };
    let sign = two_sided(*function).map_or("", |(sign, _)| sign);
    let own = match *function {
        IF => truth(range(&arguments[0])),
        NOT => truth(range(expr)),
        _ if !["+", "-", "*", "/"].contains(&sign) => truth(range(expr)),
        _ => None,
    };
    own.or_else(|| arguments.iter().find_map(decided))
}

#[cfg(test)]
mod tests {
    use super::*;

    fn told(text: &str) -> Vec<String> {
        warnings(text.as_bytes()).iter().map(|w| format!("{}:{} {}", w.place.line, w.place.column, w.words)).collect()
    }

    #[test]
    fn conditions() {
        let first = |text: &str| told(text).first().cloned().unwrap_or_default();
        let yes = ["if(1, a, 2)", "if(3 > 2, a, 2)", "(a > 1) < 5", "!(a > 1 && 0)", "2 == 1 + 1", "(a == 1) >= 0"];
        for formula in yes {
            assert_eq!(first(&format!("active a = 0 passive p = {formula}")), "1:22 a condition here is always true");
        }
        for formula in ["if(0, a, 2)", "a && 2 > 3", "if(a, 1, 2) > 2", "if(a > 0, a, 1 < 0)", "(a < 3) * 2 > 2"] {
            assert_eq!(first(&format!("active a = 0 passive p = {formula}")), "1:22 a condition here is always false");
        }
        for formula in ["a > 0", "a + 1 > a", "if(a, 1, 2) > 1", "a * 2147483647 > 0", "a / a == 1", "(a < 3) == 1"] {
            assert_eq!(told(&format!("active a = 0 passive p = {formula}")), [""; 0], "{formula}");
        }
    }

    #[test]
    fn chains_of_comparisons() {
        for (formula, count) in [("0 < a < 5", 1), ("a == 1 == 1", 1), ("a < 1 == a < 2", 0), ("0 < a && a < 5", 0)] {
            let text = format!("active a = 0 passive p = {formula}");
            assert_eq!(told(&text).len(), count, "{formula}: {:?}", told(&text));
        }
        assert_eq!(told("active a = 0 passive p = if(a < 1, a < 2, (a < 3)) > a + (a < 4)"), [""; 0]);
        assert!(told("active a = 0 passive p = 0 <= a < 5")[0].ends_with("write `a <= b && b < c`"));
    }
}
