//! What is told of an audit: a finding as a line for people or as a line of JSON, progress, and the sum.
use crate::part::Part;
use crate::pool::{Finding, Kind, Totals};
use std::fmt::Write;
use std::time::Instant;

/// A number with commas.
fn long(n: u64) -> String {
    let digits = n.to_string();
    let mut out = String::new();
    for (k, d) in digits.chars().enumerate() {
        if k > 0 && (digits.len() - k) % 3 == 0 {
            out.push(',');
        }
        out.push(d);
    }
    out
}

fn several(n: u64, one: &str, many: &str) -> String {
    format!("{} {}", long(n), if n == 1 { one } else { many })
}

/// Rounds so far, those that stand out, how far the files are read, and how long the rest may take.
pub fn progress(totals: &Totals, bytes: u64, since: Instant) -> String {
    let seconds = since.elapsed().as_secs_f64();
    let part = if bytes == 0 { 1.0 } else { (totals.bytes as f64 / bytes as f64).min(1.0) };
    let left = if part > 0.0 { format!(", about {:.0} s left", seconds / part - seconds) } else { String::new() };
    format!(
        "{}, {} differ, {} cannot be played, {} damaged, {:.0} % of the bytes{left}",
        several(totals.rounds, "round", "rounds"),
        long(totals.differ),
        long(totals.unplayable),
        long(totals.damaged),
        100.0 * part
    )
}

/// How long it took, on how many threads and cores.
pub struct Took {
    pub seconds: f64,
    pub threads: usize,
}

impl Took {
    /// Rounds a core and second: by the clock, so a machine that is busy with other things has fewer.
    fn rate(&self, rounds: u64) -> f64 {
        let cores = std::thread::available_parallelism().map_or(1, |n| n.get());
        rounds as f64 / (self.seconds * self.threads.min(cores) as f64).max(1e-9)
    }
}

pub fn sum_line(totals: &Totals, took: &Took) -> String {
    let asked = match totals.strange {
        0 => String::new(),
        n => format!(", {} of another sheet", long(n)),
    };
    format!(
        "{}, {}: {} agree, {} differ, {} cannot be played{asked}; {}; {:.2} s on {}, {:.0} rounds a second, {:.0} a \
         core and second",
        several(totals.rounds, "round", "rounds"),
        several(totals.calls, "call", "calls"),
        long(totals.agree()),
        long(totals.differ),
        long(totals.unplayable),
        several(totals.damaged, "damaged stretch", "damaged stretches"),
        took.seconds,
        several(took.threads as u64, "thread", "threads"),
        totals.rounds as f64 / took.seconds.max(1e-9),
        took.rate(totals.rounds)
    )
}

/// A text as JSON has it.
pub fn quoted(text: &str) -> String {
    let mut out = String::from("\"");
    for c in text.chars() {
        match c {
            '"' | '\\' => out.extend(['\\', c]),
            c if c < ' ' => write!(out, "\\u{:04x}", c as u32).expect("a string takes all"),
            c => out.push(c),
        }
    }
    out + "\""
}

/// A finding as a line of JSON: file, where the round or the damage begins in it, and what is found.
pub fn finding_json(file: &str, finding: &Finding) -> String {
    let name = finding.name.as_ref().map_or(String::new(), |name| format!(",\"name\":{}", quoted(name)));
    let found = match finding.kind {
        Kind::Differs { call } => format!("\"differs\",\"call\":{call}"),
        Kind::Unplayable => "\"unplayable\"".to_string(),
        Kind::Strange => "\"sheet\"".to_string(),
        Kind::Damaged => "\"damaged\"".to_string(),
    };
    let (file, why) = (quoted(file), quoted(&finding.why));
    format!("{{\"file\":{file},\"at\":{}{name},\"found\":{found},\"why\":{why}}}", finding.at)
}

/// A finding as a line for people. A part of the files does not know a round's number, and states its first byte.
pub fn finding_line(file: &str, finding: &Finding, part: &Part) -> String {
    let Some(name) = &finding.name else { return format!("{file}: {}", finding.why) };
    let which =
        if part.is_all() { format!("round {}", finding.round) } else { format!("round at byte {}", finding.at) };
    format!("{file}: {which}, {name:?}, {}", finding.why)
}

/// The sum as a line of JSON: each number is the sum of those of all parts.
pub fn sum_json(totals: &Totals, took: &Took, part: &Part, broken: u64) -> String {
    format!(
        "{{\"sum\":{{\"part\":{},\"parts\":{},\"rounds\":{},\"calls\":{},\"agree\":{},\"differ\":{},\"unplayable\":{},\
         \"sheet\":{},\"damaged\":{},\"unread\":{broken},\"seconds\":{:.3},\"threads\":{},\
         \"rounds_a_core_and_second\":{:.0}}}}}",
        part.number,
        part.of,
        totals.rounds,
        totals.calls,
        totals.agree(),
        totals.differ,
        totals.unplayable,
        totals.strange,
        totals.damaged,
        took.seconds,
        took.threads,
        took.rate(totals.rounds)
    )
}
