//! What the parts of an audit printed as JSON, put together: the findings as they are, and one sum. Each part must be
//! there once, so that one that was not run, or did not come to its end, is noticed.
use crate::report::{sum_json, sum_line, Took};
use crate::{part::Part, pool::Totals, print};
use std::io::Read;
use std::process::ExitCode;

/// The last line of a part.
struct Sum {
    part: Part,
    totals: Totals,
    unread: u64,
    /// Of one core.
    seconds: f64,
}

/// A number of the sum, behind its name.
fn number(line: &str, name: &str) -> Option<f64> {
    let from = line.find(&format!("\"{name}\":"))? + name.len() + 3;
    let length = line[from..].find([',', '}'])?;
    line[from..from + length].parse().ok()
}

impl Sum {
    fn read(line: &str) -> Option<Sum> {
        let counted = |name: &str| number(line, name).map(|n| n as u64);
        let totals = Totals {
            rounds: counted("rounds")?,
            calls: counted("calls")?,
            differ: counted("differ")?,
            unplayable: counted("unplayable")?,
            strange: counted("sheet")?,
            damaged: counted("damaged")?,
            bytes: 0,
        };
        let part = Part { number: counted("part")?, of: counted("parts")? };
        let seconds = number(line, "seconds")? * number(line, "threads")?;
        Some(Sum { part, totals, unread: counted("unread")?, seconds })
    }

    fn add(&mut self, other: &Sum) {
        self.totals.add(&other.totals);
        self.unread += other.unread;
        self.seconds += other.seconds;
    }
}

/// The parts' sums, their findings being printed on the way; or what is no line of an audit.
fn sums(file: &str) -> Result<Vec<Sum>, String> {
    let mut text = String::new();
    let read = match file {
        crate::pool::STANDARD_INPUT => std::io::stdin().read_to_string(&mut text),
        _ => std::fs::File::open(file).and_then(|mut file| file.read_to_string(&mut text)),
    };
    read.map_err(|e| format!("{file}: {e}"))?;
    let mut sums = vec![];
    for (k, line) in text.lines().enumerate() {
        if line.starts_with("{\"file\":") && line.ends_with('}') {
            print(line);
            continue;
        }
        let sum = line.strip_prefix("{\"sum\":").and_then(|line| line.strip_suffix('}')).and_then(Sum::read);
        sums.push(sum.ok_or(format!("{file}: line {} is none that audit --json prints", k + 1))?);
    }
    match text.ends_with('\n') && !text.lines().last().unwrap_or("").starts_with("{\"file\":") {
        true => Ok(sums),
        false => Err(format!("{file}: it does not end with a sum: that part did not come to its end")),
    }
}

/// Which part is not there once.
fn missing(sums: &[Sum]) -> Option<String> {
    let of = sums.first().map_or(1, |sum| sum.part.of);
    if let Some(other) = sums.iter().find(|sum| sum.part.of != of) {
        return Some(format!("some are parts of {of}, others of {}", other.part.of));
    }
    let mut numbers: Vec<u64> = sums.iter().map(|sum| sum.part.number).collect();
    numbers.sort_unstable();
    let twice = numbers.windows(2).find(|pair| pair[0] == pair[1]);
    let lost = (1..=of).zip(numbers.iter().map(Some).chain(std::iter::repeat(None))).find(|(k, n)| Some(k) != *n);
    match (twice, lost) {
        (Some(pair), _) => Some(format!("part {} of {of} is there twice", pair[0])),
        (None, Some((k, _))) => Some(format!("part {k} of {of} is missing")),
        (None, None) => None,
    }
}

pub fn run(files: &[String]) -> ExitCode {
    let mut all = vec![];
    for file in files {
        match sums(file) {
            Ok(found) => all.extend(found),
            Err(why) => return broken(&why),
        }
    }
    if let Some(why) = missing(&all) {
        return broken(&why);
    }
    let mut whole = Sum { part: Part::ALL, totals: Totals::default(), unread: 0, seconds: 0.0 };
    all.iter().for_each(|sum| whole.add(sum));
    let took = Took { seconds: whole.seconds, threads: 1 };
    print(&sum_json(&whole.totals, &took, &Part::ALL, whole.unread));
    eprintln!("audit: {}", sum_line(&whole.totals, &took));
    ExitCode::from(if whole.unread > 0 { 2 } else { whole.totals.stands_out() as u8 })
}

fn broken(why: &str) -> ExitCode {
    eprintln!("audit: {why}");
    ExitCode::from(2)
}
