//! Audits files of recorded rounds on all cores: each round is played again by the engine, and for each that differs
//! the first call that does is printed.
//!
//! `audit --help` says how it is called. Findings go to standard output, one line each, in the order of the files;
//! progress and the sum go to standard error. The format is that of the crate's module `record`.
mod part;
mod parts;
mod pool;
mod report;
mod same;

use part::Part;
use pool::{Found, League, Work};
use poqashem::{Params, Sheet};
use report::Took;
use std::io::{IsTerminal, Write};
use std::process::ExitCode;
use std::time::{Duration, Instant};

const HELP: &str = "\
audit [--threads N] [--every SECONDS | --quiet] [--json] [--part K/N] [--sheet FILE].. [--params N,..] FILE ..
audit --sum FILE ..
audit --same A B

Plays each round of the files again, on all cores, and prints a line for each that differs, with the first call that
does, for each that cannot be played, and for each stretch that is damaged. A FILE - is standard input. --threads sets
how many threads there are, --every how often progress is shown, --quiet shows none.

--sheet asks for the league's own sheet: a round that did not begin with these bytes is printed, too. Where it is given
several times, rounds begin with the first and may change to the others. --params has the numbers of its parameters.
--part audits the K-th of N parts, K from 1: the rounds that begin in that stretch of the files' bytes. All parts
together audit each round once, on as many machines. --json prints each finding as a line of JSON, and the sum as the
last line. --sum puts what all parts printed so together: their findings and one sum, its seconds being those of one
core. A part that is missing, is there twice or did not come to its end is told.

--same holds two players' records of one round against each other, the first round of A against the first of B and so
on: what they began with, the events that were taken in with their players, and the changes of sheets. It prints where
they part. Each is audited too.

Ends with 0 where all rounds agree, with 1 where something stands out, with 2 where it was called wrongly or a file
cannot be read. It writes no file.
";

struct Asked {
    files: Vec<String>,
    help: bool,
    threads: usize,
    /// How often progress is shown.
    every: Option<Duration>,
    json: bool,
    sum: bool,
    same: bool,
    part: Part,
    /// Files of sheets, and their parameters.
    sheets: Vec<String>,
    params: Option<Params>,
}

/// Up to eight numbers with commas between them; those that are left out are 0.
fn params(word: &str) -> Result<Params, String> {
    let mut values = [0; 8];
    for (k, number) in word.split(',').enumerate() {
        let own = values.get_mut(k).ok_or("--params takes up to eight numbers")?;
        *own = number.trim().parse().map_err(|_| format!("--params takes numbers, and not {number}"))?;
    }
    Ok(Params::new(values))
}

fn asked(mut words: impl Iterator<Item = String>) -> Result<Asked, String> {
    let threads = std::thread::available_parallelism().map_or(1, |n| n.get());
    let seconds = if std::io::stderr().is_terminal() { 1 } else { 10 };
    let mut asked = Asked {
        files: vec![],
        help: false,
        threads,
        every: Some(Duration::from_secs(seconds)),
        json: false,
        sum: false,
        same: false,
        part: Part::ALL,
        sheets: vec![],
        params: None,
    };
    while let Some(word) = words.next() {
        let mut next = |what: &str| words.next().ok_or(format!("{word} needs {what}"));
        let number = |word: String, next: &str| next.parse::<u64>().map_err(|_| format!("{word} needs a number"));
        match word.as_str() {
            "--threads" => asked.threads = (number(word.clone(), &next("a number")?)? as usize).clamp(1, 1024),
            "--every" => asked.every = Some(Duration::from_secs(number(word.clone(), &next("a number")?)?)),
            "--quiet" => asked.every = None,
            "--json" => asked.json = true,
            "--sum" => asked.sum = true,
            "--same" => asked.same = true,
            "--part" => asked.part = Part::read(&next("K/N")?)?,
            "--sheet" => asked.sheets.push(next("a file")?),
            "--params" => asked.params = Some(params(&next("numbers")?)?),
            "--help" | "-h" => asked.help = true,
            _ if word.starts_with('-') && word != pool::STANDARD_INPUT => return Err(format!("no option {word}")),
            _ => asked.files.push(word),
        }
    }
    asked.fits()
}

impl Asked {
    fn fits(self) -> Result<Asked, String> {
        let input = self.files.iter().any(|file| file == pool::STANDARD_INPUT);
        match () {
            _ if self.help => Ok(self),
            _ if self.files.is_empty() => Err("no file is named".to_string()),
            _ if self.same && self.sum => Err("--same and --sum are two questions".to_string()),
            _ if self.same && self.files.len() != 2 => Err("--same takes two files".to_string()),
            _ if !self.part.is_all() && input => Err("--part needs files, whose length is known".to_string()),
            _ if self.params.is_some() && self.sheets.is_empty() => Err("--params needs --sheet".to_string()),
            _ => Ok(self),
        }
    }

    fn league(&self) -> Result<Option<League>, String> {
        if self.sheets.is_empty() {
            return Ok(None);
        }
        let sheet = |file: &String| std::fs::read(file).map(Sheet::new).map_err(|e| format!("{file}: {e}"));
        let sheets = self.sheets.iter().map(sheet).collect::<Result<Vec<_>, _>>()?;
        Ok(Some(League { sheets, params: self.params }))
    }

    /// The files of the part, and how many bytes it has.
    fn files(&self) -> (Vec<pool::Stretch<'_>>, u64) {
        let size = |file: &String| std::fs::metadata(file).map_or(0, |m| m.len());
        let sizes: Vec<u64> = self.files.iter().map(size).collect();
        if self.part.is_all() {
            return (self.files.iter().map(|file| (file.as_str(), None)).collect(), sizes.iter().sum());
        }
        let own = self.part.of_files(&sizes);
        let bytes = own.iter().flatten().map(|range| range.end - range.start).sum();
        let files = self.files.iter().zip(own).filter_map(|(file, range)| Some((file.as_str(), Some(range?))));
        (files.collect(), bytes)
    }
}

/// A line; a reader that has gone away ends the printing, not the audit.
fn print(line: &str) {
    let _ = writeln!(std::io::stdout(), "{line}");
}

fn audit(asked: &Asked, league: Option<League>) -> ExitCode {
    let since = Instant::now();
    let (files, bytes) = asked.files();
    let mut shown = Instant::now();
    let mut broken = 0;
    let work = Work { files, league, threads: asked.threads };
    let totals = pool::run(&work, &mut |found, totals| {
        match found {
            Some(Found::Finding { file, finding }) if asked.json => print(&report::finding_json(&file, &finding)),
            Some(Found::Finding { file, finding }) => print(&report::finding_line(&file, &finding, &asked.part)),
            Some(Found::Broken { file, why }) => {
                broken += 1;
                eprintln!("audit: {file}: {why}");
            }
            None => {}
        }
        if asked.every.is_some_and(|every| shown.elapsed() >= every) {
            shown = Instant::now();
            eprintln!("audit: {}", report::progress(totals, bytes, since));
        }
    });
    let took = Took { seconds: since.elapsed().as_secs_f64(), threads: asked.threads };
    if asked.json {
        print(&report::sum_json(&totals, &took, &asked.part, broken));
    }
    eprintln!("audit: {}", report::sum_line(&totals, &took));
    ExitCode::from(if broken > 0 { 2 } else { totals.stands_out() as u8 })
}

fn wrong(why: &str) -> ExitCode {
    eprintln!("audit: {why}\n\n{HELP}");
    ExitCode::from(2)
}

fn main() -> ExitCode {
    let asked = match asked(std::env::args().skip(1)) {
        Ok(asked) => asked,
        Err(why) => return wrong(&why),
    };
    if asked.help {
        let _ = std::io::stdout().write_all(HELP.as_bytes());
        return ExitCode::SUCCESS;
    }
    if asked.sum {
        return parts::run(&asked.files);
    }
    if asked.same {
        return same::run(&asked.files[0], &asked.files[1]);
    }
    match asked.league() {
        Ok(league) => audit(&asked, league),
        Err(why) => {
            eprintln!("audit: {why}");
            ExitCode::from(2)
        }
    }
}
