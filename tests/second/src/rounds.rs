//! Recorded rounds whose answers are the plain engine's, and the audit program on them, with differences and damage
//! planted.
use std::process::Command;

use poqashem::record::{Record, Request, Writer};
use poqashem::{Behaviour, Event, Params, Player, Sheet};

use crate::compare::{packed, Case};
use crate::engine::{self, Call, Model};
use crate::limits::{active, app, con, event, handler, name, passive};
use crate::make::{self, Rng};

/// A round of a seed as a phone would have recorded it, each answer being the model engine's: its calls, previews,
/// forecasts, frames and changes of sheets; none where its sheet is refused. `calls` is how
/// many calls there are between two changes, at least.
pub fn record(seed: u64, calls: usize) -> Option<Record> {
    let case = Case::new(seed);
    let sheet = engine::compile(&case.bytes, &case.params).ok()?;
    let params = case.params.get(..32).map(|p| Params::from_bytes(p.try_into().unwrap()));
    let r = &mut Rng::new(seed ^ 0x0D);
    let mut out = Record::new(format!("seed {seed}"), Sheet::new(case.bytes), params);
    let mut m = Model::new(sheet);
    for _ in 0..1 + r.below(3) {
        let (known, n) = (m.sheet.clone(), calls + r.below(60));
        for (k, c) in make::calls(r, &known, n).into_iter().enumerate() {
            asked(&mut out, &mut m, c);
            if k % 50 == 20 {
                besides(r, &mut out, &mut m);
            }
        }
        let other = make::near(r, &m.sheet);
        let bytes = make::encode(&other);
        if engine::compile(&bytes, &[]).is_ok() {
            let k = out.add_sheet(Sheet::new(bytes), None);
            out.push(Request::Mend(k), m.change(&other) as u64, &[]);
        }
    }
    Some(out)
}

fn asked(out: &mut Record, m: &mut Model, c: Call) {
    let request = match c {
        Call::Arrive(e, who) => Request::Arrive(Event(e), Player(who)),
        Call::Step => Request::Step,
        Call::Board(i, who) => Request::Board(Behaviour(i), Player(who)),
    };
    out.push(request, packed(m.call(c)), &[]);
}

/// A forecast, a preview and a frame.
fn besides(r: &mut Rng, out: &mut Record, m: &mut Model) {
    out.push(Request::Forecast, (1 << 32) + m.forecast() as u64, &[]);
    let (e, i, who) = (r.below(m.code.len() + 1) as u32, r.below(m.board.len() + 1) as u32, make::player(r));
    out.push(Request::Preview(Event(e), Behaviour(i), Player(who)), packed(m.preview(e, i, who)), &[]);
    let (steps, room) = (r.below(60) as u32, r.below(4) as u32);
    let (made, commits, why) = m.frame(steps, room as usize);
    let bytes: Vec<u8> = commits.iter().flat_map(|a| packed(*a).to_be_bytes()).collect();
    out.push(Request::Frame(steps, room), why << 56 | (commits.len() as u64) << 32 | made as u64, &bytes);
}

/// The rounds of so many seeds, to a file.
pub fn write(file: &str, first: u64, count: u64) {
    let out = std::fs::File::create(file).expect("the file");
    let mut out = Writer::new(std::io::BufWriter::new(out)).expect("the file");
    let (mut rounds, mut calls) = (0, 0);
    for record in (first..first + count).filter_map(|seed| record(seed, 200)) {
        out.write(&record).expect("the file");
        rounds += 1;
        calls += record.entries().count();
    }
    println!("{rounds} rounds of {calls} calls");
}

/// A league's sheet: eight cells that two moves change, their sum, a flag, a count of bonuses, and what time-up keeps.
fn league_sheet() -> Vec<u8> {
    let events = [1, 1, 2, 3].map(event).concat();
    let cell = |i: u8| {
        let grow = app(4, &[name(i), con(i as i32 + 1)]);
        active(i as i32, &[handler(0, 0, &grow), handler(1, 1, &name((i + 1) % 8))])
    };
    let sum = (1..8).fold(name(0), |e, i| app(4, &[e, name(i)]));
    let rest = [
        passive(&sum),
        passive(&app(14, &[app(8, &[name(8), con(1000)]), con(1), con(0)])),
        active(0, &[handler(2, 0, &app(4, &[name(10), con(1)]))]),
        active(0, &[handler(3, 0, &app(4, &[name(8), name(10)]))]),
    ];
    [events, (0..8).map(cell).collect::<Vec<_>>().concat(), rest.concat()].concat()
}

/// So many rounds of so many calls on the league's sheet: of each hundred calls one is an arrival, one a board reading,
/// the others are steps. For measuring the audit.
pub fn league(file: &str, rounds: u64, calls: u64) {
    let bytes = league_sheet();
    let sheet = engine::compile(&bytes, &[]).expect("the league's sheet");
    let out = std::fs::File::create(file).expect("the file");
    let mut out = Writer::new(std::io::BufWriter::new(out)).expect("the file");
    let r = &mut Rng::new(7);
    for k in 0..rounds {
        let mut record = Record::new(format!("round {k}"), Sheet::new(&bytes[..]), None);
        let mut m = Model::new(sheet.clone());
        for call in 0..calls {
            let c = match call % 100 {
                0 => Call::Arrive(r.below(4) as u32, r.below(8) as u32),
                50 => Call::Board(r.below(12) as u32, r.below(8) as u32),
                _ => Call::Step,
            };
            asked(&mut record, &mut m, c);
        }
        out.write(&record).expect("the file");
    }
    let lengths: Vec<usize> = (0..4).map(|e| sheet.count(e)).collect();
    println!(
        "{rounds} rounds of {calls} calls on a sheet of {} bytes, whose events have {lengths:?} instructions",
        bytes.len()
    );
}

/// The record with another answer at one call, drawn among all: which call.
fn planted(r: &mut Rng, record: &Record) -> (Record, usize) {
    let entries: Vec<_> = record.entries().map(|e| e.expect("an entry")).collect();
    let at = r.below(entries.len());
    let (sheet, params) = record.sheets()[0].clone();
    let mut out = Record::new(record.name.clone(), sheet, params);
    for (s, p) in &record.sheets()[1..] {
        out.add_sheet(s.clone(), *p);
    }
    for (k, e) in entries.iter().enumerate() {
        // a bit that does not say how many commits follow
        let (bit, mut commits) = ([0, 1, 8, 17, 56, 63][r.below(6)], e.commits.to_vec());
        let hit_commit = k == at && !commits.is_empty() && r.one_in(2);
        if hit_commit {
            let n = commits.len();
            commits[n - 1] ^= 16;
        }
        out.push(e.request, if k == at && !hit_commit { e.answer ^ 1 << bit } else { e.answer }, &commits);
    }
    (out, at)
}

/// The audit program on a file: what it printed, what it said besides, and how it ended.
fn audit(program: &str, words: &[&str]) -> (Vec<String>, String, i32) {
    let done = Command::new(program).args(words).output().unwrap_or_else(|e| panic!("{program}: {e}"));
    let lines = String::from_utf8(done.stdout).unwrap().lines().map(str::to_string).collect();
    (lines, String::from_utf8(done.stderr).unwrap(), done.status.code().unwrap_or(-1))
}

/// What is done to a round in the file.
#[derive(Clone, Copy, PartialEq)]
enum Plant {
    None,
    Difference(usize),
    Damage,
}

/// One round's bytes with a byte changed, left out or put in, or several left out, in its body or its head.
fn damaged(r: &mut Rng, mut bytes: Vec<u8>) -> Vec<u8> {
    let at = if r.one_in(3) { r.below(16) } else { r.below(bytes.len()) };
    match r.below(4) {
        0 => bytes[at] ^= 1 << r.below(8),
        1 => drop(bytes.remove(at)),
        2 => bytes.insert(at.max(1), bytes[at] ^ 0xFF),
        _ => drop(bytes.drain(at..(at + 1 + r.below(200)).min(bytes.len()))),
    }
    bytes
}

/// One round of a file as it stands there, and what was done to it.
fn plant(r: &mut Rng, record: &Record, may: bool) -> (Vec<u8>, Plant) {
    let whole = |record: &Record| record.to_bytes().unwrap();
    match r.below(3) {
        0 if may => (damaged(r, whole(record)), Plant::Damage),
        1 if may => {
            let (other, at) = planted(r, record);
            (whole(&other), Plant::Difference(at))
        }
        _ => (whole(record), Plant::None),
    }
}

/// A file of rounds with plants among them, none next to another; the audit's lines must be these plants, in order. How
/// many differences and damages there were.
fn with_plants(program: &str, file: &str, records: &[Record], r: &mut Rng) -> [usize; 2] {
    let mut bytes = Writer::new(vec![]).unwrap().into_inner();
    let (mut want, mut read, mut found) = (vec![], 0, [0, 0]);
    for (k, record) in records.iter().enumerate() {
        let (own, plant) = plant(r, record, k % 3 == 1);
        bytes.extend(own);
        read += (plant != Plant::Damage) as usize;
        match plant {
            Plant::None => continue,
            Plant::Damage => want.push(format!("{file}: damaged: ")),
            Plant::Difference(at) => {
                want.push(format!("{file}: round {}, {:?}, differs at call {at}, ", read - 1, record.name))
            }
        }
        found[(plant == Plant::Damage) as usize] += 1;
    }
    std::fs::write(file, &bytes).expect("the file");
    let (lines, said, ended) = audit(program, &["--every", "0", file]);
    assert_eq!(lines.len(), want.len(), "as many lines as plants: {lines:#?}");
    for (line, want) in lines.iter().zip(&want) {
        assert!(line.starts_with(want), "the audit printed '{line}', not '{want}..'");
    }
    assert_eq!(ended, (found != [0, 0]) as i32, "how the audit ended");
    let sum = said.lines().last().unwrap_or_default();
    let stand_out = format!("{} differ, 0 cannot be played; {} damaged stretch", found[0], found[1]);
    assert!(sum.starts_with(&format!("audit: {read} round")), "every other round is audited: {sum}");
    assert!(sum.contains(&stand_out), "the sum: {sum}");
    assert!(said.contains("% of the bytes"), "progress is shown: {said}");
    found
}

/// Rounds that agree, rounds with plants, a file cut at many places, a record of another version, a refused sheet, and
/// files that are none.
pub fn run(program: &str, folder: &str, seeds: u64) {
    std::fs::create_dir_all(folder).expect("the folder");
    let at = |name: &str| format!("{folder}/{name}");
    let records: Vec<Record> = (1..=seeds).filter_map(|seed| record(seed, 60)).collect();
    let (clean, planted_in) = (at("clean.rounds"), at("planted.rounds"));
    write_all(&clean, &records);
    let calls: usize = records.iter().map(|r| r.entries().count()).sum();
    for threads in ["1", "2", "7"] {
        let (lines, said, ended) = audit(program, &["--threads", threads, &clean]);
        assert_eq!((lines.len(), ended), (0, 0), "the plain engine's answers: {lines:?} {said}");
    }
    let r = &mut Rng::new(seeds);
    let mut found = [0, 0];
    for _ in 0..12 {
        let more = with_plants(program, &planted_in, &records, r);
        found = [found[0] + more[0], found[1] + more[1]];
    }
    assert!(found[0] > 0 && found[1] > 0, "some of each were planted");
    cuts(program, &at("cut.rounds"), &clean, &records, r);
    strangers(program, &at("strange.rounds"), &clean, &records[0]);
    println!(
        "audit: {} rounds of {calls} calls; planted and found {} differences, {} damages",
        records.len(),
        found[0],
        found[1]
    );
}

fn write_all(file: &str, records: &[Record]) {
    let mut out = Writer::new(vec![]).unwrap();
    records.iter().for_each(|record| out.write(record).unwrap());
    std::fs::write(file, out.into_inner()).expect("the file");
}

/// A file that ends too early: the rounds before the cut are audited, and the cut is told.
fn cuts(program: &str, file: &str, clean: &str, records: &[Record], r: &mut Rng) {
    let bytes = std::fs::read(clean).expect("the file");
    let ends: Vec<usize> = records
        .iter()
        .scan(16, |at, record| {
            *at += record.to_bytes().unwrap().len();
            Some(*at)
        })
        .collect();
    for _ in 0..8 {
        let cut = 17 + r.below(bytes.len() - 17);
        std::fs::write(file, &bytes[..cut]).expect("the file");
        let (lines, said, ended) = audit(program, &["--quiet", file]);
        let whole = ends.iter().filter(|e| **e <= cut).count();
        let torn = (!ends.contains(&cut) && cut > 16) as usize;
        assert_eq!((lines.len(), ended), (torn, torn as i32), "cut at {cut}: {lines:?}");
        assert!(said.starts_with(&format!("audit: {whole} round")), "cut at {cut}: {said}");
    }
}

/// What cannot be played, and what is no file of rounds.
fn strangers(program: &str, file: &str, clean: &str, record: &Record) {
    let mut newer = record.clone();
    newer.version += 1;
    let refused = Record::new("refused", Sheet::new([1, 0]), None);
    write_all(file, &[newer, refused, record.clone()]);
    let (lines, said, ended) = audit(program, &[file]);
    assert_eq!((lines.len(), ended), (2, 1), "{lines:?}");
    assert!(lines[0].contains("cannot be played: it is of engine"), "{lines:?}");
    assert!(lines[1].contains("cannot be played: sheet 0 is refused: torn (4)"), "{lines:?}");
    assert!(said.contains("1 agree"), "{said}");
    std::fs::write(file, b"not a file of rounds at all").expect("the file");
    let (lines, _, ended) = audit(program, &[file, clean]);
    assert_eq!((lines.len(), ended), (1, 1), "{lines:?}");
    assert!(lines[0].contains("does not begin as a file of recorded rounds"), "{lines:?}");
    let (_, said, ended) = audit(program, &["no such file", clean]);
    assert!(ended == 2 && said.contains("no such file"), "{said}");
    assert_eq!(audit(program, &[]).2, 2, "no file is named");
    assert_eq!(audit(program, &["--threads"]).2, 2, "no number");
}
