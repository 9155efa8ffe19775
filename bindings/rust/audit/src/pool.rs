//! One thread reads the files, so many audit, and what they find is told in the order of the files.
use poqashem::record::{Auditor, Damage, Harm, Reader, Record, Verdict};
use poqashem::{Params, Sheet};
use std::collections::BTreeMap;
use std::fs::File;
use std::io::Read;
use std::ops::Range;
use std::sync::mpsc::{channel, sync_channel, Receiver, RecvTimeoutError, Sender, SyncSender};
use std::sync::Mutex;
use std::time::Duration;

/// Rounds, or bytes of them, that are handed over at once.
const ROUNDS: usize = 64;
const BYTES: u64 = 1 << 20;
/// How long the teller waits before progress may be shown again.
const TICK: Duration = Duration::from_millis(200);

/// What is to be told at once.
pub enum Found {
    /// A round that stands out, or a stretch that is damaged.
    Finding { file: String, finding: Finding },
    /// A file that cannot be read.
    Broken { file: String, why: String },
}

/// What stands out, and why in words.
pub struct Finding {
    /// Where the round or the damage begins in the file.
    pub at: u64,
    /// The number of the round in the file, where all of the file is read, and its name.
    pub round: u64,
    pub name: Option<String>,
    pub kind: Kind,
    pub why: String,
}

pub enum Kind {
    Differs {
        call: u64,
    },
    Unplayable,
    /// Of another sheet than the league's.
    Strange,
    Damaged,
}

/// The sheets that are asked for: rounds begin with the first, and may change to any of them.
pub struct League {
    pub sheets: Vec<Sheet>,
    pub params: Option<Params>,
}

impl League {
    /// What of the record's sheets is not the league's.
    fn strange(&self, record: &Record) -> Option<String> {
        for (k, (sheet, params)) in record.sheets().iter().enumerate() {
            let ours = if k == 0 { self.sheets.first() == Some(sheet) } else { self.sheets.contains(sheet) };
            if !ours {
                return Some(format!("sheet {k} is not the one that is asked for"));
            }
            if *params != self.params {
                return Some(format!("sheet {k} has other parameters than are asked for"));
            }
        }
        None
    }
}

/// A file, and what of it: all, or the rounds that begin in these bytes.
pub type Stretch<'a> = (&'a str, Option<Range<u64>>);

/// What is audited, and how.
pub struct Work<'a> {
    pub files: Vec<Stretch<'a>>,
    pub league: Option<League>,
    pub threads: usize,
}

/// How much was done, and how much stands out.
#[derive(Clone, Default)]
pub struct Totals {
    pub rounds: u64,
    pub calls: u64,
    pub differ: u64,
    pub unplayable: u64,
    pub strange: u64,
    pub damaged: u64,
    pub bytes: u64,
}

impl Totals {
    pub fn agree(&self) -> u64 {
        self.rounds - self.differ - self.unplayable - self.strange
    }

    pub fn add(&mut self, other: &Totals) {
        self.rounds += other.rounds;
        self.calls += other.calls;
        self.differ += other.differ;
        self.unplayable += other.unplayable;
        self.strange += other.strange;
        self.damaged += other.damaged;
        self.bytes += other.bytes;
    }

    pub fn stands_out(&self) -> bool {
        self.agree() < self.rounds || self.damaged > 0
    }
}

/// A round to be audited, under its number and its first byte in the file, or what stands in its place.
enum Item {
    Round(u64, u64, Record),
    Damaged(Damage),
    Broken(String),
}

/// Items that are handed over together, numbered through all files.
struct Batch {
    number: u64,
    file: String,
    items: Vec<Item>,
    bytes: u64,
}

/// What a batch came to.
struct Done {
    number: u64,
    found: Vec<Found>,
    totals: Totals,
}

/// What stands for standard input among the files.
pub const STANDARD_INPUT: &str = "-";

fn source(name: &str) -> std::io::Result<Box<dyn Read>> {
    Ok(match name {
        STANDARD_INPUT => Box::new(std::io::stdin()),
        _ => Box::new(File::open(name)?),
    })
}

/// The files' rounds in batches, until the other side is gone.
struct Feeder {
    to: SyncSender<Batch>,
    number: u64,
}

impl Feeder {
    fn send(&mut self, file: &str, items: Vec<Item>, bytes: u64) -> Option<()> {
        self.to.send(Batch { number: self.number, file: file.to_string(), items, bytes }).ok()?;
        self.number += 1;
        Some(())
    }

    /// The rounds of a file that begin in these bytes.
    fn file(&mut self, name: &str, part: Range<u64>) -> Option<()> {
        let opened = source(name).and_then(|source| {
            let mut reader = Reader::new(source);
            reader.pass_to(part.start).map(|()| reader)
        });
        let mut reader = match opened {
            Ok(reader) => reader,
            Err(e) => return self.send(name, vec![Item::Broken(e.to_string())], 0),
        };
        let (mut items, mut rounds, mut from) = (Vec::new(), 0, reader.position());
        while reader.position() < part.end || part.is_empty() {
            let at = reader.position();
            let Some(next) = reader.next() else { break };
            items.push(match next {
                Ok(record) => Item::Round(rounds, at, record),
                Err(Damage { harm: Harm::Io(e), .. }) => Item::Broken(e.to_string()),
                Err(damage) => Item::Damaged(damage),
            });
            rounds += matches!(items.last(), Some(Item::Round(..))) as u64;
            let bytes = reader.position() - from;
            if items.len() >= ROUNDS || bytes >= BYTES {
                self.send(name, std::mem::take(&mut items), bytes)?;
                from = reader.position();
            }
        }
        self.send(name, items, reader.position() - from)
    }
}

/// One round: what stands out, and how many calls were made.
fn judged(auditor: &mut Auditor, league: Option<&League>, record: &Record) -> (u64, Option<(Kind, String)>) {
    if let Some(why) = league.and_then(|league| league.strange(record)) {
        return (0, Some((Kind::Strange, why)));
    }
    let verdict = auditor.audit(record);
    let why = verdict.to_string();
    match verdict {
        Verdict::Agrees { calls } => (calls, None),
        Verdict::Differs(first) => (first.call + 1, Some((Kind::Differs { call: first.call }, why))),
        Verdict::Unplayable(_) => (0, Some((Kind::Unplayable, why))),
    }
}

/// One batch: each round played again.
fn audited(auditor: &mut Auditor, league: Option<&League>, batch: Batch) -> Done {
    let mut totals = Totals { bytes: batch.bytes, ..Totals::default() };
    let mut found = Vec::new();
    for item in batch.items {
        let file = batch.file.clone();
        let finding = match item {
            Item::Broken(why) => {
                found.push(Found::Broken { file, why });
                continue;
            }
            Item::Damaged(damage) => {
                let why = format!("damaged: {damage}");
                Finding { at: damage.at, round: 0, name: None, kind: Kind::Damaged, why }
            }
            Item::Round(round, at, record) => {
                let (calls, outcome) = judged(auditor, league, &record);
                totals.rounds += 1;
                totals.calls += calls;
                let Some((kind, why)) = outcome else { continue };
                Finding { at, round, name: Some(record.name), kind, why }
            }
        };
        *match finding.kind {
            Kind::Differs { .. } => &mut totals.differ,
            Kind::Unplayable => &mut totals.unplayable,
            Kind::Strange => &mut totals.strange,
            Kind::Damaged => &mut totals.damaged,
        } += 1;
        found.push(Found::Finding { file, finding });
    }
    Done { number: batch.number, found, totals }
}

fn work(from: &Mutex<Receiver<Batch>>, league: Option<&League>, to: Sender<Done>) {
    let mut auditor = Auditor::new();
    loop {
        // the lock is let go before the batch is audited
        let next = from.lock().expect("no thread of the pool panics").recv();
        let Ok(batch) = next else { return };
        if to.send(audited(&mut auditor, league, batch)).is_err() {
            return;
        }
    }
}

/// Audits the files' rounds and tells each finding, in their order, with the totals so far; now and then it tells none.
pub fn run(asked: &Work, tell: &mut dyn FnMut(Option<Found>, &Totals)) -> Totals {
    let (to, batches) = sync_channel(4 * asked.threads);
    let batches = Mutex::new(batches);
    let (done, results) = channel();
    std::thread::scope(|scope| {
        scope.spawn(move || {
            let mut feeder = Feeder { to, number: 0 };
            for (file, part) in &asked.files {
                if feeder.file(file, part.clone().unwrap_or(0..u64::MAX)).is_none() {
                    return;
                }
            }
        });
        for _ in 0..asked.threads {
            let (batches, done, league) = (&batches, done.clone(), asked.league.as_ref());
            scope.spawn(move || work(batches, league, done));
        }
        drop(done);
        collect(results, tell)
    })
}

/// Results come in any order and are told in the files'.
fn collect(results: Receiver<Done>, tell: &mut dyn FnMut(Option<Found>, &Totals)) -> Totals {
    let mut totals = Totals::default();
    let mut early = BTreeMap::new();
    let mut next = 0;
    loop {
        match results.recv_timeout(TICK) {
            Ok(done) => {
                early.insert(done.number, done);
            }
            Err(RecvTimeoutError::Timeout) => {}
            Err(RecvTimeoutError::Disconnected) => return totals,
        }
        while let Some(done) = early.remove(&next) {
            next += 1;
            totals.add(&done.totals);
            done.found.into_iter().for_each(|found| tell(Some(found), &totals));
        }
        tell(None, &totals);
    }
}
