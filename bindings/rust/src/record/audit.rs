//! Making the calls of a record again.
use super::{ask, Entries, Record, Request, IDLE_ANSWER, STEP};
use crate::{raw, Params, Refusal, Round, Sheet, Step, Table, ROUND};
use std::collections::HashMap;
use std::fmt;

/// How many tables are kept, 34,816 bytes each.
const KEPT: usize = 64;
/// Steps in a row that are made by one call of `replay`, at most; and how it is asked for them, six bytes each.
const ROW: usize = 256;
const STEPS: [u8; 6 * ROW] = {
    let mut calls = [0; 6 * ROW];
    let mut k = 0;
    while k < ROW {
        calls[6 * k] = STEP;
        k += 1;
    }
    calls
};

/// What the audit of a round found.
#[derive(Clone, Debug, PartialEq, Eq)]
pub enum Verdict {
    /// The engine gives every answer that the phone had.
    Agrees {
        /// How many calls were made.
        calls: u64,
    },
    /// The engine gives another answer.
    Differs(Difference),
    /// The round cannot be played here.
    Unplayable(String),
}

/// The first call whose answer is not the one that the phone had.
#[derive(Clone, Debug, PartialEq, Eq)]
pub struct Difference {
    /// Which call, from 0, each step counted.
    pub call: u64,
    /// What was asked.
    pub request: Request,
    /// Which commit of a frame, from 0, where the answer itself is the same.
    pub commit: Option<usize>,
    /// What the phone had.
    pub phone: u64,
    /// What the engine gives.
    pub engine: u64,
}

impl fmt::Display for Difference {
    fn fmt(&self, f: &mut fmt::Formatter<'_>) -> fmt::Result {
        write!(f, "call {}, {}", self.call, self.request)?;
        if let Some(k) = self.commit {
            write!(f, ", commit {k}")?;
        }
        let said = |answer| Said(self.commit.map_or(self.request, |_| Request::Step), answer);
        write!(f, ": the phone had {}, the engine gives {}", said(self.phone), said(self.engine))
    }
}

impl fmt::Display for Verdict {
    fn fmt(&self, f: &mut fmt::Formatter<'_>) -> fmt::Result {
        match self {
            Verdict::Agrees { calls } => write!(f, "agrees in {calls} calls"),
            Verdict::Differs(first) => write!(f, "differs at {first}"),
            Verdict::Unplayable(why) => write!(f, "cannot be played: {why}"),
        }
    }
}

/// An answer in words.
struct Said(Request, u64);

impl fmt::Display for Said {
    fn fmt(&self, f: &mut fmt::Formatter<'_>) -> fmt::Result {
        let Said(request, answer) = *self;
        let refusal = u32::try_from(answer).ok().and_then(Refusal::from_number);
        match (request, refusal) {
            (Request::Step, _) => match Step::from_answer(answer) {
                Some(Ok(step)) => step.fmt(f),
                Some(Err(refusal)) => write!(f, "refusal {refusal}"),
                None => write!(f, "{answer}, no step's answer"),
            },
            (Request::Frame(..), _) => {
                write!(f, "{} steps, {} commits, end {}", answer as u32, super::commit_count(answer), answer >> 56)
            }
            (_, Some(refusal)) => write!(f, "refusal {refusal}"),
            (Request::Arrive(..) | Request::Mend(_), None) if answer == 0 => write!(f, "accepted"),
            (Request::Forecast, None) if answer >> 32 == 1 => write!(f, "{} steps", answer as u32),
            (Request::Board(..) | Request::Preview(..), None) if answer >> 32 == 1 => write!(f, "{}", answer as i32),
            _ => write!(f, "{answer}, no such call's answer"),
        }
    }
}

impl fmt::Display for Step {
    fn fmt(&self, f: &mut fmt::Formatter<'_>) -> fmt::Result {
        let about = |a: &crate::Arrival| format!("arrival {}, event {} of player {}", a.number, a.event.0, a.player.0);
        match self {
            Step::Idle => write!(f, "idle"),
            Step::Ran => write!(f, "one instruction"),
            Step::Started(a) => write!(f, "start of {}", about(a)),
            Step::Committed { arrival, over } => {
                write!(f, "commit of {}{}", about(arrival), if *over { ", run over" } else { "" })
            }
            Step::BrokeIn(a) => write!(f, "break-in of {}", about(a)),
        }
    }
}

/// Audits rounds one after the other, and keeps the tables of the sheets that it met, since many rounds have one sheet.
#[derive(Debug, Default)]
pub struct Auditor {
    tables: HashMap<(Sheet, Option<Params>), Result<Table, Refusal>>,
    commits: Vec<u8>,
    row: Row,
}

/// Steps in a row: what the phone had of each, and what the engine gives, eight bytes each.
#[derive(Debug, Default)]
struct Row {
    phone: Vec<u8>,
    engine: Vec<u8>,
}

impl Row {
    /// Makes the step that was answered so and those that follow it, up to one that was idle: how many, or which is the
    /// first that differs, and both answers. Each is made as by itself; those behind one that differs do not count.
    fn make(
        &mut self,
        first: u64,
        entries: &mut Entries,
        table: &[u8],
        round: &mut [u8],
    ) -> Result<u64, (u64, [u64; 2])> {
        self.phone.clear();
        self.phone.extend(first.to_be_bytes());
        let mut last = first;
        while last != IDLE_ANSWER && self.phone.len() < 8 * ROW {
            let Some(next) = entries.next_step() else { break };
            self.phone.extend(next.to_be_bytes());
            last = next;
        }
        let count = self.phone.len() / 8;
        self.engine.resize(8 * ROW, 0);
        let engine = &mut self.engine[..8 * count];
        raw::replay(table, round, &STEPS[..6 * count], engine);
        if *engine == self.phone[..] {
            return Ok(count as u64);
        }
        let word = |c: &[u8]| u64::from_be_bytes(c.try_into().expect("eight bytes"));
        let mut pairs = self.phone.chunks_exact(8).zip(engine.chunks_exact(8)).enumerate();
        let (k, (phone, engine)) = pairs.find(|(_, (a, b))| a != b).expect("the rows differ");
        Err((k as u64, [word(phone), word(engine)]))
    }
}

impl Auditor {
    /// With no table yet.
    pub fn new() -> Auditor {
        Auditor::default()
    }

    fn table(&mut self, k: usize, record: &Record) -> Result<Table, String> {
        let Some(own) = record.sheets().get(k) else {
            return Err(format!("the record has no sheet {k}"));
        };
        if self.tables.len() >= KEPT && !self.tables.contains_key(own) {
            self.tables.clear();
        }
        if !self.tables.contains_key(own) {
            self.tables.insert(own.clone(), own.0.compile(own.1.as_ref()));
        }
        self.tables[own].clone().map_err(|refusal| format!("sheet {k} is refused: {refusal}"))
    }

    /// Makes every call of a record again, up to the first whose answer differs.
    pub fn audit(&mut self, record: &Record) -> Verdict {
        self.replay(record).0
    }

    /// The verdict, and the round where the calls led.
    pub(super) fn replay(&mut self, record: &Record) -> (Verdict, Option<Round>) {
        match self.play(record) {
            Ok((verdict, round)) => (verdict, Some(round)),
            Err(why) => (Verdict::Unplayable(why), None),
        }
    }

    fn play(&mut self, record: &Record) -> Result<(Verdict, Round), String> {
        let own = crate::version().number();
        if record.version != own {
            let named = |v: u32| format!("{}.{}", v >> 16, v & 0xFFFF);
            return Err(format!("it is of engine {}, and this is engine {}", named(record.version), named(own)));
        }
        let mut table = self.table(0, record)?;
        let mut round = [0; ROUND];
        raw::start(table.bytes(), &mut round);
        let (mut call, mut entries) = (0, record.entries());
        while let Some(entry) = entries.next() {
            let at = |why: &dyn fmt::Display| format!("call {call}: {why}");
            let entry = entry.map_err(|why| at(&why))?;
            let (request, phone) = (entry.request, entry.answer);
            let done = match request {
                Request::Step => self.steps(call, phone, &mut entries, &table, &mut round),
                _ => {
                    let engine = self.answer(record, &mut table, &mut round, request).map_err(|why| at(&why))?;
                    match self.other_commit(&entry) {
                        _ if engine != phone => Err(Difference { call, request, commit: None, phone, engine }),
                        Some((k, [phone, engine])) => Err(Difference { call, request, commit: Some(k), phone, engine }),
                        None => Ok(1),
                    }
                }
            };
            match done {
                Ok(made) => call += made,
                Err(first) => return Ok((Verdict::Differs(first), Round::from_bytes(&table, &round))),
            }
        }
        Ok((Verdict::Agrees { calls: call }, Round::from_bytes(&table, &round)))
    }

    /// Steps in a row from this call on: how many, or the first that differs.
    fn steps(
        &mut self,
        call: u64,
        first: u64,
        entries: &mut Entries,
        table: &Table,
        round: &mut [u8],
    ) -> Result<u64, Difference> {
        match self.row.make(first, entries, table.bytes(), round) {
            // an idle step changes nothing, so the others of its run are idle too
            Ok(made) if self.row.phone.ends_with(&IDLE_ANSWER.to_be_bytes()) => Ok(made + entries.pass_run()),
            Ok(made) => Ok(made),
            Err((k, [phone, engine])) => {
                Err(Difference { call: call + k, request: Request::Step, commit: None, phone, engine })
            }
        }
    }

    /// What the engine gives; a change of sheets that it accepts changes the table. An error for a refused sheet.
    fn answer(&mut self, record: &Record, table: &mut Table, round: &mut [u8], asked: Request) -> Result<u64, String> {
        let Request::Mend(k) = asked else { return Ok(ask(table.bytes(), round, asked, &mut self.commits)) };
        let new = self.table(k as usize, record)?;
        let number = raw::mend(table.bytes(), new.bytes(), round);
        if number == 0 {
            *table = new;
        }
        Ok(number as u64)
    }

    /// The first commit of a frame that is not the phone's: which, and both.
    fn other_commit(&self, entry: &super::Entry) -> Option<(usize, [u64; 2])> {
        if entry.commits.is_empty() {
            return None;
        }
        let pairs = entry.commits.chunks_exact(8).zip(self.commits.chunks_exact(8));
        let k = pairs.clone().position(|(a, b)| a != b)?;
        let (a, b) = pairs.clone().nth(k)?;
        Some((k, [a, b].map(|c| u64::from_be_bytes(c.try_into().expect("eight bytes")))))
    }
}

/// Audits one round.
pub fn audit(record: &Record) -> Verdict {
    Auditor::new().audit(record)
}

#[cfg(test)]
mod tests {
    use super::*;
    use crate::record::Recorder;
    use crate::{Behaviour, Event, Player};

    /// A record of each kind of call.
    fn recorded() -> Record {
        let sheet = Sheet::new([1, 0, 1, 5, 3, 0, 19, 4, 0, 4, 0, 0, 0, 9, 5, 0, 9, 0, 0, 0x10, 0, 4, 0, 0, 0, 2]);
        let mut round = Recorder::start("each", sheet.clone(), None).expect("a sheet");
        for k in 0..3 {
            let _ =
                (round.arrive(Event(k), Player(k)), round.forecast(), round.preview(Event(0), Behaviour(k), Player(0)));
            (0..6).for_each(|_| assert!(round.step().is_ok()));
            let _ = (round.mend(sheet.clone(), Some(Params::default())), round.board(Behaviour(0), Player::HOST));
        }
        (0..40).for_each(|_| assert!(round.step().is_ok()));
        round.finish()
    }

    #[test]
    fn a_run_of_idle_steps() {
        let mut record = recorded();
        let calls = record.entries().count() as u64;
        assert_eq!(audit(&record), Verdict::Agrees { calls });
        record.push(Request::Arrive(Event(0), Player::HOST), 0, &[]);
        record.push(Request::Step, IDLE_ANSWER, &[]);
        let Verdict::Differs(first) = audit(&record) else { panic!("a step that is not idle") };
        assert_eq!((first.call, first.request, first.phone), (calls + 1, Request::Step, IDLE_ANSWER));
        assert!(first.to_string().contains("step: the phone had idle, the engine gives start of arrival"), "{first}");
    }

    /// The audit with each step made by itself: which call differs first, and both answers; none where a call is not of
    /// the format or a sheet is refused.
    fn one_by_one(record: &Record) -> Option<Result<u64, (u64, [u64; 2])>> {
        let mut auditor = Auditor::new();
        let mut table = auditor.table(0, record).ok()?;
        let mut round = [0; ROUND];
        raw::start(table.bytes(), &mut round);
        let mut call = 0;
        // idle runs may be of any length, and an idle step changes nothing
        for entry in record.entries().take(100_000) {
            let entry = entry.ok()?;
            let engine = auditor.answer(record, &mut table, &mut round, entry.request).ok()?;
            if engine != entry.answer {
                return Some(Err((call, [entry.answer, engine])));
            }
            if auditor.other_commit(&entry).is_some() {
                return None;
            }
            call += 1;
        }
        (call < 100_000).then_some(Ok(call))
    }

    /// Steps in a row are audited as one by one: rows of every length around that of one call of `replay`, with every
    /// answer of them changed in turn.
    #[test]
    fn steps_in_a_row() {
        let sheet = recorded().sheets()[0].0.clone();
        for length in [1, 2, 3, ROW - 1, ROW, ROW + 1, 2 * ROW + 3] {
            let mut round = Recorder::start("row", sheet.clone(), None).expect("a sheet");
            for k in 0..length {
                if k == 0 || k == length / 2 {
                    (0..60).for_each(|_| round.arrive(Event(0), Player(1)).unwrap_or_default());
                }
                round.step().expect("a step");
            }
            let record = round.finish();
            let calls = record.entries().count() as u64;
            assert_eq!(audit(&record), Verdict::Agrees { calls }, "{length} steps");
            let steps: Vec<_> = record.entries().map(|e| e.expect("an entry")).collect();
            for at in (0..steps.len()).filter(|at| steps[*at].request == Request::Step) {
                let mut other = Record::new("other", sheet.clone(), None);
                steps.iter().enumerate().for_each(|(k, e)| other.push(e.request, e.answer ^ (k == at) as u64, &[]));
                let Verdict::Differs(first) = audit(&other) else { panic!("step {at} of {length} is not noticed") };
                assert_eq!(
                    (first.call, first.phone, first.engine),
                    (at as u64, steps[at].answer ^ 1, steps[at].answer)
                );
                assert_eq!(one_by_one(&other), Some(Err((first.call, [first.phone, first.engine]))));
            }
        }
    }

    /// Bodies of any bytes, as a forger would send them with right sums: a verdict, and never a panic.
    #[test]
    fn bodies_of_any_bytes() {
        let whole = recorded().body();
        let mut state = 1u64;
        let mut draw = |n: usize| {
            state = state.wrapping_mul(6364136223846793005).wrapping_add(1442695040888963407);
            (state >> 33) as usize % n
        };
        let (mut found, version) = ([0; 4], crate::version().number());
        for _ in 0..20_000 {
            let mut body = whole.clone();
            for _ in 0..1 + draw(3) {
                let at = draw(body.len());
                match draw(4) {
                    0 => body.truncate(at + 1),
                    1 if body.len() > 1 => drop(body.remove(at)),
                    2 => body.insert(at, draw(256) as u8),
                    _ => body[at] = draw(256) as u8,
                }
            }
            let Ok(record) = Record::from_body(&body) else {
                found[0] += 1;
                continue;
            };
            let verdict = audit(&record);
            assert!(!verdict.to_string().is_empty());
            match (one_by_one(&record), &verdict) {
                (_, v) if record.version != version => assert!(matches!(v, Verdict::Unplayable(_)), "{v}"),
                (Some(Ok(calls)), v) => assert_eq!(*v, Verdict::Agrees { calls }),
                (Some(Err((call, both))), Verdict::Differs(d)) => {
                    assert_eq!((call, both), (d.call, [d.phone, d.engine]));
                }
                (Some(Err(_)), v) => panic!("{v}"),
                (None, _) => {}
            }
            found[match verdict {
                Verdict::Agrees { .. } => 1,
                Verdict::Differs(_) => 2,
                Verdict::Unplayable(_) => 3,
            }] += 1;
        }
        assert!(found.iter().all(|n| *n > 0), "each was met: {found:?}");
    }
}
