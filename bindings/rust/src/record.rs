//! Recorded rounds: what a phone asked of the engine and what it was answered, to be audited later.
//!
//! An app plays through a [`Recorder`] and writes the [`Record`] to a file by a [`Writer`]. The audit reads the file by
//! a [`Reader`], makes the same calls again by an [`Auditor`] and tells the first answer that differs. Rounds are
//! independent of each other: any number of them may be audited at the same time, in any order, on any machine.
//!
//! ```
//! use poqashem::record::{Auditor, Reader, Recorder, Verdict, Writer};
//! use poqashem::{Behaviour, Event, Player, Refusal, Sheet};
//!
//! let sheet = Sheet::new([1, 0, 1, 5, 3, 0, 7, 4, 0, 4, 0, 0, 0, 9]); // an event, and b0 that starts at 9
//! let mut round = Recorder::start("final, table 3", sheet, None)?;
//! round.arrive(Event(0), Player(1))?;
//! round.step()?;
//! assert_eq!(round.board(Behaviour(0), Player(2)), Ok(9));
//! assert_eq!(round.arrive(Event(1), Player(1)), Err(Refusal::NoSuchEvent));
//!
//! let mut file = Writer::new(Vec::new())?;
//! file.write(&round.finish())?;
//!
//! let mut auditor = Auditor::new();
//! for record in Reader::new(&file.into_inner()[..]) {
//!     let record = record?; // or what is damaged, and where
//!     assert_eq!(record.name, "final, table 3");
//!     assert_eq!(auditor.audit(&record), Verdict::Agrees { calls: 4 });
//! }
//! # Ok::<(), Box<dyn std::error::Error>>(())
//! ```
//!
//! # The file
//!
//! The 16 bytes `engine rounds 1` and a line feed, then rounds one after the other. Numbers are big-endian. Files may
//! be put one behind the other.
//!
//! | part of a round | bytes | |
//! |---|---|---|
//! | marker | 4 | F5 52 4E 44, hexadecimal |
//! | length | 4 | of the body |
//! | sum of the body | 4 | CRC-32 as zip and PNG have it |
//! | sum of the head | 4 | CRC-32 of the twelve bytes before it |
//! | body | length | |
//!
//! Where a body is damaged the reader goes on behind it; where a head is damaged, or bytes are missing or too many, it
//! looks for the next head that is whole. So damage costs the rounds that it hits and no other. The sums find
//! accidents, not forgery: who may not be trusted signs the file.
//!
//! | part of a body | bytes | |
//! |---|---|---|
//! | version | 4 | of the engine: the interface times 65,536, and the layout |
//! | name | 2, and as many | UTF-8, for people |
//! | sheets | 2, and each | the first, and those that it is changed to: see below |
//! | calls | the rest | each its kind, what it was asked with, and the answer of 8 |
//!
//! A sheet is a byte 0, or 1 and 32 bytes of parameters; then its length of 4, and its bytes. An answer is the number
//! that the engine gave, packed as its header has it.
//!
//! | kind | call | asked with |
//! |---|---|---|
//! | 0 | arrival | event 4, player 4 |
//! | 1 | step | |
//! | 2 | board reading | behaviour 4, player 4 |
//! | 3 | forecast | |
//! | 4 | preview | event 4, behaviour 4, player 4 |
//! | 5 | change of sheets | which of the sheets 2, from 0 |
//! | 6 | frame | steps 4, room for commits 4; behind the answer 8 for each commit that it counts |
//! | 7 | so many steps, each answered by 1, one instruction | how many 4; no answer stands behind it |
//! | 8 | so many steps, each answered by 0, idle | how many 4; no answer stands behind it |
mod audit;
mod file;
mod same;

pub use audit::{audit, Auditor, Difference, Verdict};
pub use file::{Damage, Harm, Reader, Writer};
pub use same::{moves, parting, Change, Moves, Parting};

use crate::round::commit_bytes;
use crate::deliver::{self, Delivered, NotThere};
use crate::{raw, Behaviour, Event, Params, Player, Refusal, Round, Sheet, Step, Table};
use std::fmt;

const ARRIVE: u8 = 0;
const STEP: u8 = 1;
const BOARD: u8 = 2;
const FORECAST: u8 = 3;
const PREVIEW: u8 = 4;
const MEND: u8 = 5;
const FRAME: u8 = 6;
const RAN: u8 = 7;
const IDLE: u8 = 8;

/// What a step is answered that ran one instruction, and one that found the round idle.
const RAN_ANSWER: u64 = 1;
const IDLE_ANSWER: u64 = 0;

/// What the engine was asked.
#[derive(Clone, Copy, Debug, PartialEq, Eq, Hash)]
pub enum Request {
    /// [`Round::arrive`]
    Arrive(Event, Player),
    /// [`Round::step`]
    Step,
    /// [`Round::board`]
    Board(Behaviour, Player),
    /// [`Round::forecast`]
    Forecast,
    /// [`Round::preview`]
    Preview(Event, Behaviour, Player),
    /// [`Round::mend`], to one of the record's sheets.
    Mend(u16),
    /// A frame of up to so many steps, with room for so many commits.
    Frame(u32, u32),
}

impl fmt::Display for Request {
    fn fmt(&self, f: &mut fmt::Formatter<'_>) -> fmt::Result {
        match self {
            Request::Arrive(e, who) => write!(f, "arrival of event {} by player {}", e.0, who.0),
            Request::Step => write!(f, "step"),
            Request::Board(b, who) => write!(f, "board reading of b{} by player {}", b.0, who.0),
            Request::Forecast => write!(f, "forecast"),
            Request::Preview(e, b, who) => write!(f, "preview of event {} and b{} by player {}", e.0, b.0, who.0),
            Request::Mend(k) => write!(f, "change to sheet {k}"),
            Request::Frame(steps, room) => write!(f, "frame of {steps} steps with room for {room} commits"),
        }
    }
}

/// A request, the answer as it was packed, and the commits that a frame wrote, eight bytes each.
#[derive(Clone, Copy, Debug, PartialEq, Eq)]
pub struct Entry<'a> {
    /// What was asked.
    pub request: Request,
    /// The answer.
    pub answer: u64,
    /// Of a frame alone.
    pub commits: &'a [u8],
}

/// A round as it was played.
#[derive(Clone, Debug, PartialEq, Eq)]
pub struct Record {
    /// For people: which round this is.
    pub name: String,
    /// Of the engine that answered.
    pub version: u32,
    sheets: Vec<(Sheet, Option<Params>)>,
    calls: Vec<u8>,
    /// Where the last call stands, if it is a run of steps that can grow.
    run: Option<usize>,
}

/// A body that is whole but is not one of this format.
#[derive(Clone, Debug, PartialEq, Eq)]
pub struct Malformed(pub &'static str);

impl fmt::Display for Malformed {
    fn fmt(&self, f: &mut fmt::Formatter<'_>) -> fmt::Result {
        f.write_str(self.0)
    }
}

impl std::error::Error for Malformed {}

/// The front of the bytes, taken off.
fn take<'a>(bytes: &mut &'a [u8], n: usize) -> Result<&'a [u8], Malformed> {
    if bytes.len() < n {
        return Err(Malformed("a part of the round is not whole"));
    }
    let (front, rest) = bytes.split_at(n);
    *bytes = rest;
    Ok(front)
}

fn take_u8(bytes: &mut &[u8]) -> Result<u8, Malformed> {
    Ok(take(bytes, 1)?[0])
}

fn take_u16(bytes: &mut &[u8]) -> Result<u16, Malformed> {
    Ok(u16::from_be_bytes(take(bytes, 2)?.try_into().expect("two bytes")))
}

fn take_u32(bytes: &mut &[u8]) -> Result<u32, Malformed> {
    Ok(u32::from_be_bytes(take(bytes, 4)?.try_into().expect("four bytes")))
}

fn take_u64(bytes: &mut &[u8]) -> Result<u64, Malformed> {
    Ok(u64::from_be_bytes(take(bytes, 8)?.try_into().expect("eight bytes")))
}

/// Commits that a frame's answer counts.
fn commit_count(answer: u64) -> usize {
    (answer >> 32 & 0xFF_FFFF) as usize
}

impl Record {
    /// A round of a sheet and its parameters, with no call yet, answered by this archive's engine. For what was played
    /// elsewhere; an app plays through a [`Recorder`].
    pub fn new(name: impl Into<String>, sheet: Sheet, params: Option<Params>) -> Record {
        let sheets = vec![(sheet, params)];
        Record { name: name.into(), version: crate::version().number(), sheets, calls: vec![], run: None }
    }

    /// The sheets in their order, the first being the one that the round began with.
    pub fn sheets(&self) -> &[(Sheet, Option<Params>)] {
        &self.sheets
    }

    /// A further sheet that the round may be changed to: its number.
    pub fn add_sheet(&mut self, sheet: Sheet, params: Option<Params>) -> u16 {
        let number = self.sheets.len();
        assert!(number < u16::MAX as usize, "a record holds at most 65,535 sheets");
        self.sheets.push((sheet, params));
        number as u16
    }

    /// One more call and its answer, packed as the engine's header has it; the commits of a frame, eight bytes each, as
    /// many as its answer counts.
    pub fn push(&mut self, request: Request, answer: u64, commits: &[u8]) {
        match (request, answer) {
            (Request::Step, RAN_ANSWER) => return self.push_run(RAN),
            (Request::Step, IDLE_ANSWER) => return self.push_run(IDLE),
            _ => {}
        }
        self.run = None;
        let put = |out: &mut Vec<u8>, kind: u8, numbers: &[u32]| {
            out.push(kind);
            numbers.iter().for_each(|n| out.extend(n.to_be_bytes()));
        };
        let out = &mut self.calls;
        match request {
            Request::Arrive(event, player) => put(out, ARRIVE, &[event.0, player.0]),
            Request::Step => put(out, STEP, &[]),
            Request::Board(behaviour, player) => put(out, BOARD, &[behaviour.0, player.0]),
            Request::Forecast => put(out, FORECAST, &[]),
            Request::Preview(event, behaviour, player) => put(out, PREVIEW, &[event.0, behaviour.0, player.0]),
            Request::Mend(sheet) => {
                put(out, MEND, &[]);
                out.extend(sheet.to_be_bytes());
            }
            Request::Frame(steps, room) => put(out, FRAME, &[steps, room]),
        }
        out.extend(answer.to_be_bytes());
        if matches!(request, Request::Frame(..)) {
            assert_eq!(commits.len(), 8 * commit_count(answer), "eight bytes for each commit of a frame");
            out.extend(commits);
        }
    }

    /// A step of a kind that comes in runs: it joins those of its kind before it.
    fn push_run(&mut self, kind: u8) {
        if let Some(at) = self.run.filter(|at| self.calls[*at] == kind) {
            let count = u32::from_be_bytes(self.calls[at + 1..at + 5].try_into().expect("four bytes"));
            if count < u32::MAX {
                self.calls[at + 1..at + 5].copy_from_slice(&(count + 1).to_be_bytes());
                return;
            }
        }
        self.run = Some(self.calls.len());
        self.calls.push(kind);
        self.calls.extend(1u32.to_be_bytes());
    }

    /// The calls in their order.
    pub fn entries(&self) -> Entries<'_> {
        Entries { bytes: &self.calls, run: 0, ran: IDLE_ANSWER }
    }

    /// The bytes of its body.
    pub fn body(&self) -> Vec<u8> {
        let mut out = self.version.to_be_bytes().to_vec();
        let mut end = self.name.len().min(u16::MAX as usize);
        while !self.name.is_char_boundary(end) {
            end -= 1;
        }
        out.extend((end as u16).to_be_bytes());
        out.extend(&self.name.as_bytes()[..end]);
        out.extend((self.sheets.len() as u16).to_be_bytes());
        for (sheet, params) in &self.sheets {
            out.push(params.is_some() as u8);
            params.iter().for_each(|p| out.extend(p.bytes()));
            out.extend((sheet.bytes().len() as u32).to_be_bytes());
            out.extend(sheet.bytes());
        }
        out.extend(&self.calls);
        out
    }

    /// A record from the bytes of its body. Its calls are looked at when they are asked for.
    pub fn from_body(mut body: &[u8]) -> Result<Record, Malformed> {
        let body = &mut body;
        let version = take_u32(body)?;
        let length = take_u16(body)?;
        let name = std::str::from_utf8(take(body, length as usize)?).map_err(|_| Malformed("the name is not UTF-8"))?;
        let count = take_u16(body)?;
        if count == 0 {
            return Err(Malformed("the round has no sheet"));
        }
        let mut sheets = Vec::new();
        for _ in 0..count {
            let params = match take_u8(body)? {
                0 => None,
                1 => Some(Params::from_bytes(take(body, crate::PARAMS)?.try_into().expect("32 bytes"))),
                _ => return Err(Malformed("a sheet's parameters are neither none nor 32 bytes")),
            };
            let length = take_u32(body)?;
            sheets.push((Sheet::from(take(body, length as usize)?), params));
        }
        Ok(Record { name: name.to_string(), version, sheets, calls: body.to_vec(), run: None })
    }
}

/// The calls of a record, each step by itself. After a call that is not of the format there is none.
#[derive(Clone, Debug)]
pub struct Entries<'a> {
    bytes: &'a [u8],
    /// Steps left of a run, and what each is answered.
    run: u32,
    ran: u64,
}

impl<'a> Entries<'a> {
    /// Passes over the rest of a run: how many steps.
    fn pass_run(&mut self) -> u64 {
        std::mem::take(&mut self.run) as u64
    }

    /// The answer of the next call where that is a step, and passes it; else nothing is passed.
    fn next_step(&mut self) -> Option<u64> {
        if self.run == 0 && !matches!(self.bytes.first(), Some(&(STEP | RAN | IDLE))) {
            return None;
        }
        let mut ahead = self.clone();
        let answer = ahead.read().ok()?.answer;
        *self = ahead;
        Some(answer)
    }

    fn read(&mut self) -> Result<Entry<'a>, Malformed> {
        let step = |answer: u64| Entry { request: Request::Step, answer, commits: &[] };
        if self.run > 0 {
            self.run -= 1;
            return Ok(step(self.ran));
        }
        let bytes = &mut self.bytes;
        let request = match take_u8(bytes)? {
            ARRIVE => Request::Arrive(Event(take_u32(bytes)?), Player(take_u32(bytes)?)),
            STEP => Request::Step,
            BOARD => Request::Board(Behaviour(take_u32(bytes)?), Player(take_u32(bytes)?)),
            FORECAST => Request::Forecast,
            PREVIEW => Request::Preview(Event(take_u32(bytes)?), Behaviour(take_u32(bytes)?), Player(take_u32(bytes)?)),
            MEND => Request::Mend(take_u16(bytes)?),
            FRAME => Request::Frame(take_u32(bytes)?, take_u32(bytes)?),
            kind @ (RAN | IDLE) => {
                self.run = take_u32(bytes)?.checked_sub(1).ok_or(Malformed("a run of no steps"))?;
                self.ran = if kind == RAN { RAN_ANSWER } else { IDLE_ANSWER };
                return Ok(step(self.ran));
            }
            _ => return Err(Malformed("a call of no known kind")),
        };
        let answer = take_u64(bytes)?;
        let commits = match request {
            Request::Frame(..) => take(bytes, 8 * commit_count(answer))?,
            _ => &[],
        };
        Ok(Entry { request, answer, commits })
    }
}

impl<'a> Iterator for Entries<'a> {
    type Item = Result<Entry<'a>, Malformed>;

    fn next(&mut self) -> Option<Self::Item> {
        if self.run == 0 && self.bytes.is_empty() {
            return None;
        }
        let entry = self.read();
        if entry.is_err() {
            *self = Entries { bytes: &[], run: 0, ran: IDLE_ANSWER };
        }
        Some(entry)
    }
}

/// A round whose calls are recorded as they are made. Each call is that of [`Round`].
#[derive(Clone, Debug)]
pub struct Recorder {
    record: Record,
    round: Round,
}

impl Recorder {
    /// Compiles the sheet and starts a round of it.
    pub fn start(name: impl Into<String>, sheet: Sheet, params: Option<Params>) -> Result<Recorder, Refusal> {
        let round = sheet.compile(params.as_ref())?.start()?;
        Ok(Recorder { record: Record::new(name, sheet, params), round })
    }

    /// Goes on with a record that was saved: every call is made again, and the round goes on where it stopped. Where an
    /// answer differs, the verdict.
    pub fn resume(record: Record) -> Result<Recorder, Verdict> {
        let (verdict, round) = Auditor::new().replay(&record);
        match (verdict, round) {
            (Verdict::Agrees { .. }, Some(round)) => Ok(Recorder { record, round }),
            (verdict, _) => Err(verdict),
        }
    }

    /// The round as it stands.
    pub fn round(&self) -> &Round {
        &self.round
    }

    /// What was recorded so far.
    pub fn record(&self) -> &Record {
        &self.record
    }

    /// The record of the round.
    pub fn finish(self) -> Record {
        self.record
    }

    /// [`Round::arrive`]
    pub fn arrive(&mut self, event: Event, player: Player) -> Result<(), Refusal> {
        let done = self.round.arrive(event, player);
        self.record.push(Request::Arrive(event, player), number(done), &[]);
        done
    }

    /// [`Round::step`]
    pub fn step(&mut self) -> Result<Step, Refusal> {
        let done = self.round.step();
        self.record.push(Request::Step, done.map_or_else(|r| r.number() as u64, Step::answer), &[]);
        done
    }

    /// [`Round::board`]
    pub fn board(&mut self, behaviour: Behaviour, player: Player) -> Result<i32, Refusal> {
        let done = self.round.board(behaviour, player);
        self.record.push(Request::Board(behaviour, player), word(done), &[]);
        done
    }

    /// [`Round::forecast`]
    pub fn forecast(&mut self) -> Result<u32, Refusal> {
        let done = self.round.forecast();
        self.record.push(Request::Forecast, word(done.map(|n| n as i32)), &[]);
        done
    }

    /// [`Round::preview`]
    pub fn preview(&mut self, event: Event, behaviour: Behaviour, player: Player) -> Result<i32, Refusal> {
        let done = self.round.preview(event, behaviour, player);
        self.record.push(Request::Preview(event, behaviour, player), word(done), &[]);
        done
    }

    /// Compiles a sheet and goes on under it by [`Round::mend`]. A sheet that compile refuses is not recorded.
    pub fn mend(&mut self, sheet: Sheet, params: Option<Params>) -> Result<(), Refusal> {
        let table: Table = sheet.compile(params.as_ref())?;
        let done = self.round.mend(&table);
        let at = self.record.sheets.iter().position(|own| *own == (sheet.clone(), params));
        let k = at.map_or_else(|| self.record.add_sheet(sheet, params), |k| k as u16);
        self.record.push(Request::Mend(k), number(done), &[]);
        done
    }

    /// [`Round::deliver`], recorded as what it is proved to be: a frame of the steps that it made, with room for their
    /// one commit, and the arrival. What is refused by 43 or 44 did nothing and is not recorded.
    ///
    /// ```
    /// use poqashem::record::{audit, Recorder, Verdict};
    /// use poqashem::{Event, Player, Refusal, Sheet};
    /// let mut round = Recorder::start("crowd", Sheet::new([1, 0, 1, 5]), None)?;
    /// for number in 0..100 {
    ///     round.deliver(number, Event(0), Player(1))?;
    /// }
    /// assert_eq!(round.deliver(3, Event(0), Player(1)), Err(Refusal::TakenBefore));
    /// assert_eq!(audit(&round.finish()), Verdict::Agrees { calls: 100 + 36 }, "36 made room for themselves");
    /// # Ok::<(), Refusal>(())
    /// ```
    pub fn deliver(&mut self, number: u32, event: Event, player: Player) -> Result<Delivered, Refusal> {
        let done = self.round.deliver(number, event, player);
        let arrival = Request::Arrive(event, player);
        match done {
            Ok(Delivered { steps, commit }) => {
                if let Some(commit) = commit {
                    self.record.push(Request::Frame(steps, 1), 1 << 32 | steps as u64, &commit.answer().to_be_bytes());
                }
                self.record.push(arrival, 0, &[]);
            }
            Err(refusal @ (Refusal::NoPlayer | Refusal::NoSuchEvent | Refusal::NoRight)) => {
                self.record.push(arrival, refusal.number() as u64, &[]);
            }
            Err(_) => {}
        }
        done
    }

    /// [`Round::run_to_idle`]
    pub fn run_to_idle(&mut self) -> Result<Vec<Step>, Refusal> {
        let mut all = Vec::new();
        loop {
            let crate::Frame { commits, ended, .. } = self.frame(deliver::STEPS, deliver::STEPS);
            all.extend(commits);
            match ended {
                crate::Ended::Idle => return Ok(all),
                crate::Ended::Refused => return Err(Refusal::Foreign),
                crate::Ended::Made | crate::Ended::Full => {}
            }
        }
    }

    /// [`Round::mend_after`], to a sheet that is compiled first.
    pub fn mend_after(&mut self, number: u32, sheet: Sheet, params: Option<Params>) -> Result<Vec<Step>, NotThere> {
        self.round.at_number(number)?;
        let commits = self.run_to_idle()?;
        self.mend(sheet, params)?;
        Ok(commits)
    }

    /// [`Round::board_after`]
    pub fn board_after(&mut self, number: u32, player: Player) -> Result<(Vec<Option<i32>>, Vec<Step>), NotThere> {
        self.round.at_number(number)?;
        let commits = self.run_to_idle()?;
        let (board, _) = self.round.board_after(number, player)?;
        for (b, value) in board.iter().enumerate() {
            let answer = value.map_or(Refusal::NoRight.number() as u64, |v| word(Ok(v)));
            self.record.push(Request::Board(Behaviour(b as u32), player), answer, &[]);
        }
        Ok((board, commits))
    }

    /// [`Round::frame`]
    pub fn frame(&mut self, steps: u32, room: u32) -> crate::Frame {
        let done = self.round.frame(steps, room as usize);
        let why = match done.ended {
            crate::Ended::Made => 0,
            crate::Ended::Idle => 1,
            crate::Ended::Refused => 2,
            crate::Ended::Full => 3u64,
        };
        let commits: Vec<u8> = done.commits.iter().flat_map(|c| c.answer().to_be_bytes()).collect();
        let answer = why << 56 | (done.commits.len() as u64) << 32 | done.steps as u64;
        self.record.push(Request::Frame(steps, room), answer, &commits);
        done
    }
}

/// The number that the call answered: 0, or the refusal's.
fn number(done: Result<(), Refusal>) -> u64 {
    done.map_or_else(|r| r.number() as u64, |()| 0)
}

/// The number that the call answered: 2^32 and a word, or the refusal's.
fn word(done: Result<i32, Refusal>) -> u64 {
    done.map_or_else(|r| r.number() as u64, |v| 1 << 32 | v as u32 as u64)
}

/// The answer of one request on a table and a round's bytes; a frame's commits go to `commits`. A change of sheets
/// needs a further table and is none of these.
fn ask(table: &[u8], round: &mut [u8], request: Request, commits: &mut Vec<u8>) -> u64 {
    match request {
        Request::Arrive(event, player) => raw::arrive(table, round, event.0, player.0) as u64,
        Request::Step => raw::step(table, round),
        Request::Board(behaviour, player) => raw::board(table, round, behaviour.0, player.0),
        Request::Forecast => raw::forecast(table, round),
        Request::Preview(event, behaviour, player) => raw::preview(table, round, event.0, behaviour.0, player.0),
        Request::Mend(_) => unreachable!("a change of sheets is made with both tables"),
        Request::Frame(steps, room) => {
            commits.clear();
            commits.resize(commit_bytes(room as usize), 0);
            let answer = raw::frame(table, round, steps, commits);
            commits.truncate(8 * commit_count(answer));
            answer
        }
    }
}
