//! A record of calls with their answers and bytes, for the engine on other processors. It is made by the proved engine
//! on this one, from the seeds that `compare` holds it to; tests/targets replays it.
//!
//! The file: a line `NAME SIGNATURE` for each call, an empty line, then operations, numbers big-endian. In a signature
//! r is a buffer that is read, w one that is written, n a number of 32 bits, q one of 64.
//!   B slot len32 bytes    the slot is a buffer of these bytes
//!   F slot len32 byte     it is a buffer of so many of this byte
//!   P slot at32 byte      one byte of it is changed
//!   Y slot from           it is a copy of another
//!   C call args answer64 sums    a call: slot and length lent for each buffer; then its answer, and for each buffer
//!                                that is written the sum of the slot's bytes
//!   K slot len32 bytes    it must have these bytes now
//!   E count64             the end, and how many calls there were
use crate::cases;
use crate::engine::{self, Sheet};
use crate::formula;
use crate::limits::{active, app, con, event, handler, name, passive};
use crate::make::{self, Rng};
use crate::proved::{self, ROUND, TABLE};

/// The calls, and what each takes.
const CALLS: &[(&str, &str)] = &[
    ("compile", "rrw"),
    ("circle", "rrw"),
    ("start", "rw"),
    ("arrive", "rwnn"),
    ("step", "rw"),
    ("told", "q"),
    ("board", "rrnn"),
    ("forecast", "rr"),
    ("preview", "rrnnn"),
    ("mend", "rrw"),
    ("formula", "rw"),
    ("join", "rrrw"),
    ("replay", "rwrw"),
    ("version", ""),
    ("event_count", "r"),
    ("behaviour_count", "r"),
    ("event_rank", "rn"),
    ("frame", "rwnw"),
    ("agree", "rr"),
    ("agree_for", "rrn"),
    ("pair", "rrnn"),
    ("deliver", "rwnnnw"),
    ("taken", "rr"),
    ("leak", "rrn"),
    ("assemble", "rw"),
    ("describe", "rw"),
];

/// Buffers by what they hold.
const SHEET: usize = 0;
const PARAMS: usize = 1;
const TABLES: usize = 2;
const ROUNDS: usize = 3;
const LIST: usize = 4;
const SECOND: usize = 5;
const NEXT: usize = 6;
const TEXT: usize = 7;
const BUFFER: usize = 8;
const LISTED: usize = 9;
const ANSWERS: usize = 10;
const COMMITS: usize = 11;
const SLOTS: usize = 12;

#[derive(Clone, Copy)]
enum Arg {
    /// A slot, as long as it is.
    Whole(usize),
    /// A slot, its first bytes alone.
    Part(usize, usize),
    Number(u32),
    Wide(u64),
}
use Arg::{Number, Part, Whole};

struct Record {
    out: Vec<u8>,
    slots: Vec<Vec<u8>>,
    calls: u64,
    /// How often each was called, and how often it was refused.
    tally: Vec<[usize; 2]>,
}

/// FNV-1a of 32 bits: a few instructions a byte in any language.
fn sum(bytes: &[u8]) -> u32 {
    bytes.iter().fold(0x811C_9DC5, |s, b| (s ^ *b as u32).wrapping_mul(0x0100_0193))
}

impl Record {
    fn new() -> Record {
        let mut out = vec![];
        CALLS.iter().for_each(|(name, takes)| out.extend(format!("{name} {takes}\n").bytes()));
        out.push(b'\n');
        Record { out, slots: vec![vec![]; SLOTS], calls: 0, tally: vec![[0; 2]; CALLS.len()] }
    }

    fn put(&mut self, op: u8, slot: usize, bytes: &[u8]) {
        self.out.extend([op, slot as u8]);
        self.out.extend((bytes.len() as u32).to_be_bytes());
        self.out.extend(bytes);
    }

    fn set(&mut self, slot: usize, bytes: &[u8]) {
        self.put(b'B', slot, bytes);
        self.slots[slot] = bytes.to_vec();
    }

    fn fill(&mut self, slot: usize, len: usize, byte: u8) {
        self.out.extend([b'F', slot as u8]);
        self.out.extend((len as u32).to_be_bytes());
        self.out.push(byte);
        self.slots[slot] = vec![byte; len];
    }

    fn poke(&mut self, slot: usize, at: usize, byte: u8) {
        self.out.extend([b'P', slot as u8]);
        self.out.extend((at as u32).to_be_bytes());
        self.out.push(byte);
        self.slots[slot][at] = byte;
    }

    fn copy(&mut self, slot: usize, from: usize) {
        self.out.extend([b'Y', slot as u8, from as u8]);
        self.slots[slot] = self.slots[from].clone();
    }

    /// All of a slot's bytes.
    fn keep(&mut self, slot: usize) {
        let bytes = self.slots[slot].clone();
        self.put(b'K', slot, &bytes);
    }

    /// A call on the proved engine of this processor, recorded.
    fn call(&mut self, name: &str, args: &[Arg]) -> u64 {
        let k = CALLS.iter().position(|(n, _)| *n == name).expect("a call of the list");
        let (mut read, mut written, mut numbers) = (vec![], vec![], vec![]);
        self.out.extend([b'C', k as u8]);
        assert_eq!(CALLS[k].1.len(), args.len(), "{name}");
        for (arg, takes) in args.iter().zip(CALLS[k].1.chars()) {
            match *arg {
                Number(n) => self.out.extend(n.to_be_bytes()),
                Arg::Wide(n) => self.out.extend(n.to_be_bytes()),
                Whole(slot) | Part(slot, _) => {
                    let n = if let Part(_, n) = *arg { n } else { self.slots[slot].len() };
                    self.out.push(slot as u8);
                    self.out.extend((n as u32).to_be_bytes());
                    if takes == 'w' { &mut written } else { &mut read }.push((slot, n));
                }
            }
            match *arg {
                Number(n) => numbers.push(n as u64),
                Arg::Wide(n) => numbers.push(n),
                _ => {}
            }
        }
        let mut lent: Vec<Vec<u8>> = written.iter().map(|(slot, _)| std::mem::take(&mut self.slots[*slot])).collect();
        let reads: Vec<&[u8]> = read.iter().map(|(slot, n)| &self.slots[*slot][..*n]).collect();
        let mut writes: Vec<&mut [u8]> = lent.iter_mut().zip(&written).map(|(b, (_, n))| &mut b[..*n]).collect();
        let answer = made(name, &reads, &mut writes, &numbers);
        self.out.extend(answer.to_be_bytes());
        for (bytes, (slot, _)) in lent.into_iter().zip(&written) {
            self.out.extend(sum(&bytes).to_be_bytes());
            self.slots[*slot] = bytes;
        }
        self.calls += 1;
        self.tally[k][0] += 1;
        let number = match name {
            "told" | "replay" | "version" | "frame" => false,
            "step" => answer == 14,
            "circle" | "agree" | "agree_for" | "leak" => answer % 256 != 0,
            "assemble" => answer >> 56 != 0,
            _ => (1..1 << 32).contains(&answer),
        };
        self.tally[k][1] += number as usize;
        answer
    }

    // ---- what is recorded of a seed

    /// What a table tells of itself, and what a version.
    fn counts(&mut self, r: &mut Rng, lent: Arg) {
        self.call("version", &[]);
        self.call("event_count", &[lent]);
        self.call("behaviour_count", &[lent]);
        self.call("event_rank", &[lent, Number(r.below(5) as u32)]);
        self.call("event_rank", &[lent, Number(r.next() as u32)]);
    }

    /// Frames of any number of steps, with room for any number of commits; arrivals between them.
    fn frames(&mut self, r: &mut Rng, sheet: &Sheet) {
        self.fresh(r);
        let on = [Whole(TABLES), Whole(ROUNDS)];
        for _ in 0..12 {
            for _ in 0..r.below(5) {
                let e = r.below(sheet.ranks.len() + 1) as u32;
                self.call("arrive", &[on[0], on[1], Number(e), Number(make::player(r) % 8)]);
            }
            self.fill(COMMITS, r.below(50), 0x3C);
            let steps = [r.below(4), r.below(60), r.below(4000)][r.below(3)] as u32;
            self.call("frame", &[on[0], on[1], Number(steps), Whole(COMMITS)]);
            self.keep(COMMITS);
        }
        self.call("frame", &[Part(TABLES, r.below(TABLE)), on[1], Number(9), Whole(COMMITS)]);
        self.keep(ROUNDS);
    }

    /// Entries of an order, most under their number, more than the hand has places for, with room for a commit or not.
    fn deliveries(&mut self, r: &mut Rng, sheet: &Sheet) {
        self.fresh(r);
        let on = [Whole(TABLES), Whole(ROUNDS)];
        self.fill(COMMITS, 8 + r.below(9), 0x3C);
        for _ in 0..90 {
            let next = self.call("taken", &on) as u32;
            let number = if r.one_in(9) { r.below(100) as u32 } else { next };
            let e = r.below(sheet.ranks.len() + 1) as u32;
            let room = if r.one_in(5) { Part(COMMITS, r.below(8)) } else { Whole(COMMITS) };
            self.call("deliver", &[on[0], on[1], Number(number), Number(e), Number(make::player(r) % 9), room]);
        }
        self.keep(COMMITS);
        self.keep(ROUNDS);
    }

    /// A list of calls on the table and the round, a forecast and at times a preview after each.
    fn list(&mut self, r: &mut Rng, sheet: &Sheet, n: usize) {
        let on = [Whole(TABLES), Whole(ROUNDS)];
        for c in make::calls(r, sheet, n) {
            match c {
                engine::Call::Arrive(e, who) => self.call("arrive", &[on[0], on[1], Number(e), Number(who)]),
                engine::Call::Board(i, who) => self.call("board", &[on[0], on[1], Number(i), Number(who)]),
                engine::Call::Step => {
                    let answer = self.call("step", &on);
                    if answer > 1 {
                        self.call("told", &[Arg::Wide(answer)]);
                    }
                    answer
                }
            };
            if r.one_in(3) {
                self.call("forecast", &on);
            }
            if r.one_in(40) {
                let (e, i) = (r.below(sheet.ranks.len() + 1) as u32, r.below(sheet.behaviours.len() + 1) as u32);
                self.call("preview", &[on[0], on[1], Number(e), Number(i), Number(make::player(r))]);
            }
        }
    }

    fn fresh(&mut self, r: &mut Rng) {
        let (n, old) = (ROUND + r.below(20), r.next() as u8);
        self.fill(ROUNDS, n, old);
        self.call("start", &[Whole(TABLES), Whole(ROUNDS)]);
    }

    /// The same calls by replay, on a fresh round, with room for all answers or not.
    fn replays(&mut self, r: &mut Rng, sheet: &Sheet) {
        let mut bytes = vec![];
        for c in make::calls(r, sheet, 60) {
            let (kind, n, who) = match c {
                engine::Call::Arrive(e, who) => (0, e, who),
                engine::Call::Step => (1, 0, 0),
                engine::Call::Board(i, who) => (2 + r.below(254) as u8, i, who),
            };
            bytes.push(kind);
            bytes.extend(n.to_be_bytes());
            bytes.push(who.min(255) as u8);
        }
        self.set(LISTED, &bytes);
        let room = 440 + r.below(50);
        self.fill(ANSWERS, room, 0xC3);
        self.fresh(r);
        let lent = 300 + r.below(61);
        self.call("replay", &[Whole(TABLES), Whole(ROUNDS), Part(LISTED, lent), Whole(ANSWERS)]);
        self.keep(ANSWERS);
        self.keep(ROUNDS);
    }

    /// Changes of sheets between calls.
    fn mends(&mut self, r: &mut Rng, sheet: &Sheet) {
        let mut sheet = sheet.clone();
        self.fresh(r);
        for _ in 0..4 {
            let n = r.below(40);
            self.list(r, &sheet, n);
            let other = make::near(r, &sheet);
            self.set(SECOND, &make::encode(&other));
            self.fill(NEXT, TABLE, 0);
            if self.call("compile", &[Whole(SECOND), Part(PARAMS, 0), Whole(NEXT)]) == 0
                && self.call("mend", &[Whole(TABLES), Whole(NEXT), Whole(ROUNDS)]) == 0
            {
                self.copy(TABLES, NEXT);
                sheet = other;
            }
        }
        self.keep(ROUNDS);
    }

    /// Calls on damaged bytes and short buffers.
    fn damaged(&mut self, r: &mut Rng, sheet: &Sheet) {
        self.fresh(r);
        self.list(r, sheet, 20);
        for _ in 0..1 + r.below(4) {
            let (at, byte) = (r.below(600), if r.one_in(2) { r.next() as u8 } else { r.below(70) as u8 });
            match r.below(4) {
                0 => self.poke(TABLES, at, byte),
                1 => self.poke(TABLES, 2048 + at, byte),
                2 => self.poke(ROUNDS, at % 40, byte),
                _ => self.poke(ROUNDS, r.below(ROUND), byte),
            }
        }
        self.list(r, sheet, 30);
        self.counts(r, Whole(TABLES));
        self.fill(COMMITS, 40, 0x3C);
        self.call("frame", &[Whole(TABLES), Whole(ROUNDS), Number(500), Whole(COMMITS)]);
        let (t, l) = (Part(TABLES, r.below(TABLE + 1)), Part(ROUNDS, r.below(ROUND + 1)));
        self.counts(r, t);
        self.call("start", &[t, Whole(ROUNDS)]);
        self.call("start", &[Whole(TABLES), l]);
        self.call("step", &[Whole(TABLES), l]);
        self.call("step", &[t, Whole(ROUNDS)]);
        self.call("board", &[t, Whole(ROUNDS), Number(0), Number(0)]);
        self.call("mend", &[t, Whole(NEXT), Whole(ROUNDS)]);
        self.keep(ROUNDS);
        self.keep(TABLES);
    }

    fn formulas(&mut self, r: &mut Rng) {
        for k in 0..6 {
            let mut whole = String::new();
            let depth = 1 + r.below(6);
            formula::text(r, depth, &mut whole);
            if r.one_in(6) {
                whole = format!("{}({whole})", "!".repeat(r.below(20)));
            }
            let text = if k < 4 { whole.into_bytes() } else { formula::damaged(r, whole.into_bytes()) };
            self.set(TEXT, &text);
            self.fill(BUFFER, 7168, 0x5A);
            let answer = self.call("formula", &[Whole(TEXT), Whole(BUFFER)]);
            if answer >> 32 != 0 {
                let n = answer as u32 as usize;
                self.call("formula", &[Whole(TEXT), Part(BUFFER, n - 1)]);
                self.call("formula", &[Whole(TEXT), Part(BUFFER, n)]);
            }
        }
    }

    /// The seed's sheet as text and back, into buffers that are long enough and too short; and with a byte changed.
    fn texts(&mut self, r: &mut Rng) {
        self.fill(TEXT, poqashem::SHEET_TEXT, 0x5A);
        self.fill(BUFFER, poqashem::SHEET, 0x5A);
        let answer = self.call("describe", &[Whole(SHEET), Whole(TEXT)]);
        if answer >> 32 == 0 {
            return;
        }
        let n = answer as u32 as usize;
        self.call("describe", &[Whole(SHEET), Part(TEXT, n.saturating_sub(1))]);
        self.call("assemble", &[Part(TEXT, n), Whole(BUFFER)]);
        self.keep(BUFFER);
        self.call("assemble", &[Part(TEXT, n), Part(BUFFER, r.below(self.slots[SHEET].len() + 1))]);
        for _ in 0..3 {
            self.poke(TEXT, r.below(n + 1), 32 + r.below(95) as u8);
            self.call("assemble", &[Part(TEXT, n), Whole(BUFFER)]);
        }
    }

    /// The seed's sheet with another, first and second.
    fn joins(&mut self, r: &mut Rng, ranks: Option<Vec<u8>>) {
        let mut other = make::sheet(r);
        if let (Some(ranks), false) = (ranks, r.one_in(5)) {
            other.ranks.iter_mut().zip(&ranks).for_each(|(a, b)| *a = *b);
        }
        let whole = make::encode(&other);
        let other = if r.one_in(6) { make::damaged(r, whole) } else { whole };
        self.set(SECOND, &other);
        self.fill(BUFFER, 16384, 0x5A);
        for (a, b) in [(SHEET, SECOND), (SECOND, SHEET), (SHEET, SHEET)] {
            let answer = self.call("join", &[Whole(a), Whole(b), Whole(PARAMS), Whole(BUFFER)]);
            let n = answer as u32 as usize;
            if answer >> 32 != 0 && n > 0 {
                self.call("join", &[Whole(a), Whole(b), Whole(PARAMS), Part(BUFFER, n - 1)]);
            }
        }
    }

    /// The deepest and the largest that there are, and the inputs among which the worst time of a call is looked for,
    /// with the calls that they are lent to; they take the most stack.
    fn largest(&mut self) {
        let deep = |leaf: Vec<u8>| (0..15).fold(leaf, |e, _| app(3, &[e]));
        let own = |i: i32| active(i, &[handler(0, (i % 2) as u8, &deep(name(i as u8)))]);
        let wide: Vec<u8> = (0..64).flat_map(own).collect();
        let full = [event(1), event(2), wide].concat();
        self.set(PARAMS, &[0; 32]);
        self.fill(BUFFER, 7168, 0x5A);
        for (_, text) in cases::texts() {
            self.set(TEXT, &text);
            self.call("formula", &[Whole(TEXT), Whole(BUFFER)]);
        }
        self.fill(BUFFER, poqashem::SHEET, 0x5A);
        for (_, text) in cases::sheet_texts() {
            self.set(TEXT, &text);
            self.call("assemble", &[Whole(TEXT), Whole(BUFFER)]);
        }
        for (_, [first, second]) in cases::pairs() {
            self.set(SHEET, &first);
            self.set(SECOND, &second);
            self.call("join", &[Whole(SHEET), Whole(SECOND), Whole(PARAMS), Whole(BUFFER)]);
        }
        let inputs = cases::families().into_iter().chain(cases::circles()).map(|(_, bytes)| bytes);
        for bytes in inputs.chain([passive(&deep(con(1))), full]) {
            self.largest_sheet(&bytes);
        }
        self.largest_round();
    }

    fn largest_sheet(&mut self, bytes: &[u8]) {
        self.set(SHEET, bytes);
        self.fill(LIST, 64, 0);
        self.fill(TABLES, TABLE, 0);
        self.fill(BUFFER, 8192, 0);
        self.call("circle", &[Whole(SHEET), Whole(PARAMS), Whole(LIST)]);
        self.call("agree", &[Whole(SHEET), Whole(PARAMS)]);
        self.call("agree_for", &[Whole(SHEET), Whole(PARAMS), Number(0)]);
        self.call("pair", &[Whole(SHEET), Whole(PARAMS), Number(0), Number(1)]);
        self.call("leak", &[Whole(SHEET), Whole(PARAMS), Number(1)]);
        self.call("join", &[Whole(SHEET), Part(SHEET, 0), Whole(PARAMS), Whole(BUFFER)]);
        self.call("compile", &[Whole(SHEET), Whole(PARAMS), Whole(TABLES)]);
        self.fill(TEXT, poqashem::SHEET_TEXT, 0x5A);
        self.call("describe", &[Whole(SHEET), Whole(TEXT)]);
        self.keep(LIST);
        self.keep(BUFFER);
        self.keep(TABLES);
    }

    /// A full hand on the last of the largest sheets.
    fn largest_round(&mut self) {
        let on = [Whole(TABLES), Whole(ROUNDS)];
        self.fill(ROUNDS, ROUND, 0);
        self.call("start", &on);
        for k in 0..65 {
            self.call("arrive", &[on[0], on[1], Number(k % 2), Number(0)]);
        }
        self.call("preview", &[on[0], on[1], Number(0), Number(0), Number(0)]);
        self.fill(COMMITS, 80, 0);
        self.call("taken", &on);
        self.call("deliver", &[on[0], on[1], Number(64), Number(0), Number(0), Whole(COMMITS)]);
        for _ in 0..3000 {
            self.call("step", &on);
        }
        self.call("preview", &[on[0], on[1], Number(0), Number(0), Number(0)]);
        self.fill(COMMITS, 80, 0);
        self.call("frame", &[on[0], on[1], Number(3000), Whole(COMMITS)]);
        self.copy(NEXT, TABLES);
        self.call("mend", &[Whole(TABLES), Whole(NEXT), Whole(ROUNDS)]);
        self.keep(ROUNDS);
    }

    /// One seed's worth of all calls.
    fn seed(&mut self, seed: u64) {
        let r = &mut Rng::new(seed);
        let whole = if r.one_in(3) { make::rowed(r) } else { make::encode(&make::sheet(r)) };
        let bytes = if r.one_in(2) { make::damaged(r, whole) } else { whole };
        self.set(SHEET, &bytes);
        self.set(PARAMS, &make::params(r));
        self.formulas(r);
        self.texts(r);
        self.joins(r, engine::read(&bytes).ok().map(|s| s.ranks));
        let fill = r.next() as u8;
        self.fill(TABLES, TABLE + r.below(40), fill);
        self.fill(LIST, 70, fill);
        self.call("circle", &[Whole(SHEET), Whole(PARAMS), Part(LIST, r.below(71))]);
        self.call("circle", &[Whole(SHEET), Whole(PARAMS), Whole(LIST)]);
        self.keep(LIST);
        self.call("agree", &[Whole(SHEET), Whole(PARAMS)]);
        for b in 0..5 {
            self.call("agree_for", &[Whole(SHEET), Whole(PARAMS), Number(b)]);
            self.call("pair", &[Whole(SHEET), Whole(PARAMS), Number(b), Number(r.below(5) as u32)]);
        }
        for player in 0..9 {
            self.call("leak", &[Whole(SHEET), Whole(PARAMS), Number(player)]);
        }
        self.call("compile", &[Whole(SHEET), Whole(PARAMS), Part(TABLES, TABLE - 1 - r.below(9))]);
        self.call("compile", &[Whole(SHEET), Whole(PARAMS), Whole(TABLES)]);
        self.keep(TABLES);
        let Ok(sheet) = engine::compile(&bytes, &self.slots[PARAMS]) else { return };
        self.counts(r, Whole(TABLES));
        self.frames(r, &sheet);
        self.deliveries(r, &sheet);
        self.fresh(r);
        let n = if r.one_in(20) { 3000 } else { 300 };
        self.list(r, &sheet, n);
        self.keep(ROUNDS);
        self.replays(r, &sheet);
        self.mends(r, &sheet);
        self.damaged(r, &sheet);
    }
}

/// The call by its name on the proved engine.
fn made(name: &str, r: &[&[u8]], w: &mut [&mut [u8]], n: &[u64]) -> u64 {
    let word = |k: usize| n[k] as u32;
    match name {
        "compile" => proved::compile(r[0], r[1], w[0]) as u64,
        "circle" => proved::circle(r[0], r[1], w[0]),
        "start" => proved::start(r[0], w[0]) as u64,
        "arrive" => proved::arrive(r[0], w[0], word(0), word(1)) as u64,
        "step" => proved::step(r[0], w[0]),
        "told" => proved::told(n[0]),
        "board" => proved::board(r[0], r[1], word(0), word(1)),
        "forecast" => proved::forecast(r[0], r[1]),
        "preview" => proved::preview(r[0], r[1], word(0), word(1), word(2)),
        "mend" => proved::mend(r[0], r[1], w[0]) as u64,
        "formula" => proved::formula(r[0], w[0]),
        "join" => proved::join(r[0], r[1], r[2], w[0]),
        "replay" => {
            let (round, answers) = w.split_at_mut(1);
            proved::replay(r[0], round[0], r[1], answers[0]) as u64
        }
        "version" => proved::version() as u64,
        "event_count" => proved::event_count(r[0]),
        "behaviour_count" => proved::behaviour_count(r[0]),
        "event_rank" => proved::event_rank(r[0], word(0)),
        "frame" => {
            let (round, commits) = w.split_at_mut(1);
            proved::frame(r[0], round[0], word(0), commits[0])
        }
        "agree" => proved::agree(r[0], r[1]),
        "agree_for" => proved::agree_for(r[0], r[1], word(0)),
        "pair" => proved::pair(r[0], r[1], word(0), word(1)),
        "deliver" => {
            let (round, commits) = w.split_at_mut(1);
            proved::deliver(r[0], round[0], word(0), word(1), word(2), commits[0])
        }
        "taken" => proved::taken(r[0], r[1]),
        "leak" => proved::leak(r[0], r[1], word(0)),
        "assemble" => proved::assemble(r[0], w[0]),
        "describe" => proved::describe(r[0], w[0]),
        _ => unreachable!("{name}"),
    }
}

/// Seeds from 1 on until there are so many calls.
pub fn run(file: &str, calls: u64) {
    let mut record = Record::new();
    record.largest();
    let mut seed = 0;
    while record.calls < calls {
        seed += 1;
        record.seed(seed);
    }
    record.out.push(b'E');
    record.out.extend(record.calls.to_be_bytes());
    if let Err(e) = std::fs::write(file, &record.out) {
        println!("{file}: {e}");
        std::process::exit(1);
    }
    print!("record of {} calls from seeds 1 to {seed}, {} bytes;", record.calls, record.out.len());
    for ((name, _), [made, refused]) in CALLS.iter().zip(&record.tally) {
        print!(" {name} {made}");
        if *refused > 0 {
            print!(" ({refused} refused)");
        }
    }
    println!();
}
