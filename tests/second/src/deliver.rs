//! Deliveries and the number taken in: entry after entry of an order that two phones share, against the model engine on
//! rounds of a seed's sheet and against the plain reading of the words on damaged bytes; and what deliveries promise:
//! two phones that cut their steps differently take in the same beginning of the order.
use crate::compare::{self, packed, Guarded};
use crate::engine::{self, Answer, Call, Model, Sheet};
use crate::make::{self, Rng};
use crate::proved::{self, ROUND, TABLE};
use crate::words;

/// An entry of the order: event and player.
type Entry = (u32, u32);

/// How a delivery that is not refused ended, above its steps and commits.
const TAKEN: u64 = 1 << 56;
const NO_ROOM: u64 = 2 << 56;

#[derive(Default)]
pub struct Tally {
    /// Deliveries taken in, without room for a commit, and refused; then those that had to make room.
    taken: usize,
    no_room: usize,
    refused: usize,
    made_room: usize,
    /// Pairs of phones that were handed one order.
    phones: usize,
}

impl std::fmt::Display for Tally {
    fn fmt(&self, f: &mut std::fmt::Formatter<'_>) -> std::fmt::Result {
        write!(f, "deliveries taken in {}, of which {} made room, ", self.taken, self.made_room)?;
        write!(f, "without room for a commit {}, refused {}; ", self.no_room, self.refused)?;
        write!(f, "pairs of phones with one order {}", self.phones)
    }
}

/// A delivery by the model engine: the answer, and the commit that made room.
fn delivered(m: &mut Model, number: u32, (event, player): Entry, bytes: usize) -> (u64, Option<Answer>) {
    let refusal = match () {
        _ if m.taken < number => 43,
        _ if m.taken > number => 44,
        _ if player > 7 => 24,
        _ if event as usize >= m.sheet.ranks.len() => 15,
        _ if !engine::may(m.sheet.senders[event as usize], player) => 25,
        _ if m.taken == 1_000_000 => 17,
        _ => 0,
    };
    if refusal != 0 {
        return (refusal, None);
    }
    let (mut steps, mut commit) = (0, None);
    if m.in_hand() == 64 {
        if bytes < 8 {
            return (NO_ROOM, None);
        }
        while commit.is_none() {
            steps += 1;
            commit = Some(m.call(Call::Step)).filter(|a| matches!(a, Answer::Committed(..)));
        }
        let longest = m.code.iter().map(Vec::len).max().unwrap_or(0) as u64;
        assert!(steps <= 3 * longest / 2, "a delivery makes {steps} steps, the longest event has {longest}");
    }
    assert_eq!(m.call(Call::Arrive(event, player)), Answer::Taken, "a delivery after room was made");
    (TAKEN | (commit.is_some() as u64) << 32 | steps, commit)
}

/// What `taken` tells of the model engine.
fn counted(m: &Model) -> u64 {
    (1 << 32) + m.taken as u64 + ((m.in_hand() as u64) << 40)
}

/// An entry that is mostly declared and allowed.
fn entry(r: &mut Rng, sheet: &Sheet) -> Entry {
    let event = if r.one_in(12) { r.below(40) } else { r.below(sheet.ranks.len().max(1)) };
    let player = if r.one_in(3) { r.below(10) } else { 0 };
    (event as u32, player as u32)
}

/// A number that is mostly the next.
fn numbered(r: &mut Rng, next: u32) -> u32 {
    match r.below(12) {
        0 => next + 1 + r.below(3) as u32,
        1 => next.saturating_sub(1 + r.below(3) as u32),
        2 => r.next() as u32,
        _ => next,
    }
}

/// Deliveries in bursts of over 64 with a few steps between, on both engines.
fn rounds(r: &mut Rng, sheet: &Sheet, table: &Guarded, tally: &mut Tally) {
    let mut round = Guarded::new(ROUND + 8, 0x3C);
    assert_eq!(proved::start(table.part(), round.part_mut()), 0);
    let mut m = Model::new(sheet.clone());
    for _ in 0..90 {
        let (number, entry) = (numbered(r, m.taken), entry(r, sheet));
        let bytes = [0, 7, 8, 9, 24][r.below(5)].max(if r.one_in(4) { 0 } else { 8 });
        let mut commits = Guarded::new(bytes, 0xC3);
        let (want, commit) = delivered(&mut m, number, entry, bytes);
        let got = proved::deliver(table.part(), round.part_mut(), number, entry.0, entry.1, commits.part_mut());
        assert_eq!(got, want, "delivery of {entry:?} under {number}, {bytes} bytes");
        let written: Vec<u8> = commit.iter().flat_map(|a| packed(*a).to_be_bytes()).collect();
        assert!(commits.part()[..written.len()] == written, "the commit of a delivery");
        assert!(commits.part()[written.len()..].iter().all(|b| *b == 0xC3), "bytes behind the commit of a delivery");
        commits.check();
        compare::same_round(round.part(), &m);
        assert_eq!(proved::taken(table.part(), round.part()), counted(&m), "taken");
        match want >> 56 {
            1 => tally.taken += 1,
            2 => tally.no_room += 1,
            _ => tally.refused += 1,
        }
        tally.made_room += commit.is_some() as usize;
        if r.one_in(9) {
            for c in make::calls(r, sheet, 5) {
                let said = compare::call(table.part(), round.part_mut(), c);
                assert_eq!(said, packed(m.call(c)), "answer to {c:?} between deliveries");
            }
        }
    }
    round.check();
    assert!(round.part()[ROUND..].iter().all(|b| *b == 0x3C), "bytes beyond the round changed");
}

/// A delivery and `taken` on damaged tables and rounds of all lengths.
fn damaged(r: &mut Rng, sheet: &Sheet, table: &Guarded) {
    for _ in 0..6 {
        let mut t = table.part()[..TABLE].to_vec();
        let mut l = vec![0x77; ROUND + 8];
        assert_eq!(proved::start(&t, &mut l), 0);
        let many = if r.one_in(2) { 80 } else { 10 };
        for _ in 0..many {
            let (event, player) = entry(r, sheet);
            compare::call(&t, &mut l, Call::Arrive(event, player));
        }
        for c in make::calls(r, sheet, 6) {
            compare::call(&t, &mut l, c);
        }
        for _ in 0..r.below(4) {
            let (at, v) = (r.below(600), if r.one_in(2) { r.next() as u8 } else { r.below(70) as u8 });
            match r.below(4) {
                0 => t[at] = v,
                1 => t[2048 + at] = v,
                2 => l[r.below(40)] = v,
                _ => l[r.below(ROUND)] = v,
            }
        }
        let next = words::get(&l, 0);
        let short = |r: &mut Rng, n: usize| if r.one_in(10) { r.below(n) } else { n };
        t.truncate(short(r, TABLE));
        l.truncate(short(r, ROUND + 8));
        assert_eq!(proved::taken(&t, &l), words::taken(&t, &l), "damaged bytes, taken");
        let (number, (event, player), bytes) = (numbered(r, next), entry(r, sheet), [0, 7, 8, 20][r.below(4)]);
        let (mut want, mut due) = (l.clone(), vec![0xC3; bytes]);
        let answer = words::deliver(&t, &mut want, number, (event, player), &mut due);
        let (before, mut commits, mut round) = (t.clone(), Guarded::new(bytes, 0xC3), Guarded::new(l.len(), 0));
        round.part_mut().copy_from_slice(&l);
        let got = proved::deliver(&t, round.part_mut(), number, event, player, commits.part_mut());
        assert_eq!(got, answer, "damaged bytes, a delivery under {number}");
        assert!(want == round.part(), "damaged bytes, a delivery: the round");
        assert!(due == commits.part(), "damaged bytes, a delivery: the commit");
        assert!(before == t, "a delivery changed the table");
        commits.check();
        round.check();
    }
}

/// A phone: its table and round, and how many steps it makes between two entries.
struct Phone<'a> {
    table: &'a [u8],
    round: Vec<u8>,
    pace: usize,
}

impl Phone<'_> {
    fn taken(&self) -> u64 {
        proved::taken(self.table, &self.round) & 0xFFFF_FFFF
    }

    /// Entry `number` is handed in, again or too early at times, and some steps are made.
    fn hand_in(&mut self, r: &mut Rng, order: &[Entry], number: usize) {
        let mut commits = [0u8; 8];
        for k in [number.saturating_sub(r.below(3)), number + r.below(3), number] {
            let Some((event, player)) = order.get(k) else { continue };
            let before = self.taken();
            let answer = proved::deliver(self.table, &mut self.round, k as u32, *event, *player, &mut commits);
            let next = k as u64 == before;
            assert_eq!(answer >> 56 == 1, next, "entry {k} with {before} taken in");
            assert_eq!(self.taken(), before + next as u64, "the number taken in");
        }
        for _ in 0..r.below(2 * self.pace + 1) {
            proved::step(self.table, &mut self.round);
        }
    }

    fn run_to_idle(&mut self) {
        while proved::step(self.table, &mut self.round) != 0 {}
    }

    fn board(&self, n: usize) -> Vec<u64> {
        (0..n).map(|i| proved::board(self.table, &self.round, i as u32, 0)).collect()
    }
}

/// One order of over 64 entries on a fast and a slow phone: each takes in all of it, and where `agree` answers 0 their
/// boards are equal when both are idle, in the middle and at the end.
fn phones(r: &mut Rng, sheet: &Sheet, table: &Guarded, agrees: bool, tally: &mut Tally) {
    let all = 70 + r.below(60);
    let order: Vec<Entry> = (0..all).map(|_| (r.below(sheet.ranks.len()) as u32, 0)).collect();
    let stop = r.below(order.len());
    let mut boards = vec![];
    for pace in [0, 40] {
        let mut phone = Phone { table: table.part(), round: vec![0; ROUND], pace };
        assert_eq!(proved::start(phone.table, &mut phone.round), 0);
        for k in 0..stop {
            phone.hand_in(r, &order, k);
        }
        while (phone.taken() as usize) < stop {
            phone.hand_in(r, &order, phone.taken() as usize);
        }
        let reached = phone.taken();
        phone.run_to_idle();
        let middle = (reached, phone.board(sheet.behaviours.len()));
        while (phone.taken() as usize) < order.len() {
            phone.hand_in(r, &order, phone.taken() as usize);
        }
        phone.run_to_idle();
        boards.push((middle, phone.board(sheet.behaviours.len())));
    }
    let [fast, slow] = &boards[..] else { unreachable!() };
    assert!(!agrees || fast.0 .0 != slow.0 .0 || fast.0 .1 == slow.0 .1, "boards of one number taken in, when idle");
    assert!(!agrees || fast.1 == slow.1, "boards of one order, when idle");
    tally.phones += 1;
}

/// A seed's deliveries.
pub fn one(seed: u64, sheet: &Sheet, table: &Guarded, tally: &mut Tally) {
    let r = &mut Rng::new(seed ^ 0xDE11);
    rounds(r, sheet, table, tally);
    damaged(r, sheet, table);
    if !sheet.ranks.is_empty() {
        phones(r, sheet, table, sheet.clash().is_none(), tally);
    }
}
