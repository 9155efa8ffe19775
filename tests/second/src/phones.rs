//! Matches as two phones play them: one order of a thousand events in bursts of over 64, with changes of sheets
//! between, on two threads that make a different number of steps a frame. Their boards must be equal, the record of a
//! match must be audited, and a host that hands events in by `arrive` and drops refusals must be noticed. The matches
//! are written to a folder, with the board that each ends with, for the hosts in C and JavaScript.
use poqashem::record::{audit, Recorder, Verdict};
use poqashem::{Event, NotThere, Params, Player, Refusal, Round, Sheet, Table};

use crate::engine;
use crate::make::{self, Rng};

/// Entries of an order, and the steps of a frame on the fast phone and on the slow one.
const ENTRIES: usize = 1000;
const FAST: u32 = 500;
const SLOW: u32 = 7;
/// So many entries come at once; between two bursts the slow phone makes one frame.
const BURST: usize = 90;

#[derive(Clone, Copy)]
enum Turn {
    /// An event by a player.
    Entry(u32, u32),
    /// A change to one of the sheets.
    Change(usize),
}

struct Match {
    sheets: Vec<(Vec<u8>, [u8; 32])>,
    turns: Vec<Turn>,
}

impl Match {
    fn tables(&self) -> Vec<Table> {
        let table = |(s, p): &(Vec<u8>, [u8; 32])| Sheet::new(s.clone()).compile(Some(&Params::from_bytes(*p)));
        self.sheets.iter().map(|s| table(s).expect("an accepted sheet")).collect()
    }

    /// The match by a phone of so many steps a frame: the board at its end, for the host.
    fn played(&self, pace: u32) -> Vec<Option<i32>> {
        let tables = self.tables();
        let mut round = tables[0].start().expect("a table of compile's");
        let mut number = 0;
        for (k, turn) in self.turns.iter().enumerate() {
            match *turn {
                Turn::Entry(event, player) => match round.deliver(number, Event(event), Player(player)) {
                    Ok(_) => number += 1,
                    Err(Refusal::NoSuchEvent | Refusal::NoRight) => {}
                    Err(refusal) => panic!("a delivery was refused: {refusal}"),
                },
                Turn::Change(to) => drop(round.mend_after(number, &tables[to]).expect("a change at its place")),
            }
            if pace == FAST || k % BURST == 0 {
                round.frame(pace, pace as usize);
            }
        }
        round.board_after(number, Player::HOST).expect("the board at the end").0
    }

    /// The same by a phone that records what it does: its board, and what an audit of the record finds.
    fn recorded(&self, pace: u32) -> (Vec<Option<i32>>, Verdict) {
        let sheet = |k: usize| (Sheet::new(self.sheets[k].0.clone()), Some(Params::from_bytes(self.sheets[k].1)));
        let (first, params) = sheet(0);
        let mut round = Recorder::start("phone", first, params).expect("an accepted sheet");
        let mut number = 0;
        for (k, turn) in self.turns.iter().enumerate() {
            match *turn {
                Turn::Entry(event, player) => {
                    number += round.deliver(number, Event(event), Player(player)).is_ok() as u32
                }
                Turn::Change(to) => {
                    let (next, params) = sheet(to);
                    drop(round.mend_after(number, next, params).expect("a change at its place"));
                }
            }
            if pace == FAST || k % BURST == 0 {
                round.frame(pace, pace);
            }
        }
        let (board, _) = round.board_after(number, Player::HOST).expect("the board at the end");
        (board, audit(&round.finish()))
    }

    /// The same by a host that does not deliver: `arrive`, and refusals are dropped.
    fn dropped(&self, pace: u32) -> Vec<Option<i32>> {
        let tables = self.tables();
        let mut round = tables[0].start().expect("a table of compile's");
        for (k, turn) in self.turns.iter().enumerate() {
            match *turn {
                Turn::Entry(event, player) => drop(round.arrive(Event(event), Player(player))),
                Turn::Change(to) => {
                    round.run_to_idle().expect("its own round");
                    round.mend(&tables[to]).expect("an idle round");
                }
            }
            if pace == FAST || k % BURST == 0 {
                round.frame(pace, pace as usize);
            }
        }
        ends(&mut round)
    }

    /// As the hosts in C and JavaScript read it: numbers of four bytes, big-endian.
    fn bytes(&self, board: &[Option<i32>]) -> Vec<u8> {
        let mut out = vec![];
        let put = |out: &mut Vec<u8>, n: usize| out.extend((n as u32).to_be_bytes());
        put(&mut out, self.sheets.len());
        for (sheet, params) in &self.sheets {
            out.extend(params);
            put(&mut out, sheet.len());
            out.extend(sheet);
        }
        put(&mut out, self.turns.len());
        for turn in &self.turns {
            let (kind, a, b) = match *turn {
                Turn::Entry(event, player) => (0, event, player),
                Turn::Change(to) => (1, to as u32, 0),
            };
            [kind, a, b].iter().for_each(|n| out.extend(n.to_be_bytes()));
        }
        put(&mut out, board.len());
        board.iter().for_each(|v| out.extend(v.expect("the host sees all").to_be_bytes()));
        out
    }
}

/// The board of a round that is run to idle, whatever it took in.
fn ends(round: &mut Round) -> Vec<Option<i32>> {
    round.run_to_idle().expect("its own round");
    let number = round.taken().expect("its own round").number;
    match round.board_after(number, Player::HOST) {
        Ok((board, _)) => board,
        Err(NotThere::Refused(refusal)) => panic!("refused: {refusal}"),
        Err(_) => unreachable!("the number is its own"),
    }
}

/// The daily example with two other fillings, changed to in turn.
fn daily(r: &mut Rng) -> Match {
    let sheet = Sheet::assemble(include_str!("../../../examples/daily.sheet")).expect("the example");
    let filled = |points: i32| {
        let mut params = [0; 32];
        [points, 3, 25]
            .iter()
            .enumerate()
            .for_each(|(k, v)| params[4 * k..4 * k + 4].copy_from_slice(&v.to_be_bytes()));
        (sheet.bytes().to_vec(), params)
    };
    let entry = |r: &mut Rng, k: usize| match r.below(12) {
        _ if k + 2 == ENTRIES => Turn::Entry(3, 0),
        0 => Turn::Entry(2, 0),
        1 | 2 => Turn::Entry(4, 0),
        n => Turn::Entry((n % 3 == 0) as u32, 1 + r.below(2) as u32),
    };
    let turn = |r: &mut Rng, k: usize| if k % 260 == 259 { Turn::Change(k / 260 % 3) } else { entry(r, k) };
    let turns = (0..ENTRIES).map(|k| turn(r, k)).collect();
    Match { sheets: [10, 20, 5].map(filled).to_vec(), turns }
}

/// A match on a random sheet and some that are near it, `agree` answering 0 for each; none where such are not found.
fn random(r: &mut Rng) -> Option<Match> {
    let own = |sheet: engine::Sheet| {
        let bytes = make::encode(&sheet);
        let read = engine::compile(&bytes, &[0; 32]).ok()?;
        (read.clash().is_none() && !read.ranks.is_empty()).then_some((sheet, bytes))
    };
    let (first, bytes) = own(make::sheet(r))?;
    let unequal = first.ranks.iter().any(|rank| *rank != first.ranks[0]);
    if !unequal && !r.one_in(8) {
        return None;
    }
    let mut sheets = vec![(bytes, [0; 32])];
    sheets.extend((0..20).filter_map(|_| own(make::near(r, &first))).take(3).map(|(_, b)| (b, [0; 32])));
    let turns = (0..ENTRIES).map(|k| match k % 230 {
        229 => Turn::Change(r.below(sheets.len())),
        _ => {
            let known = first.ranks.len() + r.one_in(50) as usize;
            Turn::Entry(r.below(known) as u32, [0, 0, 0, 1][r.below(4)])
        }
    });
    let turns = turns.collect();
    Some(Match { sheets, turns })
}

/// Both phones, each on a thread of its own.
fn both<F: Fn(u32) -> Vec<Option<i32>> + Sync>(play: F) -> [Vec<Option<i32>>; 2] {
    std::thread::scope(|s| {
        [FAST, SLOW]
            .map(|pace| {
                s.spawn({
                    let play = &play;
                    move || play(pace)
                })
            })
            .map(|t| t.join().expect("a phone"))
    })
}

/// So many matches, the daily example's first, into a folder.
pub fn run(folder: &str, count: usize) {
    std::fs::create_dir_all(folder).expect("a folder for matches");
    let (mut seed, mut made, mut noticed) = (0, 0, 0);
    while made < count {
        let r = &mut Rng::new(0x50_0E + seed);
        let found = if seed == 0 { Some(daily(r)) } else { random(r) };
        seed += 1;
        let Some(this) = found else { continue };
        let [fast, slow] = both(|pace| this.played(pace));
        assert!(fast == slow, "match {made}: the boards are {fast:?} and {slow:?}");
        let (board, verdict) = this.recorded(SLOW);
        assert!(board == fast && matches!(verdict, Verdict::Agrees { .. }), "match {made}, recorded: {verdict:?}");
        let [a, b] = both(|pace| this.dropped(pace));
        noticed += (a != b) as usize;
        assert!(made > 0 || a != b, "a host that drops refusals is not noticed on the daily example");
        std::fs::write(format!("{folder}/{made}.match"), this.bytes(&fast)).expect("a match's file");
        made += 1;
    }
    println!(
        "{made} matches of {ENTRIES} turns on two threads: equal boards, audited; a host that drops refusals: unequal \
         on {noticed}"
    );
}
