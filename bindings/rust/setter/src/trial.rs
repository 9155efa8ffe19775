//! Two phones that take in the same events in the same order and cut their steps differently, drawn at random and run
//! on the proved engine: are their boards equal when both are idle? A search, and no proof.
use crate::failure::Failure;
use crate::file::SheetFile;
use crate::wording::{long, several};
use poqashem::{Behaviour, Event, Player, Refusal, Round, Step, Table};
use std::fmt::Write;

/// Events of one run, at most: no hand is ever full.
const EVENTS: usize = 40;

/// What a phone does after an arrival.
#[derive(Clone, Copy, PartialEq, Eq)]
enum Cut {
    /// So many steps.
    Steps(u32),
    /// Steps until nothing is in hand.
    Idle,
}

/// An event, and what the two phones do after it.
type Move = (Event, [Cut; 2]);

/// Draws the same numbers from the same seed.
struct Draw(u64);

impl Draw {
    fn below(&mut self, n: u32) -> u32 {
        self.0 = self.0.wrapping_mul(6364136223846793005).wrapping_add(1442695040888963407);
        ((self.0 >> 33) % u64::from(n.max(1))) as u32
    }

    fn cut(&mut self, longest: u32) -> Cut {
        match self.below(3) {
            0 => Cut::Steps(0),
            1 => Cut::Steps(self.below(longest + 2)),
            _ => Cut::Idle,
        }
    }

    /// A run. One event is drawn more often than the others, so that long rows of it come up too.
    fn run(&mut self, events: u32, longest: u32) -> Vec<Move> {
        let often = self.below(events);
        let count = 1 + self.below(EVENTS as u32);
        let one = |draw: &mut Draw| {
            let event = if draw.below(3) == 0 { draw.below(events) } else { often };
            (Event(event), [draw.cut(longest), draw.cut(longest)])
        };
        (0..count).map(|_| one(self)).collect()
    }
}

fn idle(round: &mut Round) -> Result<(), Refusal> {
    while round.step()? != Step::Idle {}
    Ok(())
}

/// The board of one phone at the end.
fn board(table: &Table, moves: &[Move], phone: usize) -> Result<Vec<i32>, Refusal> {
    let mut round = table.start()?;
    for (event, cuts) in moves {
        round.arrive(*event, Player::HOST)?;
        match cuts[phone] {
            Cut::Steps(count) => (0..count).try_for_each(|_| round.step().map(|_| ()))?,
            Cut::Idle => idle(&mut round)?,
        }
    }
    idle(&mut round)?;
    (0..table.behaviours()?).map(|b| round.board(Behaviour(b), Player::HOST)).collect()
}

fn boards(table: &Table, moves: &[Move]) -> Result<[Vec<i32>; 2], Refusal> {
    Ok([board(table, moves, 0)?, board(table, moves, 1)?])
}

/// What may stand in the place of a move: nothing, or the same with a phone or both run to idle.
fn simpler(moves: &[Move], k: usize) -> Vec<Vec<Move>> {
    let [a, b] = moves[k].1;
    let cuts = [[Cut::Idle, Cut::Idle], [Cut::Idle, b], [a, Cut::Idle]];
    let with = |cuts: [Cut; 2]| [&moves[..k], &[(moves[k].0, cuts)], &moves[k + 1..]].concat();
    let without = [&moves[..k], &moves[k + 1..]].concat();
    [without].into_iter().chain(cuts.into_iter().filter(|own| *own != [a, b]).map(with)).collect()
}

/// The run without what it does not need, as long as the boards differ: each change leaves fewer moves or fewer cuts.
fn shortest(table: &Table, mut moves: Vec<Move>) -> Result<Vec<Move>, Refusal> {
    let mut k = 0;
    while k < moves.len() {
        let mut found = None;
        for other in simpler(&moves, k) {
            found = if found.is_none() && differ(table, &other)? { Some(other) } else { found };
        }
        k = if found.is_some() { 0 } else { k + 1 };
        moves = found.unwrap_or(moves);
    }
    Ok(moves)
}

fn differ(table: &Table, moves: &[Move]) -> Result<bool, Refusal> {
    let [a, b] = boards(table, moves)?;
    Ok(a != b)
}

/// A phone's part as a script.
fn script(file: &SheetFile, moves: &[Move], phone: usize) -> String {
    let mut out = String::new();
    for (event, cuts) in moves {
        out += &format!("send {}\n", file.event(*event));
        match cuts[phone] {
            Cut::Steps(0) => {}
            Cut::Steps(count) => out += &format!("steps {count}\n"),
            Cut::Idle => out.push_str("run\n"),
        }
    }
    if !out.ends_with("run\n") {
        out.push_str("run\n");
    }
    out
}

/// What a search says, and whether it found two boards.
pub fn search(file: &SheetFile, seed: u64, runs: u64) -> Result<(String, bool), Failure> {
    file.all_given()?;
    let table = file.compile()?;
    let told = |refusal: Refusal| Failure::input(format!("{}: unexpected: {refusal}", file.path));
    let events = table.events().map_err(told)?;
    let mut draw = Draw(seed);
    let longest = longest(&table).map_err(told)?;
    for run in 1..=runs.min(if events == 0 { 0 } else { u64::MAX }) {
        let moves = draw.run(events, longest);
        if differ(&table, &moves).map_err(told)? {
            let moves = shortest(&table, moves).map_err(told)?;
            let head = format!("{}: found in run {} of {}, seed {seed}", file.path, long(run), long(runs));
            return Ok((format!("{head}\n{}", found(file, &table, &moves).map_err(told)?), true));
        }
    }
    let runs = several(runs, "run", "runs");
    let of = format!("of at most {EVENTS} events");
    Ok((format!("{}: not found in {runs} {of}, seed {seed}; that is a search, and no proof\n", file.path), false))
}

fn longest(table: &Table) -> Result<u32, Refusal> {
    let one = |e: u32| {
        let mut round = table.start()?;
        round.arrive(Event(e), Player::HOST)?;
        round.forecast()
    };
    (0..table.events()?).map(one).try_fold(0, |most, steps| Ok(most.max(steps?)))
}

fn found(file: &SheetFile, table: &Table, moves: &[Move]) -> Result<String, Refusal> {
    let boards = boards(table, moves)?;
    let mut out = String::from("the same events in the same order, and two boards when both phones are idle\n");
    for (phone, board) in boards.iter().enumerate() {
        let script = script(file, moves, phone);
        let _ = writeln!(out, "phone {}:", phone + 1);
        out.extend(script.lines().map(|line| format!("  {line}\n")));
        let named = |(b, value): (usize, &i32)| format!("{} {value}", file.behaviour(Behaviour(b as u32)));
        let values: Vec<String> = board.iter().enumerate().map(named).collect();
        let _ = writeln!(out, "  board: {}", values.join(", "));
    }
    let first = (0..boards[0].len()).find(|b| boards[0][*b] != boards[1][*b]).unwrap_or(0);
    let _ = writeln!(out, "the first that differs is {}", file.behaviour(Behaviour(first as u32)));
    Ok(out)
}
