//! Two phones that part: a search over the boards that a round can reach, all of it on the proved engine.
//!
//! Phones that take in one list of events in one order end with two boards, by how their steps are cut, exactly if two
//! events of unequal rank lead from some board that commits can reach to two boards in their two orders: the orders in
//! which one list may commit go over into each other by exchanges of such neighbours. So the search is:
//!
//! 1. A board is the list of all values, as the host reads them from an idle round. The first one is the start's. From
//!    a board each event leads to a next one: it arrives alone and is run to idle.
//! 2. Boards are looked at one by one, each once. Those that are found and not looked at wait in two queues: `long` has
//!    those that the same event led to twice in a row, `wide` the others. The queues take turns, `wide` first; where
//!    one is empty the other goes on. A board joins its queue at the end, but one that the same event led to three times
//!    or more in a row, up to 200, goes to the front of `long`. So short lists of all kinds come up, and long rows of
//!    one event behind short lists, such as a clock that runs out.
//! 3. Of a board each pair of events of unequal rank that meet is asked, as the engine's `pair` has them, in the order
//!    of their numbers: does the first and then the second lead to the same board as the second and then the first? The
//!    others need not be asked: it is proved that they do. Two boards are a find. Where winners are named, the first
//!    find in which one of them differs counts, and else the first of all.
//! 4. At most so many boards are looked at; one that would come later than that in `wide` is not kept. Where none is
//!    left and none was dropped, all were looked at.
//! 5. A find becomes shorter: of the events before the pair all are left out, or a half, a quarter and so on down to
//!    single ones, from the first on, wherever the pair's two orders still lead to two boards without them.
//! 6. Its two lists have the events before, each run to idle, then the less urgent event of the pair and the more
//!    urgent one. One phone runs to idle between these two, so that they commit in this order; the other takes in both
//!    before it makes a step, so that the more urgent one commits first. Both are played once more before they are told.
use poqashem::{Behaviour, Event, Params, Player, Refusal, Round, Sheet, Step, Table, ROUND};
use std::collections::{HashSet, VecDeque};

/// All values, by number.
pub type Board = Vec<i32>;

/// What a phone does.
#[derive(Clone, Copy, Debug, PartialEq, Eq)]
pub enum Act {
    Send(Event),
    /// Steps until nothing is in hand.
    Run,
}

/// Two lists of the same events in the same order that end with two boards.
#[derive(Clone, Debug, PartialEq, Eq)]
pub struct Apart {
    /// Run to idle one by one, on both phones.
    pub before: Vec<Event>,
    /// Of the pair, the less urgent one, which both phones take in first.
    pub slow: Event,
    /// The more urgent one.
    pub urgent: Event,
    /// Of the phone that runs to idle between the two, and of the one that takes in both first.
    pub boards: [Board; 2],
}

/// What a search tells.
#[derive(Clone, Debug, PartialEq, Eq)]
pub struct Told {
    pub found: Option<Apart>,
    /// So many boards were looked at.
    pub looked: usize,
    /// There are no others.
    pub all: bool,
}

/// What is searched for.
pub struct Search<'a> {
    pub table: &'a Table,
    /// The pairs that are asked, the less urgent event first.
    pub pairs: Vec<(Event, Event)>,
    /// Behaviours of which one shall differ, if that can be had.
    pub winners: &'a [Behaviour],
    /// Boards that are looked at, at most.
    pub most: usize,
}

/// So many steps take about as long as to copy a round, hand in an event and read the board.
const COPY: u64 = 900;
/// So many of these steps are about two seconds.
const BUDGET: u64 = 2_500_000_000;
/// Boards where no number is named, at least and at most.
const FEW: u64 = 50;
const MANY: u64 = 200_000;
/// So often in a row one event is followed before others.
const ROW: u32 = 200;

/// The pairs of events of unequal rank that meet, the less urgent one first.
pub fn pairs(sheet: &Sheet, lent: &Params, table: &Table) -> Result<Vec<(Event, Event)>, Refusal> {
    let count = table.events()?;
    let mut pairs = vec![];
    for first in 0..count {
        for second in first + 1..count {
            let (a, b) = (Event(first), Event(second));
            let (low, high) = if table.rank(a)? < table.rank(b)? { (a, b) } else { (b, a) };
            let unequal = table.rank(a)? != table.rank(b)?;
            if unequal && sheet.pair(Some(lent), a, b)?.is_some_and(|shared| shared.meet) {
                pairs.push((low, high));
            }
        }
    }
    Ok(pairs)
}

/// One event, run to idle.
fn commit(round: &Round, event: Event) -> Result<Round, Refusal> {
    let mut next = round.clone();
    next.arrive(event, Player::HOST)?;
    idle(&mut next)?;
    Ok(next)
}

fn idle(round: &mut Round) -> Result<(), Refusal> {
    round.frame(u32::MAX, 2);
    while round.step()? != Step::Idle {}
    Ok(())
}

/// All values of an idle round.
pub fn board(round: &Round) -> Result<Board, Refusal> {
    (0..round.table().behaviours()?).map(|b| round.board(Behaviour(b), Player::HOST)).collect()
}

/// A board that was found: how, and its round until it has been looked at.
struct Found {
    from: usize,
    event: Option<Event>,
    /// So often in a row this event.
    row: u32,
    round: Vec<(u16, u8)>,
}

/// The bytes of a round that are not 0, with their places: an idle one has few.
fn packed(round: &Round) -> Vec<(u16, u8)> {
    let bytes = (0..).zip(round.bytes().iter().copied());
    bytes.filter(|(_, byte)| *byte != 0).collect()
}

fn unpacked(table: &Table, packed: &[(u16, u8)]) -> Round {
    let mut bytes = [0; ROUND];
    packed.iter().for_each(|(place, byte)| bytes[usize::from(*place)] = *byte);
    Round::from_bytes(table, &bytes)
}

/// The boards that were found.
struct Boards {
    known: HashSet<Board>,
    found: Vec<Found>,
    wide: VecDeque<usize>,
    long: VecDeque<usize>,
    /// A further one was there and is not kept.
    more: bool,
}

impl Boards {
    /// A board that an event led to, if it is new; `room` is how many are still looked at.
    fn add(&mut self, round: &Round, from: usize, event: Option<Event>, room: usize) -> Result<(), Refusal> {
        let board = board(round)?;
        if self.known.contains(&board) {
            return Ok(());
        }
        let before = self.found.get(from).filter(|f| f.event == event).map_or(0, |f| f.row);
        let (at, row) = (self.found.len(), before + 1);
        if row == 1 && self.wide.len() >= room {
            self.more = true;
            return Ok(());
        }
        self.known.insert(board);
        match row {
            1 => self.wide.push_back(at),
            3..=ROW => self.long.push_front(at),
            _ => self.long.push_back(at),
        }
        self.found.push(Found { from, event, row, round: packed(round) });
        Ok(())
    }

    /// The board to be looked at after so many.
    fn next(&mut self, looked: usize) -> Option<usize> {
        let turn = if looked % 2 == 0 { &mut self.wide } else { &mut self.long };
        turn.pop_front().or_else(|| self.wide.pop_front()).or_else(|| self.long.pop_front())
    }

    /// The events that led to a board.
    fn way(&self, mut board: usize) -> Vec<Event> {
        let mut way = vec![];
        while let Some(event) = self.found[board].event {
            way.push(event);
            board = self.found[board].from;
        }
        way.reverse();
        way
    }
}

impl Search<'_> {
    /// How many boards take about two seconds, by the steps that a board takes.
    pub fn usual(table: &Table, pairs: usize) -> Result<usize, Refusal> {
        let round = table.start()?;
        let (mut steps, events) = (0, u64::from(table.events()?));
        for e in 0..table.events()? {
            let mut one = round.clone();
            one.arrive(Event(e), Player::HOST)?;
            steps += u64::from(one.forecast()?);
        }
        let commits = events + 2 * pairs as u64;
        let each = commits * (COPY + steps / events.max(1) + 20 * u64::from(table.behaviours()?));
        Ok((BUDGET / each.max(1)).clamp(FEW, MANY) as usize)
    }

    pub fn run(&self) -> Result<Told, Refusal> {
        let (known, found) = (HashSet::new(), vec![]);
        let mut boards = Boards { known, found, wide: VecDeque::new(), long: VecDeque::new(), more: false };
        let most = self.most.max(1);
        boards.add(&self.table.start()?, 0, None, most)?;
        let mut first: Option<Apart> = None;
        let mut looked = 0;
        while looked < most {
            let Some(at) = boards.next(looked) else { break };
            looked += 1;
            if let Some(mut found) = self.look(&mut boards, at, most - looked)? {
                let won = self.winners.is_empty() || self.won(&found);
                if won || first.is_none() {
                    found.before = boards.way(at);
                    first = Some(found);
                }
                if won {
                    return Ok(Told { found: self.shortest(first)?, looked, all: false });
                }
            }
        }
        let all = !boards.more && boards.next(looked).is_none();
        Ok(Told { found: self.shortest(first)?, looked, all })
    }

    /// Whether a winner differs.
    fn won(&self, found: &Apart) -> bool {
        self.winners.iter().any(|b| found.boards[0][b.0 as usize] != found.boards[1][b.0 as usize])
    }

    /// One board: what follows it is found, and its pairs are asked. A find has no events before it yet.
    fn look(&self, boards: &mut Boards, at: usize, room: usize) -> Result<Option<Apart>, Refusal> {
        let round = unpacked(self.table, &std::mem::take(&mut boards.found[at].round));
        let count = self.table.events()?;
        let next: Vec<Round> = (0..count).map(|e| commit(&round, Event(e))).collect::<Result<_, _>>()?;
        for (e, round) in next.iter().enumerate() {
            boards.add(round, at, Some(Event(e as u32)), room)?;
        }
        let mut first = None;
        for (slow, urgent) in &self.pairs {
            let ends = [(slow, urgent), (urgent, slow)].map(|(a, b)| commit(&next[a.0 as usize], *b));
            let [one, other] = ends.map(|end| end.and_then(|round| board(&round)));
            let found = [one?, other?];
            if found[0] != found[1] {
                let found = Apart { before: vec![], slow: *slow, urgent: *urgent, boards: found };
                if self.winners.is_empty() || self.won(&found) {
                    return Ok(Some(found));
                }
                first = first.or(Some(found));
            }
        }
        Ok(first)
    }

    /// The same with fewer events before.
    fn shortest(&self, found: Option<Apart>) -> Result<Option<Apart>, Refusal> {
        let Some(mut found) = found else { return Ok(None) };
        let won = self.won(&found);
        let mut block = found.before.len();
        while block > 0 {
            let mut k = 0;
            while k + block <= found.before.len() {
                let mut less = found.clone();
                less.before.drain(k..k + block);
                less.boards = less.played(self.table)?;
                if less.boards[0] != less.boards[1] && (!won || self.won(&less)) {
                    found = less;
                } else {
                    k += block;
                }
            }
            block /= 2;
        }
        found.boards = found.played(self.table)?;
        Ok(Some(found).filter(|found| found.boards[0] != found.boards[1]))
    }
}

impl Apart {
    /// What each phone does.
    pub fn lists(&self) -> [Vec<Act>; 2] {
        let before = || self.before.iter().flat_map(|e| [Act::Send(*e), Act::Run]);
        let pair = [Act::Send(self.slow), Act::Run, Act::Send(self.urgent), Act::Run];
        let both = [Act::Send(self.slow), Act::Send(self.urgent), Act::Run];
        [before().chain(pair).collect(), before().chain(both).collect()]
    }

    /// The boards of both phones at the end, played from the start.
    fn played(&self, table: &Table) -> Result<[Board; 2], Refusal> {
        let [one, other] = self.lists();
        Ok([played(table, &one)?, played(table, &other)?])
    }

    /// The first behaviour that differs.
    pub fn differs(&self) -> Behaviour {
        let [one, other] = &self.boards;
        Behaviour((0..one.len()).find(|b| one[*b] != other[*b]).unwrap_or(0) as u32)
    }
}

fn played(table: &Table, acts: &[Act]) -> Result<Board, Refusal> {
    let mut round = table.start()?;
    for act in acts {
        match act {
            Act::Send(event) => round.arrive(*event, Player::HOST)?,
            Act::Run => while round.step()? != Step::Idle {},
        }
    }
    board(&round)
}

#[cfg(test)]
mod tests {
    use super::*;

    /// Draws the same numbers from the same seed.
    struct Draw(u64);

    impl Draw {
        fn below(&mut self, n: usize) -> usize {
            self.0 = self.0.wrapping_mul(6364136223846793005).wrapping_add(1442695040888963407);
            (self.0 >> 33) as usize % n.max(1)
        }

        fn one<'a>(&mut self, of: &[&'a str]) -> &'a str {
            of[self.below(of.len())]
        }

        /// A formula of any kind over some names.
        fn formula(&mut self, names: &[String], deep: usize) -> String {
            match self.below(if deep == 0 { 2 } else { 5 }) {
                0 => self.below(4).to_string(),
                1 => names[self.below(names.len())].clone(),
                2 => {
                    let [c, a, b] = [0; 3].map(|_| self.formula(names, deep - 1));
                    format!("if({c}, {a}, {b})")
                }
                _ => {
                    let [a, b] = [0; 2].map(|_| self.formula(names, deep - 1));
                    format!("({a} {} {b})", self.one(&["+", "-", "*", "<", "==", "&&"]))
                }
            }
        }

        /// What a setter writes: flags, scores, streaks, clocks and lights.
        fn usual(&mut self, own: &str, names: &[String]) -> String {
            let other = names[self.below(names.len())].clone();
            let k = 1 + self.below(3);
            match self.below(8) {
                0 => "1".to_string(),
                1 => format!("{own} + {k}"),
                2 => format!("{own} - {k}"),
                3 => format!("!{own}"),
                4 => format!("if({other}, {own}, {own} + {k})"),
                5 => format!("if({own} >= {k}, 0, {own} + 1)"),
                6 => format!("{own} * 2"),
                _ => format!("if({own} > {other}, {own}, {other})"),
            }
        }

        /// A sheet of 2 or 3 events and 1 to 3 actives; with a passive now and then.
        fn sheet(&mut self, usual: bool) -> String {
            let events = 2 + self.below(2);
            let names: Vec<String> = (0..1 + self.below(3)).map(|k| format!("v{k}")).collect();
            let mut text = String::new();
            for e in 0..events {
                text += &format!("event e{e} rank {}\n", self.one(&["1", "2", "9"]));
            }
            for own in &names {
                text += &format!("active {own} = {}\n", self.below(3));
                for e in 0..events {
                    if self.below(3) > 0 {
                        let later = if self.below(7) == 0 { " later" } else { "" };
                        let formula = if usual { self.usual(own, &names) } else { self.formula(&names, 2) };
                        text += &format!("  on e{e}{later}: {formula}\n");
                    }
                }
            }
            if self.below(3) == 0 {
                text += &format!("passive p = {}\n", self.formula(&names, 1));
            }
            text
        }
    }

    /// Whether some list of at most so many events ends with two boards, over all cuts of its steps: after an arrival a
    /// phone may make any number of steps, so the rounds that it can be in then are followed, each once.
    fn by_all_cuts(table: &Table, left: usize, rounds: &[Round]) -> bool {
        let mut ends = HashSet::new();
        for round in rounds {
            let mut end = round.clone();
            idle(&mut end).expect("a step");
            ends.insert(board(&end).expect("a board"));
        }
        let next = |e: u32| {
            let mut known: HashSet<Vec<u8>> = HashSet::new();
            let mut found = vec![];
            for round in rounds {
                let mut round = round.clone();
                round.arrive(Event(e), Player::HOST).expect("an arrival");
                loop {
                    if known.insert(round.bytes().to_vec()) {
                        found.push(round.clone());
                    }
                    if round.step().expect("a step") == Step::Idle {
                        break;
                    }
                }
            }
            found
        };
        let events = table.events().expect("events");
        ends.len() > 1 || (left > 0 && (0..events).any(|e| by_all_cuts(table, left - 1, &next(e))))
    }

    fn searched(sheet: &Sheet, table: &Table) -> Told {
        let pairs = pairs(sheet, &Params::default(), table).expect("pairs");
        Search { table, pairs, winners: &[], most: 500 }.run().expect("a search")
    }

    /// On random and setter-like sheets the search finds at least what all cuts of all lists of three events find, what
    /// it finds is so on the engine, and it finds nothing where the engine's answer is 0.
    #[test]
    fn it_finds_what_all_cuts_of_short_lists_find() {
        let mut draw = Draw(1);
        let (mut apart, mut agree, mut only_here) = (0, 0, 0);
        for k in 0..120 {
            let text = draw.sheet(k % 2 == 0);
            let Ok(sheet) = Sheet::assemble(&text) else { panic!("{text}") };
            let Ok(table) = sheet.compile(None) else { continue };
            let told = searched(&sheet, &table);
            let cut = by_all_cuts(&table, 3, &[table.start().expect("a round")]);
            assert!(told.found.is_some() || !cut, "not found: {text}");
            if sheet.agree(None).expect("an answer").is_none() {
                assert!(told.found.is_none(), "{text}");
                agree += 1;
            }
            if let Some(found) = told.found {
                let [a, b] = found.played(&table).expect("a round");
                assert!(a != b && found.boards == [a, b], "{text}");
                apart += 1;
                only_here += usize::from(!cut);
            }
        }
        assert!(
            apart > 30 && agree > 6 && only_here > 0,
            "{apart} end apart, {agree} agree, {only_here} by long lists"
        );
    }

    fn of(text: &str, most: usize) -> Told {
        let sheet = Sheet::assemble(text).expect("a sheet");
        let table = sheet.compile(None).expect("a table");
        let pairs = pairs(&sheet, &Params::default(), &table).expect("pairs");
        Search { table: &table, pairs, winners: &[], most }.run().expect("a search")
    }

    /// A clock of 60 beside four scores, so that few boards have a clock that is near its end.
    #[test]
    fn a_long_clock() {
        let scores: String =
            (0..4).map(|k| format!("active s{k} = 0 on h{k}: if(clock > 0, s{k} + 1, s{k})\n")).collect();
        let events: String = (0..4).map(|k| format!("event h{k} rank 2\n")).collect();
        let text =
            format!("{events}event tick rank 9\nactive clock = 60 on tick: if(clock > 0, clock - 1, 0)\n{scores}");
        let found = of(&text, 5_000).found.expect("it is found");
        assert_eq!((found.before.len(), found.slow, found.urgent), (59, Event(0), Event(4)));
    }

    #[test]
    fn how_far_it_looked() {
        let two = "event a rank 1 event b rank 2 active x = 0 on a: 1 on b: 1";
        assert_eq!(of(two, 50), Told { found: None, looked: 2, all: true });
        let more = "event a rank 1 event b rank 9 active t = 0 on b: t + 1 active s = 0 on a: if(0, t, s + 1)";
        assert_eq!(of(more, 50), Told { found: None, looked: 50, all: false });
        assert_eq!(of(more, 0), Told { found: None, looked: 1, all: false });
    }
}
