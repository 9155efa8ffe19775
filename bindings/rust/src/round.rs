//! Rounds and the answers of their calls.
use crate::raw;
use crate::sheet::zeroed;
use crate::{Refusal, Table};
use std::fmt;

/// Bytes of a round.
pub const ROUND: usize = 2_048;
/// Arrivals in hand, at most.
pub(crate) const HAND: usize = 64;
/// Bytes of a recorded call, and of its answer.
const CALL: usize = 6;
const ANSWER: usize = 8;
/// With a commit: the event ran over.
const OVER: u64 = 1 << 56;

/// An event's number.
#[derive(Clone, Copy, Debug, PartialEq, Eq, Hash, PartialOrd, Ord)]
pub struct Event(pub u32);

/// A behaviour's number.
#[derive(Clone, Copy, Debug, PartialEq, Eq, Hash, PartialOrd, Ord)]
pub struct Behaviour(pub u32);

/// A player: 0 to 7, others being refused by 24. 0 is the host, who may do everything.
#[derive(Clone, Copy, Debug, PartialEq, Eq, Hash, PartialOrd, Ord)]
pub struct Player(pub u32);

impl Player {
    /// Player 0.
    pub const HOST: Player = Player(0);
    /// All eight.
    pub const ALL: [Player; 8] =
        [Player(0), Player(1), Player(2), Player(3), Player(4), Player(5), Player(6), Player(7)];
}

/// An arrival taken in. Arrivals are numbered from 0 as they are taken in.
#[derive(Clone, Copy, Debug, PartialEq, Eq, Hash)]
pub struct Arrival {
    /// Its number.
    pub number: u32,
    /// What arrived.
    pub event: Event,
    /// Who sent it.
    pub player: Player,
}

/// What a step did.
#[derive(Clone, Copy, Debug, PartialEq, Eq, Hash)]
pub enum Step {
    /// Nothing was in hand.
    Idle,
    /// One instruction.
    Ran,
    /// The next started.
    Started(Arrival),
    /// One instruction, the last: the event is committed.
    Committed {
        /// The arrival of the event.
        arrival: Arrival,
        /// Somewhere in the event's meaning a result was not the exact one, or a divisor was zero. For the host alone:
        /// [`Step::told`] leaves it out.
        over: bool,
    },
    /// The next started, and the running one went back to the hand.
    BrokeIn(Arrival),
}

impl Step {
    /// A step from its packed answer, as `include/engine.h` has it; 14 is the refusal. None for a number that no step
    /// answers.
    pub fn from_answer(answer: u64) -> Option<Result<Step, Refusal>> {
        let about = answer & !OVER;
        let arrival = Arrival {
            number: (about >> 16) as u32,
            event: Event((about >> 8 & 0xFF) as u32),
            player: Player((about >> 4 & 0xF) as u32),
        };
        let step = match answer & 0xF {
            14 if answer == 14 => return Some(Err(Refusal::Foreign)),
            0 => Step::Idle,
            1 => Step::Ran,
            2 => Step::Started(arrival),
            3 => Step::Committed { arrival, over: answer & OVER != 0 },
            4 => Step::BrokeIn(arrival),
            _ => return None,
        };
        (step.answer() == answer).then_some(Ok(step))
    }

    /// Its packed answer.
    pub fn answer(self) -> u64 {
        let about = |kind: u64, a: Arrival| {
            (a.number as u64) << 16 | (a.event.0 as u64 & 0xFF) << 8 | (a.player.0 as u64 & 0xF) << 4 | kind
        };
        match self {
            Step::Idle => 0,
            Step::Ran => 1,
            Step::Started(a) => about(2, a),
            Step::Committed { arrival, over } => about(3, arrival) | if over { OVER } else { 0 },
            Step::BrokeIn(a) => about(4, a),
        }
    }

    /// As the players other than the host are told it: without the mark that the event ran over.
    pub fn told(self) -> Step {
        match Step::from_answer(raw::told(self.answer())) {
            Some(Ok(step)) => step,
            _ => unreachable!("a step is told as a step"),
        }
    }
}

/// A call of a recorded list.
#[derive(Clone, Copy, Debug, PartialEq, Eq, Hash)]
pub enum Call {
    /// [`Round::arrive`]
    Arrive(Event, Player),
    /// [`Round::step`]
    Step,
    /// [`Round::board`]
    Board(Behaviour, Player),
}

/// The answer to a call of a recorded list.
#[derive(Clone, Copy, Debug, PartialEq, Eq, Hash)]
pub enum Answer {
    /// The arrival was taken in.
    Taken,
    /// What the step did.
    Step(Step),
    /// The behaviour's value.
    Value(i32),
    /// The call was turned down.
    Refused(Refusal),
}

/// Why a frame ended, by the names of C's `ENGINE_FRAME_..`.
#[derive(Clone, Copy, Debug, PartialEq, Eq, Hash)]
pub enum Ended {
    /// All its steps were made, and something is still in hand; or none was asked for.
    Made,
    /// Nothing is left in hand, whatever else ended it.
    Idle,
    /// A step was refused by 14.
    Refused,
    /// There was no room for a further commit.
    Full,
}

/// The names of earlier releases.
#[allow(non_upper_case_globals)]
impl Ended {
    #[allow(missing_docs)]
    #[deprecated(note = "named Made, as in C and JavaScript")]
    pub const Done: Ended = Ended::Made;
    #[allow(missing_docs)]
    #[deprecated(note = "named Refused, as in C and JavaScript")]
    pub const Foreign: Ended = Ended::Refused;
    #[allow(missing_docs)]
    #[deprecated(note = "named Full, as in C and JavaScript")]
    pub const NoRoom: Ended = Ended::Full;
}

/// What a frame's steps did.
#[derive(Clone, Debug, PartialEq, Eq)]
pub struct Frame {
    /// How many were made.
    pub steps: u32,
    /// The commits among them, in their order.
    pub commits: Vec<Step>,
    /// Why it ended.
    pub ended: Ended,
}

/// Bytes for the commits of a frame with so much room, or with as much of it as can be used: no step takes an arrival in,
/// so that a frame commits at most what is in hand, and with one place more it is never full.
pub(crate) fn commit_bytes(room: usize) -> usize {
    room.min(HAND + 1) * ANSWER
}

/// A round and the table that it runs on.
///
/// ```
/// use poqashem::{Behaviour, Event, Player, Sheet, Step};
/// let sheet = [
///     &[1, 0, 1, 5][..],                           // event 0, of rank 5
///     &[3, 0, 27, 4, 0, 4, 0, 0, 0, 1],            // b0 is active and starts at 1
///     &[5, 0, 17, 0, 0],                           // on event 0, immediately, it takes
///     &poqashem::formula("b0 + 3")?,               // this value
/// ];
/// let sheet = sheet.concat();
/// let mut round = Sheet::new(sheet).compile(None)?.start()?;
/// round.arrive(Event(0), Player::HOST)?;
/// assert_eq!(round.board(Behaviour(0), Player::HOST)?, 1, "it is in hand, not yet committed");
/// while round.step()? != Step::Idle {}
/// assert_eq!(round.board(Behaviour(0), Player::HOST)?, 4);
/// # Ok::<(), poqashem::Refusal>(())
/// ```
///
/// Rounds have no `==`. Two phones whose boards are equal may have rounds of unequal bytes, so compare what
/// [`Round::board`] answers when both are idle and have taken in the same events; [`Round::bytes`] compares two copies
/// of one round.
///
/// ```
/// # let round = poqashem::Sheet::new([]).compile(None)?.start()?;
/// assert!(round.clone().bytes() == round.bytes());
/// # Ok::<(), poqashem::Refusal>(())
/// ```
///
/// ```compile_fail,E0369
/// # let round = poqashem::Sheet::new([]).compile(None)?.start()?;
/// assert!(round.clone() == round);
/// # Ok::<(), poqashem::Refusal>(())
/// ```
#[derive(Clone)]
pub struct Round {
    table: Table,
    bytes: Box<[u8; ROUND]>,
}

impl Round {
    pub(crate) fn start(table: &Table) -> Result<Round, Refusal> {
        let mut bytes = zeroed::<ROUND>();
        Refusal::check(raw::start(table.bytes(), &mut bytes[..]))?;
        Ok(Round { table: table.clone(), bytes })
    }

    /// A round that was saved, made by an engine of the same layout, on this table. Any bytes will do: a round that is
    /// not one is refused by 14, call by call.
    pub fn from_bytes(table: &Table, bytes: &[u8; ROUND]) -> Round {
        Round { table: table.clone(), bytes: Box::new(*bytes) }
    }

    /// Its bytes, to save it.
    pub fn bytes(&self) -> &[u8; ROUND] {
        &self.bytes
    }

    /// Table and round, to be lent to a call.
    pub(crate) fn parts(&mut self) -> (&[u8], &mut [u8]) {
        (self.table.bytes(), &mut self.bytes[..])
    }

    /// The table that it runs on.
    pub fn table(&self) -> &Table {
        &self.table
    }

    /// An event arrives, sent by a player: it joins the hand. Refused by 14, 24, 15, 25, 16, 17.
    pub fn arrive(&mut self, event: Event, player: Player) -> Result<(), Refusal> {
        Refusal::check(raw::arrive(self.table.bytes(), &mut self.bytes[..], event.0, player.0))
    }

    /// One step, at most one instruction. Refused by 14.
    pub fn step(&mut self) -> Result<Step, Refusal> {
        let answer = raw::step(self.table.bytes(), &mut self.bytes[..]);
        Step::from_answer(answer).unwrap_or_else(|| panic!("the archive answered {answer} to a step"))
    }

    /// A behaviour's value on the board, as a player may see it. Refused by 14, 24, 18, 25, 19.
    pub fn board(&self, behaviour: Behaviour, player: Player) -> Result<i32, Refusal> {
        let answer = raw::board(self.table.bytes(), &self.bytes[..], behaviour.0, player.0);
        Refusal::word_of(answer).map(|word| word as i32)
    }

    /// How many steps until idle if no arrival is taken in meanwhile: exact while nothing runs, a bound while an event
    /// runs. Refused by 14.
    pub fn forecast(&self) -> Result<u32, Refusal> {
        Refusal::word_of(raw::forecast(self.table.bytes(), &self.bytes[..]))
    }

    /// The value that a behaviour would show after this arrival and everything in hand had been run to idle. Refused as
    /// the arrival, then by 18, then by 25 for the behaviour.
    pub fn preview(&self, event: Event, behaviour: Behaviour, player: Player) -> Result<i32, Refusal> {
        let answer = raw::preview(self.table.bytes(), &self.bytes[..], event.0, behaviour.0, player.0);
        Refusal::word_of(answer).map(|word| word as i32)
    }

    /// The round goes on under another table. Refused by 14, 19, 28; it then stays with its old one.
    ///
    /// ```
    /// use poqashem::{Behaviour, Player, Sheet};
    /// let active = |start: u8| Sheet::new([3, 0, 7, 4, 0, 4, 0, 0, 0, start]);
    /// let passive = Sheet::new([2, 0, 7, 0x10, 0, 4, 0, 0, 0, 9]);
    /// let mut round = active(5).compile(None)?.start()?;
    /// round.mend(&active(6).compile(None)?)?;
    /// assert_eq!(round.board(Behaviour(0), Player::HOST)?, 5, "active in both: it keeps its value");
    /// round.mend(&passive.compile(None)?)?;
    /// assert_eq!(round.board(Behaviour(0), Player::HOST)?, 9, "passive now: worked out anew");
    /// # Ok::<(), poqashem::Refusal>(())
    /// ```
    pub fn mend(&mut self, table: &Table) -> Result<(), Refusal> {
        Refusal::check(raw::mend(self.table.bytes(), table.bytes(), &mut self.bytes[..]))?;
        self.table = table.clone();
        Ok(())
    }

    /// Recorded calls, one after the other: as many answers. A player above 255 is refused as 255 is.
    ///
    /// ```
    /// use poqashem::{Answer, Behaviour, Call, Player, Refusal, Sheet, Step};
    /// let mut round = Sheet::new([]).compile(None)?.start()?;
    /// let answers = round.replay(&[Call::Step, Call::Board(Behaviour(0), Player::HOST)]);
    /// assert_eq!(answers, [Answer::Step(Step::Idle), Answer::Refused(Refusal::NoSuchBehaviour)]);
    /// # Ok::<(), Refusal>(())
    /// ```
    pub fn replay(&mut self, calls: &[Call]) -> Vec<Answer> {
        let mut bytes = Vec::with_capacity(calls.len() * CALL);
        for call in calls {
            let (kind, number, player) = match *call {
                Call::Arrive(event, player) => (0, event.0, player.0),
                Call::Step => (1, 0, 0),
                Call::Board(behaviour, player) => (2, behaviour.0, player.0),
            };
            bytes.push(kind);
            bytes.extend(number.to_be_bytes());
            bytes.push(player.min(255) as u8);
        }
        let mut answers = vec![0; calls.len() * ANSWER];
        let made = raw::replay(self.table.bytes(), &mut self.bytes[..], &bytes, &mut answers);
        assert_eq!(made, calls.len(), "whole calls, and room for each answer");
        calls.iter().zip(answers.chunks_exact(ANSWER)).map(|(call, a)| answered(*call, u64_of(a))).collect()
    }

    /// Up to so many steps in one call, for a frame: it ends early where the next step would be idle or refused, or
    /// where there is no room for a further commit, and nothing is lost. Where nothing is left in hand it says so, also
    /// after the last of its steps. Any room will do: `usize::MAX` is no limit, and takes no more memory than the hand.
    ///
    /// ```
    /// use poqashem::{Arrival, Ended, Event, Player, Sheet, Step};
    /// let mut round = Sheet::new([1, 0, 1, 5]).compile(None)?.start()?; // an event that nothing handles
    /// round.arrive(Event(0), Player(2))?;
    /// assert_eq!(round.frame(3, 8).ended, Ended::Made);
    /// let frame = round.frame(2, 8);
    /// assert_eq!((frame.steps, frame.ended), (2, Ended::Idle), "it takes five steps");
    /// let arrival = Arrival { number: 0, event: Event(0), player: Player(2) };
    /// assert_eq!(frame.commits, [Step::Committed { arrival, over: false }]);
    /// # Ok::<(), poqashem::Refusal>(())
    /// ```
    pub fn frame(&mut self, steps: u32, room: usize) -> Frame {
        let mut commits = vec![0; commit_bytes(room)];
        let answer = raw::frame(self.table.bytes(), &mut self.bytes[..], steps, &mut commits);
        let ended = match answer >> 56 {
            0 => Ended::Made,
            1 => Ended::Idle,
            2 => Ended::Refused,
            3 => Ended::Full,
            _ => panic!("the archive answered {answer} to a frame"),
        };
        let commit = |a: &[u8]| match Step::from_answer(u64_of(a)) {
            Some(Ok(step @ Step::Committed { .. })) => step,
            _ => panic!("a frame wrote a commit that is none"),
        };
        let count = (answer >> 32 & 0xFF_FFFF) as usize;
        let commits = commits.chunks_exact(ANSWER).take(count).map(commit).collect();
        Frame { steps: answer as u32, commits, ended }
    }
}

impl fmt::Debug for Round {
    fn fmt(&self, f: &mut fmt::Formatter<'_>) -> fmt::Result {
        f.write_str("Round(2048 bytes)")
    }
}

fn u64_of(bytes: &[u8]) -> u64 {
    u64::from_be_bytes(bytes.try_into().expect("eight bytes"))
}

/// An answer by the kind of its call.
fn answered(call: Call, answer: u64) -> Answer {
    match call {
        Call::Arrive(..) if answer == 0 => Answer::Taken,
        Call::Arrive(..) => Answer::Refused(Refusal::of(answer)),
        Call::Step => match Step::from_answer(answer) {
            Some(Ok(step)) => Answer::Step(step),
            Some(Err(refusal)) => Answer::Refused(refusal),
            None => panic!("the archive answered {answer} to a step"),
        },
        Call::Board(..) => match Refusal::word_of(answer) {
            Ok(word) => Answer::Value(word as i32),
            Err(refusal) => Answer::Refused(refusal),
        },
    }
}

#[cfg(test)]
mod tests {
    use super::*;
    use crate::record::{audit, Recorder, Verdict};
    use crate::Sheet;

    /// An event that nothing handles: it takes five steps.
    const SHEET: [u8; 4] = [1, 0, 1, 5];
    const STEPS: u32 = 5;

    fn full_hand() -> Round {
        let mut round = Sheet::new(SHEET).compile(None).unwrap().start().unwrap();
        (0..HAND).for_each(|_| round.arrive(Event(0), Player(1)).unwrap());
        assert_eq!(round.arrive(Event(0), Player(1)), Err(Refusal::FullHand));
        round
    }

    /// Room that no memory would hold is room for the whole hand, also where one of the hand runs.
    #[test]
    fn frames_with_any_room() {
        for (first, room) in [(0, usize::MAX), (0, u32::MAX as usize), (3, usize::MAX), (0, HAND + 1), (0, HAND)] {
            let mut round = full_hand();
            assert_eq!(round.frame(first, room).steps, first);
            let frame = round.frame(u32::MAX, room);
            let made = (frame.steps, frame.commits.len(), frame.ended);
            assert_eq!(made, (STEPS * HAND as u32 - first, HAND, Ended::Idle), "{first} steps, room for {room}");
        }
        let mut round = full_hand();
        let frame = round.frame(u32::MAX, HAND - 1);
        assert_eq!((frame.commits.len(), frame.ended), (HAND - 1, Ended::Full));
    }

    /// The names of earlier releases, in values and in patterns.
    #[test]
    #[allow(deprecated)]
    fn old_names_of_a_frames_end() {
        let old = |end: Ended| match end {
            Ended::Done => 0,
            Ended::Foreign => 2,
            Ended::NoRoom => 3,
            _ => 1,
        };
        assert_eq!([Ended::Made, Ended::Idle, Ended::Refused, Ended::Full].map(old), [0, 1, 2, 3]);
    }

    #[test]
    fn recorded_frames_with_any_room() {
        let mut round = Recorder::start("any room", Sheet::new(SHEET), None).unwrap();
        (0..HAND).for_each(|_| round.arrive(Event(0), Player(1)).unwrap());
        assert_eq!(round.frame(10, u32::MAX).commits.len(), 2);
        assert_eq!(round.frame(u32::MAX, u32::MAX).commits.len(), HAND - 2);
        let record = round.finish();
        assert_eq!(audit(&record), Verdict::Agrees { calls: HAND as u64 + 2 });
    }
}
