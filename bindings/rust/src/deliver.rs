//! Deliveries: the entries of the order that all phones share, handed in by number.
use crate::{raw, Behaviour, Ended, Event, Frame, Player, Refusal, Round, Step, Table};
use std::fmt;

/// Bytes of a commit's answer.
const COMMIT: usize = 8;
/// Steps and commits of each frame of a run to idle.
pub(crate) const STEPS: u32 = 4_096;

/// How many arrivals a round has taken in, and how many of them are still in hand; the others are committed.
#[derive(Clone, Copy, Debug, PartialEq, Eq, Hash)]
pub struct Taken {
    /// Taken in: the number of the next entry.
    pub number: u32,
    /// Waiting or running.
    pub in_hand: u32,
}

/// A delivery that was taken in: the steps that made room for it, and the commit that they ended with. An app treats
/// this commit as one of a frame.
#[derive(Clone, Copy, Debug, PartialEq, Eq, Hash)]
pub struct Delivered {
    /// Steps made; none unless the hand was full.
    pub steps: u32,
    /// The one commit among them.
    pub commit: Option<Step>,
}

/// Why a round cannot be read or changed at a place of the order.
#[derive(Clone, Copy, Debug, PartialEq, Eq, Hash)]
pub enum NotThere {
    /// So many were taken in, fewer than the place asks for: deliver the missing entries first.
    TooEarly(u32),
    /// So many were taken in, more than the place asks for: this phone went on without looking.
    TooLate(u32),
    /// The engine turned the call down.
    Refused(Refusal),
}

impl From<Refusal> for NotThere {
    fn from(refusal: Refusal) -> NotThere {
        NotThere::Refused(refusal)
    }
}

impl fmt::Display for NotThere {
    fn fmt(&self, f: &mut fmt::Formatter<'_>) -> fmt::Result {
        match self {
            NotThere::TooEarly(n) => write!(f, "only {n} entries were taken in"),
            NotThere::TooLate(n) => write!(f, "{n} entries were taken in already"),
            NotThere::Refused(r) => r.fmt(f),
        }
    }
}

impl std::error::Error for NotThere {}

impl Round {
    /// Entry `number` of the order that all phones share, taken in under this number: with a full hand it first makes
    /// steps until one commits, so that a slow phone takes in what a fast one does. Refused by 14; by 43 where entries
    /// are missing and 44 where this one was taken in before; by 24, 15, 25, 17. A refused delivery changes nothing.
    ///
    /// ```
    /// use poqashem::{Event, Player, Refusal, Sheet};
    /// let mut round = Sheet::new([1, 0, 1, 5]).compile(None)?.start()?; // an event that nothing handles
    /// for number in 0..200 {
    ///     round.deliver(number, Event(0), Player(1))?; // the hand has 64 places, and none is refused
    /// }
    /// assert_eq!(round.deliver(199, Event(0), Player(1)), Err(Refusal::TakenBefore));
    /// assert_eq!(round.deliver(201, Event(0), Player(1)), Err(Refusal::MissingEntries));
    /// let taken = round.taken()?;
    /// assert_eq!((taken.number, taken.in_hand), (200, 64));
    /// # Ok::<(), Refusal>(())
    /// ```
    pub fn deliver(&mut self, number: u32, event: Event, player: Player) -> Result<Delivered, Refusal> {
        let mut commit = [0; COMMIT];
        let (table, round) = self.parts();
        let answer = raw::deliver(table, round, number, event.0, player.0, &mut commit);
        let steps = answer as u32;
        match (answer >> 56, answer >> 32 & 0xFF_FFFF) {
            (0, _) => Err(Refusal::of(answer)),
            (1, 0) => Ok(Delivered { steps, commit: None }),
            (1, 1) => match Step::from_answer(u64::from_be_bytes(commit)) {
                Some(Ok(step @ Step::Committed { .. })) => Ok(Delivered { steps, commit: Some(step) }),
                _ => panic!("a delivery wrote a commit that is none"),
            },
            // only of bytes that no engine left: a step on the way was refused
            (3, _) => Err(Refusal::Foreign),
            _ => panic!("the archive answered {answer} to a delivery"),
        }
    }

    /// How many were taken in and how many of them are in hand. Refused by 14.
    pub fn taken(&self) -> Result<Taken, Refusal> {
        let answer = raw::taken(self.table().bytes(), self.bytes());
        if answer >> 32 == 0 {
            return Err(Refusal::of(answer));
        }
        Ok(Taken { number: answer as u32, in_hand: (answer >> 40) as u32 })
    }

    /// Steps until nothing is left in hand: the commits, in their order. Refused by 14.
    pub fn run_to_idle(&mut self) -> Result<Vec<Step>, Refusal> {
        let mut all = Vec::new();
        loop {
            let Frame { commits, ended, .. } = self.frame(STEPS, STEPS as usize);
            all.extend(commits);
            match ended {
                Ended::Idle => return Ok(all),
                Ended::Refused => return Err(Refusal::Foreign),
                Ended::Made | Ended::Full => {}
            }
        }
    }

    /// Whether exactly `number` entries are taken in.
    pub(crate) fn at_number(&self, number: u32) -> Result<(), NotThere> {
        let taken = self.taken()?.number;
        match taken.cmp(&number) {
            std::cmp::Ordering::Less => Err(NotThere::TooEarly(taken)),
            std::cmp::Ordering::Greater => Err(NotThere::TooLate(taken)),
            std::cmp::Ordering::Equal => Ok(()),
        }
    }

    /// The place of the order at which exactly `number` entries are taken in, the round run to idle: the commits on the
    /// way. The only place where two phones' boards are promised to be equal.
    fn settle(&mut self, number: u32) -> Result<Vec<Step>, NotThere> {
        self.at_number(number)?;
        Ok(self.run_to_idle()?)
    }

    /// The board after exactly `number` entries, as a player sees it, and the commits on the way: a winner that is
    /// named by this board is the same on every phone. A behaviour that is hidden from the player is `None`.
    pub fn board_after(&mut self, number: u32, player: Player) -> Result<(Vec<Option<i32>>, Vec<Step>), NotThere> {
        let commits = self.settle(number)?;
        let count = self.table().behaviours()?;
        let mut board = Vec::with_capacity(count as usize);
        for b in 0..count {
            board.push(match self.board(Behaviour(b), player) {
                Ok(value) => Some(value),
                Err(Refusal::NoRight) => None,
                Err(refusal) => return Err(refusal.into()),
            });
        }
        Ok((board, commits))
    }

    /// The change to another sheet after exactly `number` entries: the round is run to idle and then carried over. The
    /// commits on the way.
    pub fn mend_after(&mut self, number: u32, table: &Table) -> Result<Vec<Step>, NotThere> {
        let commits = self.settle(number)?;
        self.mend(table)?;
        Ok(commits)
    }
}

#[cfg(test)]
mod tests {
    use super::*;
    use crate::Sheet;

    /// A race to 100 points, one rank: docs/HOST.md's example of a winner that two phones decide differently.
    const RACE: &str = "event hit1 rank 1 event hit2 rank 1
        active s1 = 90 on hit1: s1 + 10
        active s2 = 90 on hit2: s2 + 10";

    fn fresh() -> Round {
        Sheet::assemble(RACE).unwrap().compile(None).unwrap().start().unwrap()
    }

    fn leader(board: &[Option<i32>]) -> Option<usize> {
        board.iter().position(|s| *s >= Some(100))
    }

    /// Reading whenever a phone is idle names two winners; reading after a number of entries names one.
    #[test]
    fn a_winner_has_a_place_in_the_order() {
        let order = [Event(1), Event(0)];
        let mut found = vec![];
        let mut placed = vec![];
        for fast in [true, false] {
            let mut round = fresh();
            let mut idle = None;
            let mut after = None;
            for (n, event) in order.iter().enumerate() {
                round.deliver(n as u32, *event, Player::HOST).unwrap();
                if n + 1 == order.len() {
                    after = leader(&round.board_after(2, Player::HOST).unwrap().0);
                } else if fast {
                    round.run_to_idle().unwrap();
                }
                if round.taken().unwrap().in_hand == 0 && idle.is_none() {
                    idle = leader(&[round.board(Behaviour(0), Player::HOST).ok(), round.board(Behaviour(1), Player::HOST).ok()]);
                }
            }
            found.push(idle);
            placed.push(after);
        }
        assert_eq!(found, [Some(1), Some(0)], "read whenever a phone is idle");
        assert_eq!(placed, [Some(0), Some(0)], "read after two entries");
    }

    #[test]
    fn places_that_are_not_there() {
        let mut round = fresh();
        assert_eq!(round.board_after(1, Player::HOST), Err(NotThere::TooEarly(0)));
        round.deliver(0, Event(0), Player::HOST).unwrap();
        assert_eq!(round.board_after(0, Player::HOST), Err(NotThere::TooLate(1)));
        let table = Sheet::assemble(RACE).unwrap().compile(None).unwrap();
        assert_eq!(round.mend_after(2, &table), Err(NotThere::TooEarly(1)));
        assert_eq!(round.mend_after(1, &table).map(|c| c.len()), Ok(1));
    }
}
