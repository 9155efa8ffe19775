//! Two players' records of one round, held against each other: what an audit of each alone cannot show.
//!
//! An audit shows that the answers of a record follow from its sheets and calls. Where a player left out the opponent's
//! moves, made some up, or stopped recording, that is so too; but then its record is not the opponent's.
use super::{Malformed, Record, Request};
use crate::{Event, Params, Player, Sheet, Step};
use std::fmt;

/// A change of sheets that was made.
#[derive(Clone, Debug, PartialEq, Eq)]
pub struct Change {
    /// How many events were committed before it.
    pub commits: u64,
    /// What the round was changed to.
    pub to: (Sheet, Option<Params>),
}

/// What two players' records of one round have in common: the sheet that it began with, the events that were taken in
/// with their players, in their order, and the changes. How each phone cut its steps, what it read, and what it was
/// refused is its own.
#[derive(Clone, Debug, PartialEq, Eq)]
pub struct Moves {
    /// The sheet that the round began with.
    pub began: (Sheet, Option<Params>),
    /// Events that were taken in.
    pub arrivals: Vec<(Event, Player)>,
    /// Changes that were made.
    pub changes: Vec<Change>,
}

/// The moves of a record, as its answers state them: audit it first.
pub fn moves(record: &Record) -> Result<Moves, Malformed> {
    let mut moves = Moves { began: record.sheets()[0].clone(), arrivals: vec![], changes: vec![] };
    let mut commits = 0;
    for entry in record.entries() {
        let entry = entry?;
        match (entry.request, entry.answer) {
            (Request::Arrive(event, player), 0) => moves.arrivals.push((event, player)),
            (Request::Mend(k), 0) => {
                let to = record.sheets().get(k as usize).ok_or(Malformed("a change to a sheet that is not there"))?;
                moves.changes.push(Change { commits, to: to.clone() });
            }
            (Request::Step, answer) => {
                commits += matches!(Step::from_answer(answer), Some(Ok(Step::Committed { .. }))) as u64
            }
            (Request::Frame(..), _) => commits += entry.commits.len() as u64 / 8,
            _ => {}
        }
    }
    Ok(moves)
}

/// Where two records of one round part.
#[derive(Clone, Debug, PartialEq, Eq)]
pub enum Parting {
    /// They began with different sheets or parameters.
    Began,
    /// The first event that is not the same, by its number among those taken in; none where a record has no more.
    Arrival(usize, [Option<(Event, Player)>; 2]),
    /// The first change that is not the same, by its number; none where a record has no more.
    Change(usize, [Option<Change>; 2]),
}

/// The first place of two lists that is not the same.
fn apart<T: PartialEq + Clone>(a: &[T], b: &[T]) -> Option<(usize, [Option<T>; 2])> {
    let k = (0..a.len().max(b.len())).find(|k| a.get(*k) != b.get(*k))?;
    Some((k, [a.get(k).cloned(), b.get(k).cloned()]))
}

/// Where two records of one round part: first what they began with, then the events, then the changes.
pub fn parting(a: &Moves, b: &Moves) -> Option<Parting> {
    if a.began != b.began {
        return Some(Parting::Began);
    }
    let arrival = apart(&a.arrivals, &b.arrivals).map(|(k, both)| Parting::Arrival(k, both));
    arrival.or_else(|| apart(&a.changes, &b.changes).map(|(k, both)| Parting::Change(k, both)))
}

impl fmt::Display for Parting {
    fn fmt(&self, f: &mut fmt::Formatter<'_>) -> fmt::Result {
        match self {
            Parting::Began => write!(f, "they began with different sheets or parameters"),
            Parting::Arrival(k, both) => {
                let said = |own: &Option<(Event, Player)>| match own {
                    Some((event, player)) => format!("event {} of player {}", event.0, player.0),
                    None => "none".to_string(),
                };
                write!(f, "arrival {k}: the first has {}, the second {}", said(&both[0]), said(&both[1]))
            }
            Parting::Change(k, both) => {
                let said = |own: &Option<Change>| match own {
                    Some(c) => format!("one after {} commits, to a sheet of {} bytes", c.commits, c.to.0.bytes().len()),
                    None => "none".to_string(),
                };
                write!(f, "change {k}: the first has {}, the second {}", said(&both[0]), said(&both[1]))
            }
        }
    }
}

#[cfg(test)]
mod tests {
    use super::*;
    use crate::record::Recorder;

    /// Event 0 adds 2 to b0, which begins with the last byte.
    fn sheet(start: u8) -> Sheet {
        Sheet::new([1, 0, 1, 5, 3, 0, 19, 4, 0, 4, 0, 0, 0, start, 5, 0, 9, 0, 0, 0x10, 0, 4, 0, 0, 0, 2])
    }

    fn begun(start: u8) -> Recorder {
        Recorder::start("one", sheet(start), None).expect("a sheet")
    }

    fn part(a: Recorder, b: Recorder) -> Option<Parting> {
        parting(&moves(&a.finish()).unwrap(), &moves(&b.finish()).unwrap())
    }

    /// Steps one by one or in frames, readings and refused calls are a phone's own.
    #[test]
    fn how_a_phone_plays_is_its_own() {
        let (mut a, mut b) = (begun(9), begun(9));
        for player in [1, 2, 1] {
            a.arrive(Event(0), Player(player)).unwrap();
            (0..30).for_each(|_| assert!(a.step().is_ok()));
            b.arrive(Event(0), Player(player)).unwrap();
            let _ = (b.arrive(Event(7), Player(player)), b.board(crate::Behaviour(0), Player(2)));
        }
        b.frame(1000, 8);
        a.mend(sheet(5), None).unwrap();
        b.mend(sheet(5), None).unwrap();
        let changes = moves(a.record()).unwrap().changes;
        assert_eq!(changes, [Change { commits: 3, to: (sheet(5), None) }]);
        assert_eq!(part(a, b), None);
    }

    #[test]
    fn where_they_part() {
        assert_eq!(part(begun(9), begun(8)), Some(Parting::Began));
        let (mut a, mut b) = (begun(9), begun(9));
        a.arrive(Event(0), Player(1)).unwrap();
        b.arrive(Event(0), Player(1)).unwrap();
        assert_eq!(part(a.clone(), b.clone()), None);
        a.arrive(Event(0), Player(1)).unwrap();
        let left_out = part(a.clone(), b.clone()).unwrap();
        assert_eq!(left_out.to_string(), "arrival 1: the first has event 0 of player 1, the second none");
        b.arrive(Event(0), Player(2)).unwrap();
        let made_up = part(a, b.clone()).unwrap();
        let both = "arrival 1: the first has event 0 of player 1, the second event 0 of player 2";
        assert_eq!(made_up.to_string(), both);
        let mut late = b.clone();
        b.mend(sheet(99), None).unwrap();
        let own = part(late.clone(), b.clone()).unwrap();
        let change = "change 0: the first has none, the second one after 0 commits, to a sheet of 26 bytes";
        assert_eq!(own.to_string(), change);
        late.frame(1000, 8);
        late.mend(sheet(99), None).unwrap();
        assert!(matches!(part(late, b), Some(Parting::Change(0, [Some(_), Some(_)]))), "after other commits");
    }
}
