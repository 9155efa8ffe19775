//! Whether phones agree on one behaviour, and what two events have in common.
use crate::sheet::lent;
use crate::{raw, Behaviour, Clash, Event, Params, Refusal, Sheet};

/// What two events that are not independent have in common.
#[derive(Clone, Copy, Debug, PartialEq, Eq, Hash)]
pub struct Shared {
    /// The least behaviour at which they meet, else the least that they share.
    pub behaviour: Behaviour,
    /// The first event writes it.
    pub first_writes: bool,
    /// The second event writes it.
    pub second_writes: bool,
    /// The first event reads it.
    pub first_reads: bool,
    /// The second event reads it.
    pub second_reads: bool,
    /// Both only add to it, so that their order does not matter there.
    pub both_add: bool,
    /// They meet there: of unequal rank, phones may end apart by them.
    pub meet: bool,
}

impl Sheet {
    /// Whether phones may end apart on one behaviour: none where no two events of unequal rank meet in what it depends
    /// on, so that its value is equal on phones that take in the same events in the same order, when both are idle and
    /// have taken in equally many; else two such events and where they meet. Refused by compile's number, then 18.
    ///
    /// ```
    /// use poqashem::{Behaviour, Sheet};
    /// let sheet = Sheet::assemble(
    ///     "event hit rank 1 event bonus rank 9
    ///      active score = 0 on hit: score + 10 on bonus: score + 25
    ///      active light = 0 on bonus: score",
    /// ).unwrap();
    /// assert_eq!(sheet.agree_for(None, Behaviour(0))?, None, "both events only add to the score");
    /// assert!(sheet.agree_for(None, Behaviour(1))?.is_some(), "the light shows it as it is at a bonus");
    /// # Ok::<(), poqashem::Refusal>(())
    /// ```
    pub fn agree_for(&self, params: Option<&Params>, behaviour: Behaviour) -> Result<Option<Clash>, Refusal> {
        Clash::of(raw::agree_for(self.bytes(), lent(params), behaviour.0))
    }

    /// What two events have in common: none where they are independent, whatever their ranks. Refused by compile's
    /// number, then 15.
    ///
    /// ```
    /// use poqashem::{Behaviour, Event, Sheet};
    /// let sheet = Sheet::assemble(
    ///     "event hit rank 1 event bonus rank 9
    ///      active score = 0 on hit: score + 10 on bonus: score + 25",
    /// ).unwrap();
    /// let shared = sheet.pair(None, Event(0), Event(1))?.expect("both write the score");
    /// assert_eq!(shared.behaviour, Behaviour(0));
    /// assert!(shared.both_add && !shared.meet);
    /// # Ok::<(), poqashem::Refusal>(())
    /// ```
    pub fn pair(&self, params: Option<&Params>, first: Event, second: Event) -> Result<Option<Shared>, Refusal> {
        let answer = raw::pair(self.bytes(), lent(params), first.0, second.0);
        if answer == 0 {
            return Ok(None);
        }
        if answer >> 32 == 0 {
            return Err(Refusal::of(answer));
        }
        let bit = |k: u32| answer >> (8 + k) & 1 == 1;
        Ok(Some(Shared {
            behaviour: Behaviour((answer & 0xFF) as u32),
            first_writes: bit(0),
            second_writes: bit(1),
            first_reads: bit(2),
            second_reads: bit(3),
            both_add: bit(4),
            meet: bit(5),
        }))
    }
}
