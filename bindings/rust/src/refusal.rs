//! Why a call was turned down.
use crate::numbered::numbered;
use std::fmt;

numbered! {
    /// Why a call was turned down. A call that is turned down changes no byte.
    ///
    /// Each has a number and a word; `Display` gives both. No call gives 2, a blank sheet: a sheet of no bytes is
    /// accepted, with no events and no behaviours.
    ///
    /// ```
    /// use poqashem::{Refusal, Sheet};
    /// let e = Sheet::new([1, 0]).compile(None).unwrap_err();
    /// assert_eq!(e, Refusal::Torn);
    /// assert_eq!((e.number(), e.word()), (4, "torn"));
    /// assert_eq!(e.to_string(), "torn (4)");
    /// ```
    Refusal, "When a call is turned down so.";
    ShortTable = 1, "short table", "a table under 34,816 bytes; only raw calls can lend one";
    LongSheet = 3, "long sheet", "over 8,192 bytes";
    Torn = 4, "torn", "under three bytes where a field is due, or a length past its enclosing end";
    WrongTag = 5, "wrong tag", "a tag not allowed there; an event after a behaviour";
    WrongLength = 6, "wrong length", "a fixed length differs; a due byte is missing; bytes are left over";
    Crowded = 7, "crowded", "a 33rd event or a 65th behaviour";
    OffTheScale = 8, "off the scale", "a rank, event, phase, function, parameter or cell count not listed or declared";
    TooDeep = 9, "too deep", "an expression at nesting 17";
    Doubled = 10, "doubled", "a second handler for an event in one behaviour";
    UnknownName = 11, "unknown name", "no such behaviour in the sheet";
    Circle = 12, "circle", "some event, or no event, has one";
    Overlong = 13, "overlong", "over 4,096 instructions";
    Foreign = 14, "foreign", "table or round is not one of this engine's";
    NoSuchEvent = 15, "no such event", "not declared";
    FullHand = 16, "full hand", "64 in hand";
    Spent = 17, "spent", "1,000,000 already taken in";
    NoSuchBehaviour = 18, "no such behaviour", "the number is not in the sheet";
    Settling = 19, "settling", "a board is read, or a sheet changed, during copy-back; a few steps later it passes";
    NoParameters = 20, "no parameters", "the sheet uses a parameter and none are lent";
    NoFormula = 21, "no formula", "the text is outside the grammar or over 1,024 bytes";
    LargeNumber = 22, "large number", "a number in a formula exceeds 2,147,483,647";
    ShortBuffer = 23, "short buffer", "the buffer is too short for the field; only raw calls can lend one";
    NoPlayer = 24, "no player", "the player is above 7";
    NoRight = 25, "no right", "the player may not send this event, or may not see this behaviour";
    UnlikeRanks = 26, "unlike ranks", "two sheets to be joined give one event different ranks";
    ShortJoin = 27, "short join", "the buffer is too short for the joined sheet; only raw calls can lend one";
    StrangeHand = 28, "strange hand", "the hand holds an event that the new sheet does not declare";
    MissingEntries = 43, "missing entries", "fewer entries were taken in than the delivery's number";
    TakenBefore = 44, "taken before", "more entries were taken in than the delivery's number";
}

impl Refusal {
    /// The refusal of a call's answer. The contracts leave no other number; one would mean an archive of another
    /// version.
    pub(crate) fn of(number: u64) -> Refusal {
        let known = u32::try_from(number).ok().and_then(Refusal::from_number);
        known.unwrap_or_else(|| panic!("the archive answered {number}, which is no refusal of this interface"))
    }

    /// 0 is accepted.
    pub(crate) fn check(number: u32) -> Result<(), Refusal> {
        if number == 0 {
            return Ok(());
        }
        Err(Refusal::of(number as u64))
    }

    /// 2^32 and a word is accepted.
    pub(crate) fn word_of(answer: u64) -> Result<u32, Refusal> {
        if answer >> 32 == 0 {
            return Err(Refusal::of(answer));
        }
        Ok(answer as u32)
    }
}

impl fmt::Display for Refusal {
    fn fmt(&self, f: &mut fmt::Formatter<'_>) -> fmt::Result {
        write!(f, "{} ({})", self.word(), self.number())
    }
}

impl std::error::Error for Refusal {}

#[cfg(test)]
mod tests {
    use super::*;
    use crate::numbered::words_of_header;

    /// The header's words, as C has them.
    #[test]
    fn words_are_the_headers() {
        let words = words_of_header();
        for r in Refusal::ALL {
            assert_eq!(words.get(r.number() as usize), Some(&r.word()), "{r:?}");
        }
    }

    #[test]
    fn numbers_go_both_ways() {
        for n in 0..=300 {
            assert!(Refusal::from_number(n).map_or(true, |r| r.number() == n));
        }
        assert_eq!(Refusal::ALL.len(), 29);
        assert_eq!(Refusal::from_number(2), None);
    }
}
