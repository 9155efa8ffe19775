//! What is wrong with a sheet's text, and where.
use crate::numbered::numbered;
use std::fmt;

numbered! {
    /// The kinds of faults that a sheet's text may have. Their numbers go on from those of the calls.
    FaultKind, "When a text is turned down so.";
    Outside = 31, "outside the grammar", "a byte or a token with which no text goes on to a sheet";
    LargeNumber = 32, "number too large", "over 2,147,483,647; after a `-` that makes a constant, over 2,147,483,648";
    OffTheScale = 33, "off the scale", "a rank over 15, a player over 7, a cell count below 2 or over 16";
    TooMany = 34, "too many", "a ninth parameter, a 33rd event, a 65th behaviour";
    DeclaredTwice = 35, "declared twice", "a name that another parameter or behaviour, or another event, has";
    SecondHandler = 36, "second handler", "for an event, in one behaviour";
    TooDeep = 37, "too deep", "an expression that must nest 17 deep";
    UnknownName = 38, "unknown name", "an event, or a name in a formula, that is not declared";
    NoSuchCell = 39, "no such cell", "`[..]` behind what is no row, past its end, or cell 0 where it cannot be said";
    LongSheet = 40, "sheet too long", "over 8,192 bytes";
    ShortBuffer = 41, "buffer too short", "the buffer is too short; only raw calls can lend one";
    LongText = 42, "text too long", "over 65,536 bytes";
}

/// The first fault of a sheet's text. `docs/SHEETS.md` says which comes first.
///
/// ```
/// use poqashem::{FaultKind, Sheet};
/// let fault = Sheet::assemble("event hit rank 16").unwrap_err();
/// assert_eq!((fault.kind, fault.line, fault.column), (FaultKind::OffTheScale, 1, 16));
/// assert_eq!(fault.to_string(), "1:16: off the scale (33)");
/// ```
#[derive(Clone, Copy, Debug, PartialEq, Eq, Hash)]
pub struct Fault {
    /// What is wrong.
    pub kind: FaultKind,
    /// Where, from 1: one more than the line feeds before it.
    pub line: u32,
    /// From 1 too, in bytes.
    pub column: u32,
}

impl Fault {
    /// The fault of assemble's answer, none where a sheet was written. The contracts leave no other kind; one would mean
    /// an archive of another version.
    pub(crate) fn of(answer: u64) -> Option<Fault> {
        let number = (answer >> 56) as u32;
        if number == 0 {
            return None;
        }
        let known = FaultKind::from_number(number);
        let kind =
            known.unwrap_or_else(|| panic!("the archive answered {answer}, which is no fault of this interface"));
        Some(Fault { kind, line: (answer >> 28 & 0xFFF_FFFF) as u32, column: (answer & 0xFFF_FFFF) as u32 })
    }
}

impl fmt::Display for Fault {
    fn fmt(&self, f: &mut fmt::Formatter<'_>) -> fmt::Result {
        let Fault { kind, line, column } = self;
        write!(f, "{line}:{column}: {} ({})", kind.word(), kind.number())
    }
}

impl std::error::Error for Fault {}

#[cfg(test)]
mod tests {
    use super::*;
    use crate::numbered::words_of_header;

    /// The header's words, as C has them.
    #[test]
    fn words_are_the_headers() {
        let words = words_of_header();
        assert_eq!(words.len(), 45);
        for k in FaultKind::ALL {
            assert_eq!(words.get(k.number() as usize), Some(&k.word()), "{k:?}");
        }
    }

    #[test]
    fn answers_come_apart() {
        assert_eq!(Fault::of((1 << 32) + 74), None);
        let fault = Fault::of((42 << 56) + (65_537 << 28) + 1).unwrap();
        assert_eq!((fault.kind, fault.line, fault.column), (FaultKind::LongText, 65_537, 1));
        assert_eq!(FaultKind::ALL.len(), 12);
        assert_eq!((FaultKind::from_number(30), FaultKind::from_number(43)), (None, None));
    }
}
