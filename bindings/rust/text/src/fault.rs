//! What is wrong with a text, and where.
use std::fmt;

/// A line and a column, both from 1; columns count bytes.
#[derive(Clone, Copy, Debug, PartialEq, Eq, PartialOrd, Ord, Hash)]
pub struct Place {
    /// One more than the line feeds before it.
    pub line: usize,
    /// One more than the bytes before it in its line.
    pub column: usize,
}

macro_rules! kinds {
    ($($name:ident = $number:literal, $word:literal;)*) => {
        /// The kinds of faults. Their numbers go on from those of the calls.
        #[derive(Clone, Copy, Debug, PartialEq, Eq, Hash, PartialOrd, Ord)]
        #[repr(u8)]
        pub enum Kind {
            $(#[doc = concat!($word, ", ", stringify!($number))] $name = $number,)*
        }

        impl Kind {
            /// All of them, by number.
            pub const ALL: &'static [Kind] = &[$(Kind::$name,)*];

            /// Its word.
            pub fn word(self) -> &'static str {
                match self { $(Kind::$name => $word,)* }
            }
        }
    };
}

kinds! {
    Outside = 31, "outside the grammar";
    LargeNumber = 32, "number too large";
    OffTheScale = 33, "off the scale";
    Crowded = 34, "too many";
    Doubled = 35, "declared twice";
    SecondHandler = 36, "second handler";
    TooDeep = 37, "too deep";
    UnknownName = 38, "unknown name";
    NoCell = 39, "no such cell";
    LongSheet = 40, "sheet too long";
    ShortBuffer = 41, "buffer too short";
    LongText = 42, "text too long";
}

impl Kind {
    /// Its number.
    pub fn number(self) -> u32 {
        self as u32
    }
}

/// The first fault of a text.
#[derive(Clone, Debug, PartialEq, Eq)]
pub struct Fault {
    /// What is wrong.
    pub kind: Kind,
    /// The first byte of the token at fault, or the end of the text.
    pub place: Place,
    /// The same in a setter's words. Kind and place are what the format fixes; this is a help.
    pub why: String,
    /// What to do about it, where that can be told.
    pub hint: Option<String>,
}

impl Fault {
    pub(crate) fn new(kind: Kind, place: Place, why: impl Into<String>) -> Fault {
        Fault { kind, place, why: why.into(), hint: None }
    }
}

/// The word that is nearest to one that is not known, where one is near: at most two letters put in, left out or changed,
/// and some left as they are.
pub fn nearest<'a>(word: &str, known: impl Iterator<Item = &'a str>) -> Option<&'a str> {
    let near = known.map(|k| (distance(word.as_bytes(), k.as_bytes()), k));
    let (far, found) = near.min_by_key(|(far, _)| *far)?;
    (far <= 2 && far < word.len()).then_some(found)
}

/// How many letters are put in, left out or changed.
fn distance(a: &[u8], b: &[u8]) -> usize {
    let mut row: Vec<usize> = (0..=b.len()).collect();
    for (i, x) in a.iter().enumerate() {
        let mut corner = i;
        row[0] = i + 1;
        for (j, y) in b.iter().enumerate() {
            let here = (corner + usize::from(x != y)).min(row[j] + 1).min(row[j + 1] + 1);
            corner = std::mem::replace(&mut row[j + 1], here);
        }
    }
    row[b.len()]
}

/// A question behind a message, where a name that is not known is near another.
pub(crate) fn perhaps<'a>(word: &str, known: impl Iterator<Item = &'a str>) -> String {
    nearest(word, known).map_or(String::new(), |near| format!("; is it `{near}`?"))
}

impl fmt::Display for Fault {
    fn fmt(&self, f: &mut fmt::Formatter<'_>) -> fmt::Result {
        let Fault { kind, place, why, .. } = self;
        write!(f, "{}:{}: {} ({}): {why}", place.line, place.column, kind.word(), kind.number())
    }
}

impl std::error::Error for Fault {}
