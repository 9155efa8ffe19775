//! What the interface tells by a number: refusals of calls, kinds of faults of texts.

/// An enum whose members have a number, a word, and when each is told; numbers and words are found both ways.
macro_rules! numbered {
    ($(#[$about:meta])* $kind:ident, $told:literal;
     $($name:ident = $number:literal, $word:literal, $when:literal;)*) => {
        $(#[$about])*
        #[derive(Clone, Copy, Debug, PartialEq, Eq, Hash, PartialOrd, Ord)]
        #[non_exhaustive]
        #[repr(u8)]
        pub enum $kind {
            $(#[doc = concat!($word, ", ", stringify!($number), ": ", $when)] $name = $number,)*
        }

        impl $kind {
            /// All of them, by number.
            pub const ALL: &'static [$kind] = &[$($kind::$name,)*];

            /// Its word.
            pub fn word(self) -> &'static str {
                match self { $($kind::$name => $word,)* }
            }

            #[doc = $told]
            pub fn when(self) -> &'static str {
                match self { $($kind::$name => $when,)* }
            }

            /// Its number.
            pub fn number(self) -> u32 {
                self as u32
            }

            /// The one of a number, if there is one.
            pub fn from_number(number: u32) -> Option<$kind> {
                $kind::ALL.iter().copied().find(|k| k.number() == number)
            }
        }
    };
}

pub(crate) use numbered;

/// The words of the header by their numbers, as C has them.
#[cfg(test)]
pub(crate) fn words_of_header() -> Vec<&'static str> {
    let header = include_str!("../../../include/engine.h");
    let (_, after) = header.split_once("static const char *const words[] = {").expect("the header's words");
    after.split('}').next().unwrap().split('"').skip(1).step_by(2).collect()
}
