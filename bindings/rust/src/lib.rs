//! The round engine for Rust: safe types over the archive that `./release` writes, without any other dependency.
//!
//! A [`Sheet`] is compiled to a [`Table`]; a table starts a [`Round`]; events arrive in it, a few steps are made
//! between frames, and the board is read. What a call answers, and every byte that it leaves, is proved for all bytes
//! (`docs/CLAIMS.md`); these types lend buffers of the due length and take the packed answers apart. A call that is
//! turned down is a [`Refusal`], with its number and its word. A sheet may also be written as text: [`Sheet::assemble`].
//!
//! ```
//! use poqashem::{Behaviour, Event, Player, Refusal, Sheet, Step};
//!
//! // b0 = init 1 {0 => b0 + b1}; b1 = init 1 {0 => b0 - b1 later, 1 => 1}
//! let s = Sheet::new([
//!     1, 0, 1, 1,                                  // event 0, of rank 1
//!     1, 0, 1, 2,                                  // event 1, of rank 2
//!     3, 0, 24, 4, 0, 4, 0, 0, 0, 1,               // b0 starts at 1
//!     5, 0, 14, 0, 0,                              // on event 0, immediately,
//!     0x12, 0, 9, 4, 0x11, 0, 1, 0, 0x11, 0, 1, 1, // b0 + b1
//!     3, 0, 36, 4, 0, 4, 0, 0, 0, 1,               // b1 starts at 1
//!     5, 0, 14, 0, 1,                              // on event 0, later,
//!     0x12, 0, 9, 5, 0x11, 0, 1, 0, 0x11, 0, 1, 1, // b0 - b1
//!     5, 0, 9, 1, 0,                               // on event 1, immediately,
//!     0x10, 0, 4, 0, 0, 0, 1,                      // 1
//! ]);
//! let table = s.compile(None)?;
//! let mut round = table.start()?;
//! let board = |round: &poqashem::Round| [0, 1].map(|i| round.board(Behaviour(i), Player::HOST));
//!
//! assert_eq!(round.preview(Event(0), Behaviour(0), Player::HOST)?, 2, "what a move would lead to");
//! round.deliver(0, Event(0), Player::HOST)?; // entry 0 of the order
//! assert_eq!(round.forecast()?, 18, "17 instructions, and a step to start");
//! loop {
//!     match round.step()? {
//!         Step::Idle => break,
//!         Step::Committed { arrival, over } => assert_eq!((arrival.number, over), (0, false)),
//!         _ => {}
//!     }
//! }
//! assert_eq!(board(&round), [Ok(2), Ok(1)]);
//!
//! assert_eq!(round.deliver(1, Event(2), Player::HOST), Err(Refusal::NoSuchEvent));
//! assert_eq!(round.board(Behaviour(0), Player(8)), Err(Refusal::NoPlayer));
//!
//! // save the round, and go on from what was saved
//! let saved = *round.bytes();
//! let mut round = poqashem::Round::from_bytes(&table, &saved);
//! round.deliver(1, Event(0), Player(3))?;
//! while round.step()? != Step::Idle {}
//! assert_eq!(board(&round), [Ok(3), Ok(2)]);
//! # Ok::<(), Refusal>(())
//! ```
//!
//! A buffer of another length does not compile:
//!
//! ```compile_fail
//! let params = poqashem::Params::from_bytes([0; 31]);
//! ```
//!
//! ```compile_fail
//! # let table = poqashem::Sheet::new([]).compile(None).unwrap();
//! let round = poqashem::Round::from_bytes(&table, &[0; 2047]);
//! ```
//!
//! ```compile_fail
//! let table = poqashem::Table::from_bytes(Box::new([0; 34815]));
//! ```
//!
//! # Two phones
//!
//! Two phones that take in the same events in the same order have equal boards, when both are idle and have taken in
//! equally many, where every two events of unequal rank are independent: neither writes what the other reads or writes.
//! Sheet S above does not meet that condition. Compare the other phone's [`Table`] with yours by `==` before the round,
//! hand events in by [`Round::deliver`], read winners by [`Round::board_after`] and change sheets by
//! [`Round::mend_after`] (`docs/HOST.md`, "So that two phones agree"). Marks that an event ran over, and the order of
//! commits, may differ: decide by the board when idle after that many entries.
//! A [`record::Recorder`] keeps what a round was asked and what it answered; [`record::audit`] makes the same calls
//! again and finds the first answer that differs.
//!
//! # Linking
//!
//! `ENGINE_LIB_DIR` names the folder with `libengine.a`. Without it the build takes the one for this target under
//! `target/release/lib`, which `./release` in the repository's root writes.
//!
//! # Threads and memory
//!
//! The engine keeps no state and no pointer: tables are shared freely, rounds move between threads, and calls on
//! different rounds may run at the same time. `docs/HOST.md` has the stack that each call takes: [`formula`] at most
//! 436 KB, [`Sheet::join`] 60 KB, the others less. No call of the engine allocates; these types put table and round in
//! the heap.
#![warn(missing_docs)]

mod agreement;
mod deliver;
mod fault;
mod numbered;
pub mod raw;
pub mod record;
mod refusal;
mod round;
mod sheet;

pub use agreement::Shared;
pub use deliver::{Delivered, NotThere, Taken};
pub use fault::{Fault, FaultKind};
pub use refusal::Refusal;
pub use round::{Answer, Arrival, Behaviour, Call, Ended, Event, Frame, Player, Round, Step, ROUND};
pub use sheet::{formula, Circle, Clash, Leak, Params, Sheet, Table, PARAMS, SHEET, SHEET_TEXT, TABLE};

/// The interface, that is calls, arguments, answers and what they mean, and the layout of table and round. A saved
/// table or round may be lent to an engine of the same layout, on any processor.
#[derive(Clone, Copy, Debug, PartialEq, Eq, Hash)]
pub struct Version {
    /// Of the calls.
    pub interface: u16,
    /// Of table and round.
    pub layout: u16,
}

impl Version {
    /// Both in one number, as the engine answers them.
    pub fn number(self) -> u32 {
        (self.interface as u32) << 16 | self.layout as u32
    }
}

/// The version of the archive.
///
/// ```
/// assert_eq!(poqashem::version().layout, 1);
/// ```
pub fn version() -> Version {
    let number = raw::version();
    Version { interface: (number >> 16) as u16, layout: number as u16 }
}

#[cfg(test)]
mod tests {
    /// Tables and rounds may go to any thread.
    #[test]
    fn threads() {
        fn free<T: Send + Sync + 'static>() {}
        free::<crate::Sheet>();
        free::<crate::Table>();
        free::<crate::Round>();
        free::<crate::record::Record>();
        free::<crate::record::Recorder>();
    }

    /// The header's sizes and versions.
    #[test]
    fn numbers_are_the_headers() {
        let header = include_str!("../../../include/engine.h");
        let number = |name: &str| -> usize {
            let line = header.lines().find(|l| l.starts_with(&format!("#define {name} "))).expect(name);
            line.split_whitespace().nth(2).and_then(|n| n.trim_end_matches('u').parse().ok()).expect(name)
        };
        assert_eq!(number("ENGINE_TABLE"), crate::TABLE);
        assert_eq!(number("ENGINE_ROUND"), crate::ROUND);
        assert_eq!(number("ENGINE_SHEET"), crate::SHEET);
        assert_eq!(number("ENGINE_SHEET_TEXT"), crate::SHEET_TEXT);
        assert_eq!(number("ENGINE_PARAMS"), crate::PARAMS);
        assert_eq!(number("ENGINE_PLAYERS"), crate::Player::ALL.len());
        assert_eq!(number("ENGINE_HAND"), crate::round::HAND);
        let version = crate::version();
        assert_eq!(number("ENGINE_VERSION"), version.interface as usize);
        assert_eq!(number("ENGINE_LAYOUT"), version.layout as usize);
        let package = [env!("CARGO_PKG_VERSION_MAJOR"), env!("CARGO_PKG_VERSION_MINOR")];
        assert_eq!(package, [version.interface.to_string(), version.layout.to_string()], "the crate's version");
    }
}
