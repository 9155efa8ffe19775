//! The setter's text: a plain reader and writer, written from the format alone (`docs/SHEETS.md`, "Sheets as text").
//!
//! [`assemble`] reads a text to the bytes of a sheet, with the names that it declares, or answers the first [`Fault`],
//! with kind, line and column. [`describe`] writes a sheet's bytes as text, with invented names. What describe writes,
//! assemble reads to the very bytes.
//!
//! Nothing here is proved. It says nothing of what a sheet means, of circles or of instructions: that is the engine's.
//!
//! ```
//! use sheet_text::{assemble, describe};
//! let read = assemble(b"event hit rank 2\nactive score = 0\n  on hit: score + 10\n").unwrap();
//! assert_eq!(read.sheet.len(), 34);
//! assert_eq!(describe(&read.sheet).unwrap(), "event e0 rank 2\nactive b0=0\n  on e0:b0+10\n");
//! let fault = assemble(b"event hit rank 16").unwrap_err();
//! assert_eq!(fault.to_string(), "1:16: off the scale (33): a rank is 0 to 15");
//! ```
#![warn(missing_docs)]
#![forbid(unsafe_code)]

mod bytes;
mod fault;
mod formula;
mod hint;
mod lint;
mod more;
mod read;
mod token;
mod tree;
mod words;
mod write;

pub use bytes::{decode, encode, field_at_fault};
pub use fault::{nearest, Fault, Kind, Place};
pub use hint::{encoding, hint};
pub use lint::{warnings, Warning};
pub use more::faults;
pub use read::{assemble, assemble_into, Assembled, Declared, Param};
pub use tree::{Active, Behaviour, Body, Event, Expr, Handler, Sheet};
pub use words::words;
pub use write::describe;

/// Bytes of a text, at most.
pub const TEXT: usize = 65_536;
/// Bytes of a sheet, at most.
pub const SHEET: usize = 8_192;
/// Bytes of a name, at most.
pub const NAME: usize = 32;
/// Events, behaviours (a row's cells counted) and parameters of a sheet, at most.
pub const EVENTS: usize = 32;
/// See [`EVENTS`].
pub const BEHAVIOURS: usize = 64;
/// See [`EVENTS`].
pub const PARAMS: usize = 8;
/// The highest rank.
pub const RANK: u64 = 15;
/// The highest player.
pub const PLAYER: u64 = 7;
/// A row's cells, at least and at most.
pub const CELLS: std::ops::RangeInclusive<u64> = 2..=16;
/// An expression's nesting, at most.
pub const NESTING: usize = 16;
