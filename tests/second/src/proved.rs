//! The proved engine: the Rust crate's calls on buffers of any length.
pub use poqashem::raw::*;
pub use poqashem::{ROUND, TABLE};
