//! The numbers of day.sheet, as setter names writes them. A row has its first cell's.
#![allow(dead_code, non_upper_case_globals)]
pub const EVENT_turn: u32 = 0;
pub const EVENT_bonus: u32 = 1;
pub const BEHAVIOUR_score: u32 = 0;
pub const BEHAVIOUR_streak: u32 = 1;
pub const BEHAVIOUR_secret: u32 = 2;
pub const PARAM_gain: u32 = 0;
/// Lends the parameters: gain = 1.
pub const PARAMS: [u8; 32] = [0, 0, 0, 1, 0, 0, 0, 0, 0, 0, 0, 0, 0, 0, 0, 0, 0, 0, 0, 0, 0, 0, 0, 0, 0, 0, 0, 0, 0, 0, 0, 0];
