//! The calls as C has them: buffers of any length and any bytes, numbers as they are answered.
//!
//! The types of this crate lend what is due, so that an app has no need of these functions. They are for tests that
//! lend buffers that are too short, too long or damaged. Every one is safe: a slice is a true length, the borrow keeps
//! a buffer that is written from overlapping any other, and those that are only read may be one; the engine's answer
//! and every byte that it leaves are proved for all bytes.
//! `include/engine.h` says what each answers.
//!
//! ```
//! use poqashem::raw;
//! let mut short = vec![0; poqashem::TABLE - 1];
//! assert_eq!(raw::compile(&[], &[], &mut short), 1, "a table of 34,815 bytes");
//! ```

/// The functions of the archive.
#[allow(missing_docs)]
pub mod ffi {
    extern "C" {
        pub fn engine_compile(
            sheet: *const u8,
            sheet_len: usize,
            params: *const u8,
            params_len: usize,
            table: *mut u8,
            table_len: usize,
        ) -> u32;
        pub fn engine_circle(
            sheet: *const u8,
            sheet_len: usize,
            params: *const u8,
            params_len: usize,
            list: *mut u8,
            list_len: usize,
        ) -> u64;
        pub fn engine_start(table: *const u8, table_len: usize, round: *mut u8, round_len: usize) -> u32;
        pub fn engine_arrive(
            table: *const u8,
            table_len: usize,
            round: *mut u8,
            round_len: usize,
            event: u32,
            player: u32,
        ) -> u32;
        pub fn engine_step(table: *const u8, table_len: usize, round: *mut u8, round_len: usize) -> u64;
        pub fn engine_told(answer: u64) -> u64;
        pub fn engine_board(
            table: *const u8,
            table_len: usize,
            round: *const u8,
            round_len: usize,
            behaviour: u32,
            player: u32,
        ) -> u64;
        pub fn engine_forecast(table: *const u8, table_len: usize, round: *const u8, round_len: usize) -> u64;
        pub fn engine_preview(
            table: *const u8,
            table_len: usize,
            round: *const u8,
            round_len: usize,
            event: u32,
            behaviour: u32,
            player: u32,
        ) -> u64;
        pub fn engine_mend(
            old: *const u8,
            old_len: usize,
            table: *const u8,
            table_len: usize,
            round: *mut u8,
            round_len: usize,
        ) -> u32;
        pub fn engine_formula(text: *const u8, text_len: usize, buffer: *mut u8, buffer_len: usize) -> u64;
        pub fn engine_join(
            first: *const u8,
            first_len: usize,
            second: *const u8,
            second_len: usize,
            params: *const u8,
            params_len: usize,
            buffer: *mut u8,
            buffer_len: usize,
        ) -> u64;
        pub fn engine_replay(
            table: *const u8,
            table_len: usize,
            round: *mut u8,
            round_len: usize,
            calls: *const u8,
            calls_len: usize,
            answers: *mut u8,
            answers_len: usize,
        ) -> usize;
    }
    extern "C" {
        pub fn engine_version() -> u32;
    }
    extern "C" {
        pub fn engine_event_count(table: *const u8, table_len: usize) -> u64;
        pub fn engine_behaviour_count(table: *const u8, table_len: usize) -> u64;
        pub fn engine_event_rank(table: *const u8, table_len: usize, event: u32) -> u64;
    }
    extern "C" {
        pub fn engine_frame(
            table: *const u8,
            table_len: usize,
            round: *mut u8,
            round_len: usize,
            steps: u32,
            commits: *mut u8,
            commits_len: usize,
        ) -> u64;
    }
    extern "C" {
        pub fn engine_agree(sheet: *const u8, sheet_len: usize, params: *const u8, params_len: usize) -> u64;
    }
    extern "C" {
        pub fn engine_agree_for(
            sheet: *const u8,
            sheet_len: usize,
            params: *const u8,
            params_len: usize,
            behaviour: u32,
        ) -> u64;
        pub fn engine_pair(
            sheet: *const u8,
            sheet_len: usize,
            params: *const u8,
            params_len: usize,
            first: u32,
            second: u32,
        ) -> u64;
        pub fn engine_deliver(
            table: *const u8,
            table_len: usize,
            round: *mut u8,
            round_len: usize,
            number: u32,
            event: u32,
            player: u32,
            commits: *mut u8,
            commits_len: usize,
        ) -> u64;
        pub fn engine_taken(table: *const u8, table_len: usize, round: *const u8, round_len: usize) -> u64;
    }
    extern "C" {
        pub fn engine_leak(
            sheet: *const u8,
            sheet_len: usize,
            params: *const u8,
            params_len: usize,
            player: u32,
        ) -> u64;
    }
    extern "C" {
        pub fn engine_assemble(text: *const u8, text_len: usize, buffer: *mut u8, buffer_len: usize) -> u64;
        pub fn engine_describe(sheet: *const u8, sheet_len: usize, buffer: *mut u8, buffer_len: usize) -> u64;
    }
}

/// 0, or the refusal's number.
#[inline]
pub fn compile(sheet: &[u8], params: &[u8], table: &mut [u8]) -> u32 {
    let (s, p, t) = (sheet, params, table);
    unsafe { ffi::engine_compile(s.as_ptr(), s.len(), p.as_ptr(), p.len(), t.as_mut_ptr(), t.len()) }
}

/// compile's number; for 12 packed with the event and the length of a shortest circle, which stands in the list.
#[inline]
pub fn circle(sheet: &[u8], params: &[u8], list: &mut [u8]) -> u64 {
    let (s, p, l) = (sheet, params, list);
    unsafe { ffi::engine_circle(s.as_ptr(), s.len(), p.as_ptr(), p.len(), l.as_mut_ptr(), l.len()) }
}

/// 0, or 14.
#[inline]
pub fn start(table: &[u8], round: &mut [u8]) -> u32 {
    unsafe { ffi::engine_start(table.as_ptr(), table.len(), round.as_mut_ptr(), round.len()) }
}

/// 0 where it is taken in, or the refusal's number.
#[inline]
pub fn arrive(table: &[u8], round: &mut [u8], event: u32, player: u32) -> u32 {
    unsafe { ffi::engine_arrive(table.as_ptr(), table.len(), round.as_mut_ptr(), round.len(), event, player) }
}

/// A packed answer, or 14.
#[inline]
pub fn step(table: &[u8], round: &mut [u8]) -> u64 {
    unsafe { ffi::engine_step(table.as_ptr(), table.len(), round.as_mut_ptr(), round.len()) }
}

/// A step's answer as the other players are told it.
#[inline]
pub fn told(answer: u64) -> u64 {
    unsafe { ffi::engine_told(answer) }
}

/// 2^32 and the value, or the refusal's number.
#[inline]
pub fn board(table: &[u8], round: &[u8], behaviour: u32, player: u32) -> u64 {
    unsafe { ffi::engine_board(table.as_ptr(), table.len(), round.as_ptr(), round.len(), behaviour, player) }
}

/// 2^32 and the steps, or 14.
#[inline]
pub fn forecast(table: &[u8], round: &[u8]) -> u64 {
    unsafe { ffi::engine_forecast(table.as_ptr(), table.len(), round.as_ptr(), round.len()) }
}

/// 2^32 and the value, or the refusal's number.
#[inline]
pub fn preview(table: &[u8], round: &[u8], event: u32, behaviour: u32, player: u32) -> u64 {
    unsafe { ffi::engine_preview(table.as_ptr(), table.len(), round.as_ptr(), round.len(), event, behaviour, player) }
}

/// 0, or the refusal's number.
#[inline]
pub fn mend(old: &[u8], table: &[u8], round: &mut [u8]) -> u32 {
    let (o, t, r) = (old, table, round);
    unsafe { ffi::engine_mend(o.as_ptr(), o.len(), t.as_ptr(), t.len(), r.as_mut_ptr(), r.len()) }
}

/// 2^32 and the field's length, or the refusal's number.
#[inline]
pub fn formula(text: &[u8], buffer: &mut [u8]) -> u64 {
    unsafe { ffi::engine_formula(text.as_ptr(), text.len(), buffer.as_mut_ptr(), buffer.len()) }
}

/// 2^32 and the joined sheet's length, or the refusal's number.
#[inline]
pub fn join(first: &[u8], second: &[u8], params: &[u8], buffer: &mut [u8]) -> u64 {
    let (a, b, p, out) = (first, second, params, buffer);
    unsafe {
        ffi::engine_join(a.as_ptr(), a.len(), b.as_ptr(), b.len(), p.as_ptr(), p.len(), out.as_mut_ptr(), out.len())
    }
}

/// How many recorded calls were made: six bytes for each call, eight for each answer.
#[inline]
pub fn replay(table: &[u8], round: &mut [u8], calls: &[u8], answers: &mut [u8]) -> usize {
    let (t, r, c, a) = (table, round, calls, answers);
    unsafe {
        ffi::engine_replay(t.as_ptr(), t.len(), r.as_mut_ptr(), r.len(), c.as_ptr(), c.len(), a.as_mut_ptr(), a.len())
    }
}

/// The interface times 65,536, and the layout.
#[inline]
pub fn version() -> u32 {
    unsafe { ffi::engine_version() }
}

/// 2^32 and how many events the table declares, or 14.
#[inline]
pub fn event_count(table: &[u8]) -> u64 {
    unsafe { ffi::engine_event_count(table.as_ptr(), table.len()) }
}

/// 2^32 and how many behaviours the table has, or 14.
#[inline]
pub fn behaviour_count(table: &[u8]) -> u64 {
    unsafe { ffi::engine_behaviour_count(table.as_ptr(), table.len()) }
}

/// 2^32 and the event's rank, or 14, then 15.
#[inline]
pub fn event_rank(table: &[u8], event: u32) -> u64 {
    unsafe { ffi::engine_event_rank(table.as_ptr(), table.len(), event) }
}

/// Up to so many steps: how many were made, how many commits stand in the buffer, and why it ended.
#[inline]
pub fn frame(table: &[u8], round: &mut [u8], steps: u32, commits: &mut [u8]) -> u64 {
    let (t, r, c) = (table, round, commits);
    unsafe { ffi::engine_frame(t.as_ptr(), t.len(), r.as_mut_ptr(), r.len(), steps, c.as_mut_ptr(), c.len()) }
}

/// compile's number, 0, or 29 packed with two events and a behaviour.
#[inline]
pub fn agree(sheet: &[u8], params: &[u8]) -> u64 {
    unsafe { ffi::engine_agree(sheet.as_ptr(), sheet.len(), params.as_ptr(), params.len()) }
}

/// compile's number, 24, 0, or 30 packed with a seen and a hidden behaviour.
#[inline]
pub fn leak(sheet: &[u8], params: &[u8], player: u32) -> u64 {
    unsafe { ffi::engine_leak(sheet.as_ptr(), sheet.len(), params.as_ptr(), params.len(), player) }
}

/// 2^32 and the sheet's length, or a fault's kind, 31 to 42, packed with its line and column.
#[inline]
pub fn assemble(text: &[u8], buffer: &mut [u8]) -> u64 {
    unsafe { ffi::engine_assemble(text.as_ptr(), text.len(), buffer.as_mut_ptr(), buffer.len()) }
}

/// 2^32 and the text's length, or compile's number, then 41.
#[inline]
pub fn describe(sheet: &[u8], buffer: &mut [u8]) -> u64 {
    unsafe { ffi::engine_describe(sheet.as_ptr(), sheet.len(), buffer.as_mut_ptr(), buffer.len()) }
}

/// compile's number; 18; 0; or 29 packed with two events of unequal rank and the behaviour at which they meet.
#[inline]
pub fn agree_for(sheet: &[u8], params: &[u8], behaviour: u32) -> u64 {
    let (s, p) = (sheet, params);
    unsafe { ffi::engine_agree_for(s.as_ptr(), s.len(), p.as_ptr(), p.len(), behaviour) }
}

/// compile's number; 15; 0 where the events are independent; or 2^32, a behaviour, and what each does to it.
#[inline]
pub fn pair(sheet: &[u8], params: &[u8], first: u32, second: u32) -> u64 {
    let (s, p) = (sheet, params);
    unsafe { ffi::engine_pair(s.as_ptr(), s.len(), p.as_ptr(), p.len(), first, second) }
}

/// A refusal's number, or how a delivery ended, packed with the commits that it wrote and the steps that it made.
#[inline]
pub fn deliver(table: &[u8], round: &mut [u8], number: u32, event: u32, player: u32, commits: &mut [u8]) -> u64 {
    let (t, r, c) = (table, round, commits);
    let (to, room) = (c.as_mut_ptr(), c.len());
    unsafe {
        ffi::engine_deliver(t.as_ptr(), t.len(), r.as_mut_ptr(), r.len(), number, event, player, to, room)
    }
}

/// 2^32 and the number taken in, packed with the number in hand; or 14.
#[inline]
pub fn taken(table: &[u8], round: &[u8]) -> u64 {
    let (t, r) = (table, round);
    unsafe { ffi::engine_taken(t.as_ptr(), t.len(), r.as_ptr(), r.len()) }
}
