//! The engine that was written by hand in C: tests/bench/cengine.c.
mod c {
    extern "C" {
        pub fn cengine_frame(
            table: *const u8,
            table_len: usize,
            round: *mut u8,
            round_len: usize,
            steps: u32,
            commits: *mut u8,
            commits_len: usize,
        ) -> u64;
        pub fn cengine_step(table: *const u8, table_len: usize, round: *mut u8, round_len: usize) -> u64;
        pub fn cengine_arrive(
            table: *const u8,
            table_len: usize,
            round: *mut u8,
            round_len: usize,
            event: u32,
            player: u32,
        ) -> u32;
        pub fn cengine_board(
            table: *const u8,
            table_len: usize,
            round: *const u8,
            round_len: usize,
            behaviour: u32,
            player: u32,
        ) -> u64;
    }
}

#[inline]
pub fn frame(table: &[u8], round: &mut [u8], steps: u32, commits: &mut [u8]) -> u64 {
    let (len, room) = (round.len(), commits.len());
    unsafe { c::cengine_frame(table.as_ptr(), table.len(), round.as_mut_ptr(), len, steps, commits.as_mut_ptr(), room) }
}

#[inline]
pub fn step(table: &[u8], round: &mut [u8]) -> u64 {
    unsafe { c::cengine_step(table.as_ptr(), table.len(), round.as_mut_ptr(), round.len()) }
}

#[inline]
pub fn arrive(table: &[u8], round: &mut [u8], event: u32, player: u32) -> u32 {
    unsafe { c::cengine_arrive(table.as_ptr(), table.len(), round.as_mut_ptr(), round.len(), event, player) }
}

#[inline]
pub fn board(table: &[u8], round: &[u8], behaviour: u32, player: u32) -> u64 {
    unsafe { c::cengine_board(table.as_ptr(), table.len(), round.as_ptr(), round.len(), behaviour, player) }
}
