//! The scenario file's reader and writer with start records.

use crate::board::Board;
use crate::scenario::Scenario;
use crate::{Reply, Start};

#[rustfmt::skip]
extern "C" {
    fn murgolab_read_scenario(
        file: *const u8, file_len: usize, slow: *mut u32, slow_len: usize,
        starts: *mut Start, starts_len: usize,
    ) -> Scenario;
    fn murgolab_write_scenario(
        width: u32, height: u32, storeys: u32, ticks: u32, ground: u32, slow: *const u32, slow_len: usize,
        starts: *const Start, starts_len: usize, out: *mut u8, out_len: usize,
    ) -> Reply;
}

#[inline]
#[rustfmt::skip]
pub fn read(file: &[u8], slow: &mut [u32], starts: &mut [Start]) -> Scenario {
    // SAFETY: the lists are as long as said, and those lent for writing are borrowed alone
    unsafe {
        murgolab_read_scenario(
            file.as_ptr(), file.len(), slow.as_mut_ptr(), slow.len(), starts.as_mut_ptr(), starts.len(),
        )
    }
}

/// The board's plain lists are as long as each other.
#[inline]
#[rustfmt::skip]
pub fn write(b: &Board, ticks: u32, ground: u32, out: &mut [u8]) -> Reply {
    let starts = b.starts();
    // SAFETY: the lists are as long as said, and the one lent for writing is borrowed alone
    unsafe {
        murgolab_write_scenario(
            b.width, b.height, b.storeys, ticks, ground, b.slow.as_ptr(), b.slow.len(),
            starts.as_ptr(), starts.len(), out.as_mut_ptr(), out.len(),
        )
    }
}
