//! The scenario file's reader and writer with plain start lists.

use crate::board::Board;
use crate::scenario::Scenario;
use crate::Reply;

#[rustfmt::skip]
extern "C" {
    fn murgolab_read_scenario_plain(
        file: *const u8, file_len: usize, slow: *mut u32, slow_len: usize,
        cells: *mut u32, cells_len: usize, begins: *mut u32, begins_len: usize,
    ) -> Scenario;
    fn murgolab_write_scenario_plain(
        width: u32, height: u32, storeys: u32, ticks: u32, ground: u32, slow: *const u32, slow_len: usize,
        cells: *const u32, cells_len: usize, begins: *const u32, begins_len: usize,
        out: *mut u8, out_len: usize,
    ) -> Reply;
}

#[inline]
#[rustfmt::skip]
pub fn read(file: &[u8], slow: &mut [u32], cells: &mut [u32], begins: &mut [u32]) -> Scenario {
    // SAFETY: the lists are as long as said, and those lent for writing are borrowed alone
    unsafe {
        murgolab_read_scenario_plain(
            file.as_ptr(), file.len(), slow.as_mut_ptr(), slow.len(),
            cells.as_mut_ptr(), cells.len(), begins.as_mut_ptr(), begins.len(),
        )
    }
}

#[inline]
#[rustfmt::skip]
pub fn write(b: &Board, ticks: u32, ground: u32, out: &mut [u8]) -> Reply {
    // SAFETY: the lists are as long as said, and the one lent for writing is borrowed alone
    unsafe {
        murgolab_write_scenario_plain(
            b.width, b.height, b.storeys, ticks, ground, b.slow.as_ptr(), b.slow.len(),
            b.cells.as_ptr(), b.cells.len(), b.begins.as_ptr(), b.begins.len(),
            out.as_mut_ptr(), out.len(),
        )
    }
}
