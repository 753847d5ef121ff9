//! March, round and run with plain start lists.

use crate::board::Board;
use crate::calls::{Call, Kind};
use crate::Reply;

#[rustfmt::skip]
extern "C" {
    fn murgolab_march_plain(
        width: u32, height: u32, storeys: u32, slow: *const u32, slow_len: usize,
        cells: *const u32, cells_len: usize, begins: *const u32, begins_len: usize,
        horizon: u32,
        times: *mut u32, times_len: usize, sides: *mut u8, sides_len: usize, work: *mut u32, work_len: usize,
    ) -> Reply;
    fn murgolab_one_round_plain(
        width: u32, height: u32, storeys: u32, slow: *const u32, slow_len: usize,
        cells: *const u32, cells_len: usize, begins: *const u32, begins_len: usize,
        across: u32, down: u32, bound: u32, order: *const u32, order_len: usize,
        times: *mut u32, times_len: usize, sides: *mut u8, sides_len: usize, work: *mut u32, work_len: usize,
    ) -> Reply;
    fn murgolab_tile_run_plain(
        width: u32, height: u32, storeys: u32, slow: *const u32, slow_len: usize,
        cells: *const u32, cells_len: usize, begins: *const u32, begins_len: usize,
        across: u32, down: u32, stride: u32, horizon: u32, order: *const u32, order_len: usize,
        times: *mut u32, times_len: usize, sides: *mut u8, sides_len: usize, work: *mut u32, work_len: usize,
    ) -> Reply;
}

#[inline]
#[rustfmt::skip]
pub fn march(
    b: &Board, horizon: u32,
    times: &mut [u32], sides: &mut [u8], work: &mut [u32],
) -> Reply {
    // SAFETY: the lists are as long as said, and those lent for writing are borrowed alone
    unsafe {
        murgolab_march_plain(
            b.width, b.height, b.storeys, b.slow.as_ptr(), b.slow.len(),
            b.cells.as_ptr(), b.cells.len(), b.begins.as_ptr(), b.begins.len(),
            horizon,
            times.as_mut_ptr(), times.len(), sides.as_mut_ptr(), sides.len(), work.as_mut_ptr(), work.len(),
        )
    }
}

#[inline]
#[rustfmt::skip]
#[allow(clippy::too_many_arguments)]
pub fn one_round(
    b: &Board, across: u32, down: u32, bound: u32, order: &[u32],
    times: &mut [u32], sides: &mut [u8], work: &mut [u32],
) -> Reply {
    // SAFETY: the lists are as long as said, and those lent for writing are borrowed alone
    unsafe {
        murgolab_one_round_plain(
            b.width, b.height, b.storeys, b.slow.as_ptr(), b.slow.len(),
            b.cells.as_ptr(), b.cells.len(), b.begins.as_ptr(), b.begins.len(),
            across, down, bound, order.as_ptr(), order.len(),
            times.as_mut_ptr(), times.len(), sides.as_mut_ptr(), sides.len(), work.as_mut_ptr(), work.len(),
        )
    }
}

#[inline]
#[rustfmt::skip]
#[allow(clippy::too_many_arguments)]
pub fn tile_run(
    b: &Board, across: u32, down: u32, stride: u32, horizon: u32, order: &[u32],
    times: &mut [u32], sides: &mut [u8], work: &mut [u32],
) -> Reply {
    // SAFETY: the lists are as long as said, and those lent for writing are borrowed alone
    unsafe {
        murgolab_tile_run_plain(
            b.width, b.height, b.storeys, b.slow.as_ptr(), b.slow.len(),
            b.cells.as_ptr(), b.cells.len(), b.begins.as_ptr(), b.begins.len(),
            across, down, stride, horizon, order.as_ptr(), order.len(),
            times.as_mut_ptr(), times.len(), sides.as_mut_ptr(), sides.len(), work.as_mut_ptr(), work.len(),
        )
    }
}

/// The call over plain start lists.
#[inline]
#[rustfmt::skip]
pub fn play(call: &Call, times: &mut [u32], sides: &mut [u8], work: &mut [u32]) -> Reply {
    let b = &call.board;
    match &call.kind {
        Kind::March { horizon } => march(b, *horizon, times, sides, work),
        Kind::Round { across, down, bound, order } => one_round(b, *across, *down, *bound, order, times, sides, work),
        Kind::Run { across, down, stride, horizon, order } =>
            tile_run(b, *across, *down, *stride, *horizon, order, times, sides, work),
    }
}
