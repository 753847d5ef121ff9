//! Turn numbers.

use crate::TurnReply;

extern "C" {
    fn murgolab_turn(time: u32, ticks: u32) -> TurnReply;
}

#[inline]
pub fn turn(time: u32, ticks: u32) -> TurnReply {
    // SAFETY: numbers alone
    unsafe { murgolab_turn(time, ticks) }
}
