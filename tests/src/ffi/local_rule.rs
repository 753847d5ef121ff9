//! The local rule and D.

use crate::{LocalReply, Reply};

extern "C" {
    fn murgolab_local_rule(
        g: u32,
        h: u32,
        left: u32,
        right: u32,
        above: u32,
        below: u32,
        over: u32,
        under: u32,
    ) -> LocalReply;
    fn murgolab_diagonal(slowness: u32) -> Reply;
}

#[inline]
pub fn local_rule([g, h]: [u32; 2], [left, right, above, below, over, under]: [u32; 6]) -> LocalReply {
    // SAFETY: numbers alone
    unsafe { murgolab_local_rule(g, h, left, right, above, below, over, under) }
}

#[inline]
pub fn diagonal(slowness: u32) -> Reply {
    // SAFETY: numbers alone
    unsafe { murgolab_diagonal(slowness) }
}
