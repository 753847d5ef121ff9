//! The C names that are called here, as `include/murgolab.h` declares them.

use crate::Start;

#[repr(C)]
pub struct Reply {
    pub number: u32,
    pub count: u32,
    pub place: usize,
}

#[repr(C)]
pub struct LocalReply {
    pub number: u32,
    pub time: u32,
    pub sides: u32,
}

#[repr(C)]
pub struct TurnReply {
    pub number: u32,
    pub turn: u32,
    pub to_go: u32,
}

#[repr(C)]
pub struct Scenario {
    pub number: u32,
    pub width: u32,
    pub height: u32,
    pub storeys: u32,
    pub ticks: u32,
    pub ground: u32,
    pub starts: u32,
    pub place: usize,
}

#[rustfmt::skip]
extern "C" {
    pub fn murgolab_local_rule(
        g: u32, h: u32, left: u32, right: u32, above: u32, below: u32, over: u32, under: u32,
    ) -> LocalReply;
    pub fn murgolab_diagonal(slowness: u32) -> Reply;
    pub fn murgolab_turn(time: u32, ticks: u32) -> TurnReply;
    pub fn murgolab_march(
        width: u32, height: u32, storeys: u32,
        slow: *const u32, slow_len: usize, starts: *const Start, starts_len: usize,
        horizon: u32,
        times: *mut u32, times_len: usize, sides: *mut u8, sides_len: usize, work: *mut u32, work_len: usize,
    ) -> Reply;
    pub fn murgolab_one_round(
        width: u32, height: u32, storeys: u32,
        slow: *const u32, slow_len: usize, starts: *const Start, starts_len: usize,
        across: u32, down: u32, bound: u32, order: *const u32, order_len: usize,
        times: *mut u32, times_len: usize, sides: *mut u8, sides_len: usize, work: *mut u32, work_len: usize,
    ) -> Reply;
    pub fn murgolab_tile_run(
        width: u32, height: u32, storeys: u32,
        slow: *const u32, slow_len: usize, starts: *const Start, starts_len: usize,
        across: u32, down: u32, stride: u32, horizon: u32, order: *const u32, order_len: usize,
        times: *mut u32, times_len: usize, sides: *mut u8, sides_len: usize, work: *mut u32, work_len: usize,
    ) -> Reply;
    pub fn murgolab_read_scenario(
        file: *const u8, file_len: usize,
        slow: *mut u32, slow_len: usize, starts: *mut Start, starts_len: usize,
    ) -> Scenario;
    pub fn murgolab_write_scenario(
        width: u32, height: u32, storeys: u32, ticks: u32, ground: u32,
        slow: *const u32, slow_len: usize, starts: *const Start, starts_len: usize,
        out: *mut u8, out_len: usize,
    ) -> Reply;
    pub fn murgolab_tablet_run(
        file: *const u8, file_len: usize, stride: u32, across: u32, down: u32, out: *mut u8, out_len: usize,
    ) -> u64;
}
