//! Calls that the table has something against.

use crate::board::Board;
use crate::calls::{Call, Kind, Lengths};
use crate::random::Random;
use crate::rule::pair;
use crate::scenario::Held;
use crate::{LARGEST, LATEST_START, LONGEST_SIDE, MOST_STOREYS, NEVER, SLOWEST};

const BAD_SIDES: [u32; 8] = [0, LONGEST_SIDE + 1, LONGEST_SIDE + 2, 1_000, 65_536, 65_537, 1 << 31, NEVER];
/// Pairs of which a number is above 4,095; the other one is good, 0 or too slow too.
pub const TOO_SLOW: [u32; 8] = [
    pair(SLOWEST + 1, 10),
    pair(10, SLOWEST + 1),
    pair(SLOWEST + 1, 0),
    pair(0, SLOWEST + 1),
    pair(65_535, 1),
    pair(1, 65_535),
    pair(0, 32_768),
    NEVER,
];

/// Pairs of which one number is 0 and the other is not. A caller who hands in one number s, as was once the way, hands
/// in the pair (s, 0).
pub const HALF_WALLS: [u32; 6] = [1, 10, SLOWEST, pair(0, 1), pair(0, 10), pair(0, SLOWEST)];

/// Good pairs for a board of one storey, and for no house.
pub const UNEQUAL: [u32; 6] =
    [pair(10, 11), pair(11, 10), pair(1, SLOWEST), pair(SLOWEST, 1), pair(SLOWEST, SLOWEST - 1), pair(256, 1)];

/// The numbers of the table in the order in which they are looked for: the line that crates/eikonal/specs/Order.antt
/// defines, without the numbers that no call gives yet.
pub const ORDER: [u32; 18] = [1, 2, 15, 3, 4, 5, 21, 23, 6, 7, 18, 8, 9, 10, 11, 12, 13, 14];

/// Those that a march, a round or a run can be refused by.
pub const CALL_CAUSES: [u32; 14] = [2, 4, 5, 21, 23, 7, 18, 8, 9, 10, 11, 12, 13, 14];

/// Those that the writer of scenario files can refuse by.
pub const WRITER_CAUSES: [u32; 11] = [2, 3, 4, 5, 21, 23, 7, 18, 8, 9, 14];

/// Which of several causes is given.
pub fn first_of(causes: &[u32]) -> u32 {
    ORDER.into_iter().find(|number| causes.contains(number)).expect("a number of the table")
}

/// Gives a call the cause `number`, where it can have it. Earlier causes may hide it, so the second
/// solver says what is answered.
pub fn spoil_call(r: &mut Random, call: &mut Call, lengths: &mut Lengths, number: u32) {
    let Lengths { times, sides, work } = lengths;
    match number {
        10 => spoil_numbers(r, &mut call.kind),
        11 | 12 => spoil_tiles(r, &mut call.kind, number),
        13 => *times = another_length(r, *times),
        14 if r.once_in(2) => *sides = another_length(r, *sides),
        14 => *work = too_short(r, *work),
        _ => spoil_board(r, &mut call.board, number),
    }
}

/// The length of a list that must have at least so many entries.
pub fn too_short(r: &mut Random, least: usize) -> usize {
    r.pick(&[0, 1, least / 4, least / 2, least.saturating_sub(1)])
}

/// The length of a list that must have just so many entries.
fn another_length(r: &mut Random, right: usize) -> usize {
    r.pick(&[0, 1, right.saturating_sub(1), right + 1, 2 * right])
}

/// The same for what is handed to the writer; `out` is the length of the list that it is lent.
pub fn spoil_writing(r: &mut Random, held: &mut Held, out: &mut usize, number: u32) {
    match number {
        3 => held.ticks = r.pick(&[0, 65_536, 65_537, 1 << 31, NEVER]),
        5 if r.once_in(3) => held.ground = r.pick(&TOO_SLOW),
        21 if r.once_in(3) => held.ground = r.pick(&HALF_WALLS),
        23 if held.board.storeys >= 2 && r.once_in(3) => held.ground = r.pick(&UNEQUAL),
        14 => *out = r.pick(&[0, 19, *out / 2, out.saturating_sub(1)]),
        _ => spoil_board(r, &mut held.board, number),
    }
}

/// 2, 4, 5, 21, 23, 7, 18, 8 and 9.
fn spoil_board(r: &mut Random, board: &mut Board, number: u32) {
    match number {
        2 if r.once_in(2) => board.width = r.pick(&BAD_SIDES),
        2 => board.height = r.pick(&BAD_SIDES),
        4 => spoil_length(r, board),
        5 => put_slowness(r, board, &TOO_SLOW),
        21 => put_slowness(r, board, &HALF_WALLS),
        23 => spoil_storeys(r, board),
        7 => start_off_the_board(r, board),
        18 => starts_that_do_not_rise(r, board),
        8 => {
            start_at_least_once(board);
            *any_of(r, &mut board.begins) = r.pick(&[LATEST_START + 1, 1_048_576, LARGEST, NEVER]);
        }
        _ => {
            start_at_least_once(board);
            let cell = r.pick(&board.cells) as usize;
            if let Some(s) = board.slow.get_mut(cell) {
                *s = 0;
            }
        }
    }
}

fn any_of<'a, T>(r: &mut Random, list: &'a mut [T]) -> &'a mut T {
    let at = r.below(list.len() as u32) as usize;
    &mut list[at]
}

/// Anywhere; a board without cells has no place for it.
fn put_slowness(r: &mut Random, board: &mut Board, from: &[u32]) {
    if !board.slow.is_empty() {
        *any_of(r, &mut board.slow) = r.pick(from);
    }
}

/// None or too many storeys, or an unequal pair in a house; a board of one storey is made a house for that. The list of
/// slownesses goes with the storeys, so that it fits if it did before.
fn spoil_storeys(r: &mut Random, board: &mut Board) {
    let storeys = match r.below(5) {
        0 => 0,
        1 | 2 => r.pick(&[MOST_STOREYS + 1, MOST_STOREYS + 1, 10, 16]),
        _ => board.storeys.max(2),
    };
    let length = board.slow.len() * storeys as usize / board.storeys.max(1) as usize;
    board.slow = board.slow.iter().copied().cycle().take(length).collect();
    board.storeys = storeys;
    if storeys >= 2 {
        put_slowness(r, board, &UNEQUAL);
    }
}

fn start_at_least_once(board: &mut Board) {
    if board.cells.is_empty() || board.begins.is_empty() {
        board.cells = vec![0];
        board.begins = vec![0];
    }
}

/// A list that is an entry too long or too short, or storeys that the slownesses do not fit.
fn spoil_length(r: &mut Random, board: &mut Board) {
    if r.once_in(8) {
        board.storeys = r.pick(&[0, board.storeys.wrapping_add(1), 65_535, 65_536, 1 << 31, NEVER]);
        return;
    }
    let list = match r.below(4) {
        0 | 1 => &mut board.slow,
        2 => &mut board.cells,
        _ => &mut board.begins,
    };
    if r.once_in(2) {
        list.push(NEVER);
    } else if list.pop().is_none() {
        list.push(0);
    }
}

/// A start more, or another cell for one that is there.
fn start_off_the_board(r: &mut Random, board: &mut Board) {
    let size = board.slow.len() as u32;
    let off = r.pick(&[size, size + 1, 65_536, 1 << 31, NEVER]);
    let at = r.below(board.cells.len() as u32 + 1) as usize;
    match board.cells.get_mut(at) {
        Some(cell) if r.once_in(2) => *cell = off,
        _ => add_start(board, at, off),
    }
}

/// The same cell twice, two that fall, or a last start that is not above the one before.
fn starts_that_do_not_rise(r: &mut Random, board: &mut Board) {
    start_at_least_once(board);
    let end = board.cells.len();
    let at = r.below(end as u32) as usize;
    let cell = board.cells[at];
    match r.below(3) {
        0 if at > 0 => board.cells.swap(at - 1, at),
        1 => add_start(board, end, cell),
        _ => add_start(board, at, cell),
    }
}

fn add_start(board: &mut Board, at: usize, cell: u32) {
    board.cells.insert(at, cell);
    board.begins.insert(at.min(board.begins.len()), 0);
}

fn spoil_numbers(r: &mut Random, kind: &mut Kind) {
    let above = r.pick(&[LARGEST + 1, 1 << 31, NEVER - 1, NEVER]);
    match kind {
        Kind::March { horizon } => *horizon = above,
        Kind::Round { bound, .. } => *bound = above,
        Kind::Run { stride, horizon, .. } => match r.below(3) {
            0 => *horizon = above,
            1 => *stride = above,
            _ => *stride = 0,
        },
    }
}

/// 11 and 12; a march has neither.
fn spoil_tiles(r: &mut Random, kind: &mut Kind, number: u32) {
    let (across, down, order) = match kind {
        Kind::March { .. } => return,
        Kind::Round { across, down, order, .. } | Kind::Run { across, down, order, .. } => (across, down, order),
    };
    match (number, r.below(6)) {
        (11, 0..=2) => *across = r.pick(&BAD_SIDES),
        (11, _) => *down = r.pick(&BAD_SIDES),
        (_, 0) => order.push(r.pick(&[0, order.len() as u32, NEVER])),
        (_, 1) => order.clear(),
        (_, 2) if !order.is_empty() => *any_of(r, order) = r.pick(&[0, order.len() as u32, 65_536, NEVER]),
        (_, 3) if order.len() > 1 => {
            let twice = r.pick(order);
            *any_of(r, order) = twice;
        }
        _ => {
            order.pop();
        }
    }
}
