//! Scenario files typed by hand from document 01 and cards 10 and 12, and what they hold; slownesses, and what refuses
//! them. Nothing here is made by a program. `board` and `row` are for tests that type boards of equal pairs.

use crate::board::Board;
use crate::rule::{equal, pair};
use crate::scenario::Held;
use crate::NEVER;

/// A board of equal pairs with these starts.
pub fn board([width, height, storeys]: [u32; 3], slow: &[u32], starts: &[(u32, u32)]) -> Board {
    let slow = slow.iter().map(|&s| equal(s)).collect();
    let (cells, begins) = starts.iter().copied().unzip();
    Board { width, height, storeys, slow, cells, begins }
}

/// A row of cells with these starts.
pub fn row(slow: &[u32], starts: &[(u32, u32)]) -> Board {
    board([slow.len() as u32, 1, 1], slow, starts)
}

/// Slownesses at the ends of their range and beyond, each with the number that refuses it, 0 for none.
pub const SLOWNESSES: [(u32, u32); 15] = [
    (0, 0),
    (equal(4_095), 0),
    (pair(1, 4_095), 0),
    (pair(4_096, 4_095), 5),
    (pair(4_095, 4_096), 5),
    (pair(4_096, 0), 5),
    (pair(0, 4_096), 5),
    (pair(65_535, 1), 5),
    (pair(1, 65_535), 5),
    (NEVER, 5),
    (pair(1, 0), 21),
    (pair(0, 1), 21),
    (pair(10, 0), 21),
    (pair(4_095, 0), 21),
    (pair(0, 4_095), 21),
];

/// Three by two, one storey, 10 ticks, ground 10 along the row and 20 down the column; walls 1 and 2; cell 3 the
/// slowest along the row and the fastest down the column; starts 0 at 5 and 5 at 1,000,000.
#[rustfmt::skip]
pub const FILE: [u8; 60] = [
    3, 0, 2, 0, 1, 0, 10, 0, 10, 0, 20, 0, 2, 0, 0, 0, 2, 0, 0, 0,
    1, 0, 0, 0, 2, 0, 0, 0, 0, 0, 0, 0,
    3, 0, 0, 0, 1, 0, 0, 0, 0xFF, 0x0F, 1, 0,
    0, 0, 0, 0, 5, 0, 0, 0,
    5, 0, 0, 0, 0x40, 0x42, 0x0F, 0,
];

pub fn held() -> Held {
    let ground = pair(10, 20);
    let slow = vec![ground, 0, 0, pair(4_095, 1), ground, ground];
    let board = Board { width: 3, height: 2, storeys: 1, slow, cells: vec![0, 5], begins: vec![5, 1_000_000] };
    Held { ticks: 10, ground, board }
}

/// Two by two in two storeys, 10 ticks, ground 10; a run of walls from the last cell of the first storey to the first
/// of the second; starts 0 at 0 and 7 at 1,000,000.
#[rustfmt::skip]
pub const HOUSE: [u8; 48] = [
    2, 0, 2, 0, 2, 0, 10, 0, 10, 0, 10, 0, 1, 0, 0, 0, 2, 0, 0, 0,
    3, 0, 0, 0, 2, 0, 0, 0, 0, 0, 0, 0,
    0, 0, 0, 0, 0, 0, 0, 0,
    7, 0, 0, 0, 0x40, 0x42, 0x0F, 0,
];

pub fn house() -> Held {
    let slow = [10, 10, 10, 0, 0, 10, 10, 10].map(equal).to_vec();
    let board = Board { width: 2, height: 2, storeys: 2, slow, cells: vec![0, 7], begins: vec![0, 1_000_000] };
    Held { ticks: 10, ground: equal(10), board }
}

/// Its times: the last cell is reached from the left and from above, since under it is a wall.
pub const HOUSE_TIMES: [u32; 8] = [0, 10, 10, NEVER, NEVER, 20, 20, 28];

/// Its lines in `rings`.
pub const HOUSE_LINES: &str = "2 2 10\n0 1\n1 -\n- 2\n2 3\n";

/// The same house without walls and the late start: the last cell is reached on three axes at once.
pub fn open_house() -> Board {
    Board { slow: vec![equal(10); 8], cells: vec![0], begins: vec![0], ..house().board }
}

pub const OPEN_HOUSE_TIMES: [u32; 8] = [0, 10, 10, 18, 10, 18, 18, 24];
