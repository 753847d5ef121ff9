//! A second solver for fronts on a tiled board.
//!
//! It is written from document 01 and the cards of document 02 that have landed, by the plainest means, and shares no
//! code with the proved engine. The tests beside it (`tests/*.rs`) call the engine through its C names and compare,
//! exactly: a slip of one program shows as a difference. What both share is a reading: both were written from the same
//! pages, and where these were misread in the same way both agree and are wrong. Against that stand the answers that
//! the pages work by hand (cells, boards, rounds, turns, the lines of `rings`); they are typed into the tests.
//!
//! | Module | Holds |
//! |---|---|
//! | `rule` | pairs, the local rule, D by search and sides, turn numbers by quotient and remainder |
//! | `board` | boards with plain start lists, and refusals 2, 4, 5, 21, 23, 7, 18, 8, 9 |
//! | `march` | the times of a whole board: by passes, and by an advancing front; the sides of its cells |
//! | `tiles` | one round over tiles, a tile run with every round worked out, how many rounds a single tile takes |
//! | `leap` | a tile run that skips idle rounds, written apart from `tiles` |
//! | `calls` | march, round and run as calls: refusals, answers, what lent lists hold afterwards |
//! | `late_ground` | the premises and the conclusion of card 14, of two calls that were played |
//! | `scenario` | the scenario file's reader and writer |
//! | `shown` | what the tablet's call answers and what `rings` prints |
//! | `random`, `generate` | seeded boards, calls and scenarios |
//! | `typed` | scenario files typed by hand, one of them a house; boards of equal pairs |
//! | `damage`, `drafts` | calls and files that are damaged in every way that the table names |
//! | `lent`, `compare` | lists lent with marked entries on both sides; calls and lists of calls played on both |
//! | `ffi` | the engine's C names, one module to a family, so that a test links what it calls |
//! | `declared` | the C interface as the header, the source and Rust code state it |
//! | `programs` | programs that are compiled and run |
//! | `pages` | the blocks and tables of pages in Markdown |
//! | `stacks` | threads with small stacks, and how much of a stack a call takes |

pub mod board;
pub mod calls;
pub mod compare;
pub mod damage;
pub mod declared;
pub mod drafts;
pub mod ffi;
pub mod generate;
pub mod late_ground;
pub mod leap;
pub mod lent;
pub mod march;
pub mod pages;
pub mod programs;
pub mod random;
pub mod rule;
pub mod scenario;
pub mod shown;
pub mod stacks;
pub mod tiles;
pub mod typed;

/// The mark for a time that does not come.
pub const NEVER: u32 = u32::MAX;
/// The largest horizon, bound and stride; a stored time above it counts as never.
pub const LARGEST: u32 = 300_000_000;
/// The largest number of a pair.
pub const SLOWEST: u32 = 4_095;
/// The latest start.
pub const LATEST_START: u32 = 1_000_000;
/// The longest side of a board or a tile.
pub const LONGEST_SIDE: u32 = 256;
/// The most storeys, and the most cells in all of them.
pub const MOST_STOREYS: u32 = 8;
pub const MOST_CELLS: u64 = 65_536;

/// Why a call is refused.
#[derive(Clone, Copy, Debug, PartialEq, Eq)]
pub struct Cause {
    pub number: u32,
    /// Where the number is 7 or 18 the position, from 0, of the first start that is at fault by this cause, else 0.
    pub place: usize,
}

/// The number of a cause that is not one start's.
impl From<u32> for Cause {
    fn from(number: u32) -> Cause {
        Cause { number, place: 0 }
    }
}

/// What most calls answer: number 0 and a count, or a refusal's number, 0 and its place.
#[repr(C)]
#[derive(Clone, Copy, Debug, PartialEq, Eq)]
pub struct Reply {
    pub number: u32,
    pub count: u32,
    pub place: usize,
}

impl Reply {
    pub fn accepted(count: u32) -> Reply {
        Reply { number: 0, count, place: 0 }
    }

    pub fn refused(cause: impl Into<Cause>) -> Reply {
        let Cause { number, place } = cause.into();
        Reply { number, count: 0, place }
    }
}

/// What the call `turn` answers: number 0, the turn and the ticks to go until it closes, or a refusal's number and
/// zeros.
#[repr(C)]
#[derive(Clone, Copy, Debug, PartialEq, Eq)]
pub struct TurnReply {
    pub number: u32,
    pub turn: u32,
    pub to_go: u32,
}

impl TurnReply {
    pub fn accepted(turn: u32, to_go: u32) -> TurnReply {
        TurnReply { number: 0, turn, to_go }
    }

    pub fn refused(number: u32) -> TurnReply {
        TurnReply { number, turn: 0, to_go: 0 }
    }
}

/// What the call `local_rule` answers: number 0, a time and its sides, or a refusal's number and zeros.
#[repr(C)]
#[derive(Clone, Copy, Debug, PartialEq, Eq)]
pub struct LocalReply {
    pub number: u32,
    pub time: u32,
    pub sides: u32,
}

impl LocalReply {
    pub fn accepted(time: u32, sides: u8) -> LocalReply {
        LocalReply { number: 0, time, sides: sides.into() }
    }

    pub fn refused(number: u32) -> LocalReply {
        LocalReply { number, time: 0, sides: 0 }
    }
}

/// A start record.
#[repr(C)]
#[derive(Clone, Copy, Debug, PartialEq, Eq)]
pub struct Start {
    pub cell: u32,
    pub time: u32,
}
