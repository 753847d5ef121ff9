//! Fronts on a tiled board: when does a front reach each cell?
//!
//! A safe wrapper over `libmurgolab.a`, whose functions are proved to meet their contracts. What is
//! added here is Rust: lists are made and handed over with their lengths, and refusals are errors.
//!
//! ```
//! use murgolab::{march, tile_run, turn, Board, Slowness, Start, Tiles};
//!
//! // three by three cells of slowness 10 both ways, a front from the top left
//! let (slow, starts) = (vec![Slowness::equal(10); 9], vec![Start { cell: 0, time: 0 }]);
//! let mut board = Board { width: 3, height: 3, storeys: 1, slow, starts };
//! let front = march(&board, 300_000_000)?;
//! assert_eq!(front.times, [0, 10, 20, 10, 18, 26, 20, 26, 34]);
//! assert_eq!(front.reached, 9);
//!
//! // whence the front came: to the second cell from the left, to the last from two sides
//! assert_eq!([1, 8].map(|cell| front.sides[cell].to_string()), ["left", "left and above"]);
//!
//! // the same tile by tile, in rounds
//! let run = tile_run(&board, Tiles { across: 2, down: 2 }, 20, 34)?;
//! assert_eq!((run.times, run.sides, run.rounds), (front.times, front.sides, 4));
//!
//! // the last cell is reached 6 ticks before turn 4, of 10 ticks, closes
//! let last = turn(34, 10)?;
//! assert_eq!((last.turn, last.to_go), (4, 6));
//!
//! // furrows along the rows: down a column it takes twice as long
//! board.slow.fill(Slowness::new(10, 20));
//! assert_eq!(march(&board, 300_000_000)?.times, [0, 10, 20, 20, 26, 34, 40, 45, 51]);
//!
//! // a house: two storeys of two by two cells; the last cell is reached from three sides at 18
//! let (slow, starts) = (vec![Slowness::equal(10); 8], vec![Start { cell: 0, time: 0 }]);
//! let house = Board { width: 2, height: 2, storeys: 2, slow, starts };
//! assert_eq!(march(&house, 300_000_000)?.times, [0, 10, 10, 18, 10, 18, 18, 24]);
//! # Ok::<(), murgolab::Refusal>(())
//! ```
//!
//! A loop that makes many marches keeps a [`Work`], and allocates once.
//!
//! The archive is the one that `tools/build archive` writes to the repository's target/staticlib, or that of the
//! folder that MURGOLAB_LIB names, by a path from the root. `cargo doc` and `cargo check` do without.

#![warn(missing_docs)]

mod refusal;
mod scenario;
mod sides;
mod slowness;
mod sys;
mod work;

pub use refusal::Refusal;
pub use scenario::{read_scenario, tablet_run, write_scenario, Scenario, TabletRun};
pub use sides::{Column, Row, Sides, Storey};
pub use slowness::Slowness;
pub use work::{march, one_round, tile_run, March, Run, Work};

/// The mark for a time that does not come.
pub const NEVER: u32 = u32::MAX;

/// The longest side of a board or a tile.
const LONGEST_SIDE: u32 = 256;

/// The most storeys that a board has.
const MOST_STOREYS: u32 = 8;

/// The most cells that a board has, on all of its storeys.
const MOST_CELLS: usize = 256 * 256;

/// A front starts in a cell at a time.
#[repr(C)]
#[derive(Clone, Copy, Debug, PartialEq, Eq, Hash)]
pub struct Start {
    /// The cell's number, storey by storey and row by row from 0.
    pub cell: u32,
    /// 0 to 1,000,000.
    pub time: u32,
}

/// A board as it is handed in; the calls judge it. Cells are numbered from 0, storey by storey, in each of them row by
/// row: over a cell, on the next storey, is the one whose number is larger by width × height.
///
/// Boards, starts, tiles and scenarios are built by callers, so they are not `#[non_exhaustive]`: a field that a later
/// version adds is one that its callers must think of, and the compiler names it.
#[derive(Clone, Debug, PartialEq, Eq, Hash)]
pub struct Board {
    /// 1 to 256.
    pub width: u32,
    /// 1 to 256.
    pub height: u32,
    /// 1 to 8; 1 for a flat board. With more of them slownesses are equal both ways.
    pub storeys: u32,
    /// How slow a front is in each cell: width × height × storeys entries, at most 65,536.
    pub slow: Vec<Slowness>,
    /// Strictly rising by cell, none on a wall.
    pub starts: Vec<Start>,
}

/// The sides of tiles. Tiles are laid from the top left and cut at the board's edge; each spans all storeys. They are
/// worked in rising order: it is proved that the order never shows.
#[derive(Clone, Copy, Debug, PartialEq, Eq, Hash)]
pub struct Tiles {
    /// The width of a tile, 1 to 256.
    pub across: u32,
    /// The height of a tile, 1 to 256.
    pub down: u32,
}

impl Board {
    /// The number of cells, which lists of times are as long as: width × height × storeys; or 0 where a side is not 1
    /// to 256, storeys are not 1 to 8, or the cells are more than 65,536, which every call refuses.
    pub fn size(&self) -> usize {
        if !are_sides(self.width, self.height) || !(1..=MOST_STOREYS).contains(&self.storeys) {
            return 0;
        }
        let size = (self.width * self.height * self.storeys) as usize;
        if size <= MOST_CELLS {
            size
        } else {
            0
        }
    }

    /// The number of tiles, or 0 where a side is refused before the order of tiles is looked at.
    fn tiles(&self, tiles: Tiles) -> usize {
        if !are_sides(self.width, self.height) || !are_sides(tiles.across, tiles.down) {
            return 0;
        }
        let along = |side: u32, tile: u32| (side + tile - 1) / tile;
        (along(self.width, tiles.across) * along(self.height, tiles.down)) as usize
    }
}

fn are_sides(one: u32, other: u32) -> bool {
    let good = 1..=LONGEST_SIDE;
    good.contains(&one) && good.contains(&other)
}

fn accepted(number: u32, place: Option<usize>) -> Result<(), Refusal> {
    match Refusal::of(number, place) {
        None => Ok(()),
        Some(refusal) => Err(refusal),
    }
}

fn answer(reply: sys::Reply) -> Result<u32, Refusal> {
    accepted(reply.number, Some(reply.place)).map(|()| reply.count)
}

/// What the local rule answers. Later versions may give more.
#[derive(Clone, Copy, Debug, PartialEq, Eq, Hash)]
#[non_exhaustive]
pub struct Arrival {
    /// When the front reaches the cell, [`NEVER`] where none comes.
    pub time: u32,
    /// From which sides: neighbours that are earlier than this time.
    pub sides: Sides,
}

/// The time at a cell from its neighbours' times, and from which sides it comes. The time is the least whole t, not
/// below the earliest of a, b and z, with p² × h² + q² × g² + r² × g² ≥ g² × h². Here g is the slowness along the row
/// and h that down the column; a is the earlier of left and right, b of above and below, z of over and under; p, q and
/// r are what t is later than a, than b and than z. On a flat board over and under are never. Times above 300,000,000
/// count as never.
///
/// ```
/// use murgolab::{local_rule, Column, Refusal, Row, Slowness, NEVER};
/// let ten = Slowness::equal(10);
/// let arrival = local_rule(ten, 0, NEVER, NEVER, 4, NEVER, NEVER)?;
/// assert_eq!(arrival.time, 9);
/// assert_eq!((arrival.sides.row(), arrival.sides.column()), (Some(Row::Left), Some(Column::Below)));
///
/// let furrow = Slowness::new(10, 20);
/// for (slowness, [left, right, above, below, over, under], time, sides) in [
///     (ten, [0, 0, 4, 4, NEVER, NEVER], 9, "left and above"),
///     (furrow, [NEVER, 0, NEVER, NEVER, NEVER, NEVER], 10, "right"),
///     (furrow, [NEVER, NEVER, 0, NEVER, NEVER, NEVER], 20, "above"),
///     (furrow, [0, NEVER, 0, NEVER, NEVER, NEVER], 9, "left and above"),
///     (ten, [0, NEVER, 0, NEVER, 0, NEVER], 6, "left and above and over"),
///     (ten, [0, NEVER, 0, NEVER, NEVER, 7], 8, "left and above and under"),
///     (ten, [0, NEVER, 0, NEVER, NEVER, 8], 8, "left and above"),
///     (Slowness::WALL, [0; 6], NEVER, "none"),
/// ] {
///     let arrival = local_rule(slowness, left, right, above, below, over, under)?;
///     assert_eq!((arrival.time, arrival.sides.to_string().as_str()), (time, sides));
/// }
///
/// // in a house slownesses are equal both ways
/// assert_eq!(local_rule(furrow, 0, NEVER, 0, NEVER, 0, NEVER), Err(Refusal::Storeys));
/// # Ok::<(), Refusal>(())
/// ```
///
/// # Errors
///
/// [`Slowness`](Refusal::Slowness) for a number above 4,095, [`HalfWall`](Refusal::HalfWall) for one that is 0 where
/// the other is not, [`Storeys`](Refusal::Storeys) for two that differ where over or under is not never.
pub fn local_rule(
    slowness: Slowness,
    left: u32,
    right: u32,
    above: u32,
    below: u32,
    over: u32,
    under: u32,
) -> Result<Arrival, Refusal> {
    let (g, h) = (slowness.along().into(), slowness.down().into());
    // SAFETY: numbers alone
    let reply = unsafe { sys::murgolab_local_rule(g, h, left, right, above, below, over, under) };
    // the library answers a byte of sides as a number of 32 bits
    accepted(reply.number, None).map(|()| Arrival { time: reply.time, sides: (reply.sides as u8).into() })
}

/// D: what the rule adds to a where a and b are equal, the slowness is this number both ways and z is not earlier than
/// what comes out; the least d with 2d² ≥ slowness².
///
/// ```
/// assert_eq!(murgolab::diagonal(7), Ok(5));
/// ```
///
/// # Errors
///
/// [`Slowness`](Refusal::Slowness) for a number above 4,095.
pub fn diagonal(slowness: u32) -> Result<u32, Refusal> {
    // SAFETY: numbers alone
    answer(unsafe { sys::murgolab_diagonal(slowness) })
}

/// The turn of a time. Later versions may give more.
#[derive(Clone, Copy, Debug, PartialEq, Eq, Hash)]
#[non_exhaustive]
pub struct Turn {
    /// The first turn that closes at the time or later; [`NEVER`] for never.
    pub turn: u32,
    /// The ticks still to go until it closes, fewer than a turn has; 0 for never.
    pub to_go: u32,
}

/// The turn of a time: the time divided by the ticks per turn, rounded up, so that turn × ticks is the time and the
/// ticks still to go. Times above 300,000,000 count as never.
///
/// ```
/// use murgolab::{turn, Refusal, NEVER};
/// for (time, number, to_go) in [(28, 3, 2), (30, 3, 0), (31, 4, 9), (NEVER, NEVER, 0)] {
///     let turn = turn(time, 10)?;
///     assert_eq!((turn.turn, turn.to_go), (number, to_go));
/// }
/// assert_eq!(turn(28, 0), Err(Refusal::Ticks));
/// # Ok::<(), Refusal>(())
/// ```
///
/// # Errors
///
/// [`Ticks`](Refusal::Ticks) for ticks that are not 1 to 65,535.
pub fn turn(time: u32, ticks: u32) -> Result<Turn, Refusal> {
    // SAFETY: numbers alone
    let reply = unsafe { sys::murgolab_turn(time, ticks) };
    accepted(reply.number, None).map(|()| Turn { turn: reply.turn, to_go: reply.to_go })
}
