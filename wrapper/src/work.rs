//! March, single round and tile run.

use crate::{answer, sys, Board, Refusal, Sides, Tiles, NEVER};

/// What a march gives. Later versions may give more.
#[derive(Clone, Debug, PartialEq, Eq, Hash)]
#[non_exhaustive]
pub struct March {
    /// When the front reaches each cell, [`NEVER`] past the horizon and where no front comes.
    pub times: Vec<u32>,
    /// From which sides it comes to each cell.
    pub sides: Vec<Sides>,
    /// The number of cells reached.
    pub reached: u32,
}

/// What a tile run gives. Later versions may give more.
#[derive(Clone, Debug, PartialEq, Eq, Hash)]
#[non_exhaustive]
pub struct Run {
    /// The times that a march gives.
    pub times: Vec<u32>,
    /// The sides that a march gives.
    pub sides: Vec<Sides>,
    /// The number of rounds, the last, which alters no time, among them.
    pub rounds: u32,
}

/// The lists that marches, rounds and runs work in, for callers that make many: they grow to what the largest board
/// needs, at most 1.25 MiB, and are used again, so that a loop allocates once. Nothing is carried over from call to
/// call but the caller's own `times`. The caller's `sides` may hold anything before a call; each of them is then
/// written.
///
/// The functions [`march`], [`one_round`] and [`tile_run`] are these calls with lists made for each.
///
/// ```
/// use murgolab::{Board, Sides, Slowness, Start, Tiles, Work, NEVER};
///
/// let (slow, starts) = (vec![Slowness::equal(10); 9], vec![Start { cell: 0, time: 0 }]);
/// let mut board = Board { width: 3, height: 3, storeys: 1, slow, starts };
/// let (mut work, mut times, mut sides) = (Work::new(), vec![NEVER; board.size()], vec![Sides::NONE; board.size()]);
/// for cell in 0..9 {
///     board.starts[0].cell = cell;
///     assert_eq!(work.march(&board, 300_000_000, &mut times, &mut sides), Ok(9));
///     assert_eq!((times[cell as usize], sides[cell as usize]), (0, Sides::NONE));
/// }
///
/// // rounds by hand, until one alters no time
/// times.fill(NEVER);
/// let tiles = Tiles { across: 2, down: 2 };
/// while work.one_round(&board, tiles, 34, &mut times, &mut sides)? > 0 {}
/// assert_eq!(times, [34, 26, 20, 26, 18, 10, 20, 10, 0]);
/// assert_eq!(sides[0].to_string(), "right and below");
/// # Ok::<(), murgolab::Refusal>(())
/// ```
#[derive(Clone, Debug, Default)]
pub struct Work {
    /// Four entries a cell; it may hold anything between calls.
    list: Vec<u32>,
    /// The numbers from 0 on: the rising order of as many tiles as are asked for.
    rising: Vec<u32>,
}

impl Work {
    /// Lists that are empty yet.
    pub fn new() -> Work {
        Work::default()
    }

    /// The work list for the board, and the order of so many tiles.
    fn lists(&mut self, board: &Board, tiles: usize) -> (&mut [u32], &[u32]) {
        let room = 4 * board.size();
        if self.list.len() < room {
            self.list = vec![0; room];
        }
        if self.rising.len() < tiles {
            self.rising = (0..tiles as u32).collect();
        }
        (&mut self.list[..room], &self.rising[..tiles])
    }

    /// As the function [`march`]: fills `times` and `sides`, which may hold anything, and answers how many cells are
    /// reached.
    ///
    /// # Errors
    ///
    /// Those of [`march`]; [`TimesLength`](Refusal::TimesLength), and [`Room`](Refusal::Room) for `sides` that are not
    /// as long as [`Board::size`]. Both lists are then as they were.
    pub fn march(
        &mut self,
        board: &Board,
        horizon: u32,
        times: &mut [u32],
        sides: &mut [Sides],
    ) -> Result<u32, Refusal> {
        let (work, _) = self.lists(board, 0);
        // SAFETY: the lists are as long as said, and those lent for writing are borrowed alone
        #[rustfmt::skip]
        let reply = unsafe {
            sys::murgolab_march(
                board.width, board.height, board.storeys,
                board.slow.as_ptr().cast(), board.slow.len(), board.starts.as_ptr(), board.starts.len(),
                horizon,
                times.as_mut_ptr(), times.len(), sides.as_mut_ptr().cast(), sides.len(),
                work.as_mut_ptr(), work.len(),
            )
        };
        answer(reply)
    }

    /// As the function [`one_round`]: answers how many entries of `times` it alters.
    ///
    /// # Errors
    ///
    /// Those of [`one_round`]. Both lists are then as they were.
    pub fn one_round(
        &mut self,
        board: &Board,
        tiles: Tiles,
        bound: u32,
        times: &mut [u32],
        sides: &mut [Sides],
    ) -> Result<u32, Refusal> {
        let (work, order) = self.lists(board, board.tiles(tiles));
        // SAFETY: the lists are as long as said, and those lent for writing are borrowed alone
        #[rustfmt::skip]
        let reply = unsafe {
            sys::murgolab_one_round(
                board.width, board.height, board.storeys,
                board.slow.as_ptr().cast(), board.slow.len(), board.starts.as_ptr(), board.starts.len(),
                tiles.across, tiles.down, bound, order.as_ptr(), order.len(),
                times.as_mut_ptr(), times.len(), sides.as_mut_ptr().cast(), sides.len(),
                work.as_mut_ptr(), work.len(),
            )
        };
        answer(reply)
    }

    /// As the function [`tile_run`]: fills `times` and `sides`, which may hold anything, and answers how many rounds
    /// there are.
    ///
    /// # Errors
    ///
    /// Those of [`tile_run`]; [`TimesLength`](Refusal::TimesLength), and [`Room`](Refusal::Room) for `sides` that are
    /// not as long as [`Board::size`]. Both lists are then as they were.
    pub fn tile_run(
        &mut self,
        board: &Board,
        tiles: Tiles,
        stride: u32,
        horizon: u32,
        times: &mut [u32],
        sides: &mut [Sides],
    ) -> Result<u32, Refusal> {
        let (work, order) = self.lists(board, board.tiles(tiles));
        // SAFETY: the lists are as long as said, and those lent for writing are borrowed alone
        #[rustfmt::skip]
        let reply = unsafe {
            sys::murgolab_tile_run(
                board.width, board.height, board.storeys,
                board.slow.as_ptr().cast(), board.slow.len(), board.starts.as_ptr(), board.starts.len(),
                tiles.across, tiles.down, stride, horizon, order.as_ptr(), order.len(),
                times.as_mut_ptr(), times.len(), sides.as_mut_ptr().cast(), sides.len(),
                work.as_mut_ptr(), work.len(),
            )
        };
        answer(reply)
    }
}

/// The time at which the front reaches each cell, up to the horizon, 0 to 300,000,000, and from which sides.
///
/// ```
/// use murgolab::{march, Board, Refusal, Row, Slowness, Start, NEVER};
/// let slow = [10, 10, 0, 10].map(Slowness::equal).to_vec();
/// let mut board = Board { width: 4, height: 1, storeys: 1, slow, starts: vec![Start { cell: 0, time: 5 }] };
/// let front = march(&board, 1_000)?;
/// assert_eq!((front.times, front.reached), (vec![5, 15, NEVER, NEVER], 2));
/// assert_eq!([0, 1, 2, 3].map(|cell| front.sides[cell].row()), [None, Some(Row::Left), None, None]);
/// board.starts[0].cell = 2;
/// assert_eq!(march(&board, 1_000), Err(Refusal::StartOnWall));
/// # Ok::<(), Refusal>(())
/// ```
///
/// # Errors
///
/// For the board [`SidesOfBoard`](Refusal::SidesOfBoard), [`ListLength`](Refusal::ListLength),
/// [`Slowness`](Refusal::Slowness), [`HalfWall`](Refusal::HalfWall), [`Storeys`](Refusal::Storeys),
/// [`StartCell`](Refusal::StartCell), [`StartOrder`](Refusal::StartOrder), [`StartTime`](Refusal::StartTime) and
/// [`StartOnWall`](Refusal::StartOnWall); for the horizon [`Range`](Refusal::Range).
pub fn march(board: &Board, horizon: u32) -> Result<March, Refusal> {
    let (mut times, mut sides) = lists(board);
    let reached = Work::new().march(board, horizon, &mut times, &mut sides)?;
    Ok(March { times, sides, reached })
}

/// One round: every tile is solved up to the bound, 0 to 300,000,000, with the times that its neighbours held
/// before; what it held itself is not used. `times` may hold any numbers: one above 300,000,000, and one at a
/// wall, counts as never. Answers how many entries of `times` it alters.
///
/// Each cell has its sides by the times that its tile saw. What was in `sides` is not used, and does not count: a round
/// may alter some of them and no time.
///
/// ```
/// use murgolab::{one_round, Board, Sides, Slowness, Start, Tiles, NEVER};
/// let (slow, starts) = (vec![Slowness::equal(10); 9], vec![Start { cell: 0, time: 0 }]);
/// let board = Board { width: 3, height: 3, storeys: 1, slow, starts };
/// let (mut times, mut sides) = ([NEVER; 9], [Sides::NONE; 9]);
/// assert_eq!(one_round(&board, Tiles { across: 2, down: 2 }, 20, &mut times, &mut sides), Ok(4));
/// assert_eq!(times, [0, 10, NEVER, 10, 18, NEVER, NEVER, NEVER, NEVER]);
/// assert_eq!(sides.map(u8::from), [0, 1, 0, 4, 1 + 4, 0, 0, 0, 0]);
/// ```
///
/// # Errors
///
/// For the board those of [`march`], for the bound [`Range`](Refusal::Range), for the tiles
/// [`SidesOfTile`](Refusal::SidesOfTile), for the times [`TimesLength`](Refusal::TimesLength), for `sides` that are not
/// as long as [`Board::size`] [`Room`](Refusal::Room). Both lists are then as they were.
pub fn one_round(
    board: &Board,
    tiles: Tiles,
    bound: u32,
    times: &mut [u32],
    sides: &mut [Sides],
) -> Result<u32, Refusal> {
    Work::new().one_round(board, tiles, bound, times, sides)
}

/// Rounds from all never, the j-th with the bound j × stride or the horizon, the lesser, until one at
/// the horizon alters no time. The stride is 1 to 300,000,000.
///
/// Let K be the horizon divided by the stride, rounded up, at least 1. There are at least K rounds, and at most K and
/// as many more as cells are reached. Where one tile covers the board there are exactly K + 1 if some time is above
/// (K − 1) × stride and at most the horizon, else exactly K; for K = 1 that span starts at 0 and includes it.
///
/// ```
/// use murgolab::{march, tile_run, Board, Slowness, Start, Tiles};
/// let starts = vec![Start { cell: 0, time: 0 }, Start { cell: 99, time: 40 }];
/// let slow = (1..=100).map(|s| Slowness::new(s, 101 - s)).collect();
/// let board = Board { width: 10, height: 10, storeys: 1, slow, starts };
/// let run = tile_run(&board, Tiles { across: 3, down: 4 }, 25, 5_000)?;
/// let front = march(&board, 5_000)?;
/// assert_eq!((run.times, run.sides), (front.times, front.sides));
/// assert!(run.rounds >= 200 && run.rounds <= 300);
/// // one tile covers the board: K is 2, and the last cell is reached at 34
/// let (slow, starts) = (vec![Slowness::equal(10); 9], vec![Start { cell: 0, time: 0 }]);
/// let board = Board { width: 3, height: 3, storeys: 1, slow, starts };
/// assert_eq!(tile_run(&board, Tiles { across: 3, down: 3 }, 20, 34)?.rounds, 3);
/// assert_eq!(tile_run(&board, Tiles { across: 3, down: 3 }, 20, 25)?.rounds, 2);
/// # Ok::<(), murgolab::Refusal>(())
/// ```
///
/// # Errors
///
/// For the board those of [`march`], for stride and horizon [`Range`](Refusal::Range), for the tiles
/// [`SidesOfTile`](Refusal::SidesOfTile).
pub fn tile_run(board: &Board, tiles: Tiles, stride: u32, horizon: u32) -> Result<Run, Refusal> {
    let (mut times, mut sides) = lists(board);
    let rounds = Work::new().tile_run(board, tiles, stride, horizon, &mut times, &mut sides)?;
    Ok(Run { times, sides, rounds })
}

/// Lists of times and of sides for the board.
fn lists(board: &Board) -> (Vec<u32>, Vec<Sides>) {
    (vec![NEVER; board.size()], vec![Sides::NONE; board.size()])
}
