//! Scenario files: reader, writer and the tablet's call.

use crate::{accepted, answer, sys, Board, Refusal, Slowness, Start, Tiles, MOST_CELLS};

/// What a scenario file holds. Callers build it, so it is not `#[non_exhaustive]`: see [`Board`].
#[derive(Clone, Debug, PartialEq, Eq, Hash)]
pub struct Scenario {
    /// Ticks per turn, 1 to 65,535.
    pub ticks: u32,
    /// The slowness of cells that the file says nothing of.
    pub ground: Slowness,
    /// The board with its starts.
    pub board: Board,
}

/// What a scenario file holds. Any bytes may be handed in.
///
/// ```
/// use murgolab::{read_scenario, write_scenario, Board, Refusal, Scenario, Slowness, Start};
/// let ground = Slowness::new(10, 20);
/// let (slow, starts) = (vec![ground, Slowness::WALL], vec![Start { cell: 0, time: 7 }]);
/// let scenario = Scenario { ticks: 10, ground, board: Board { width: 2, height: 1, storeys: 1, slow, starts } };
/// let file = write_scenario(&scenario)?;
/// assert_eq!(file.len(), 20 + 12 + 8);
/// assert_eq!(read_scenario(&file), Ok(scenario));
/// assert_eq!(read_scenario(&file[1..]), Err(Refusal::FileLength));
/// # Ok::<(), Refusal>(())
/// ```
///
/// # Errors
///
/// [`FileLength`](Refusal::FileLength), [`SidesOfBoard`](Refusal::SidesOfBoard), [`Ticks`](Refusal::Ticks),
/// [`Slowness`](Refusal::Slowness), [`HalfWall`](Refusal::HalfWall), [`Storeys`](Refusal::Storeys),
/// [`Run`](Refusal::Run), [`StartCell`](Refusal::StartCell), [`StartOrder`](Refusal::StartOrder),
/// [`StartTime`](Refusal::StartTime), [`StartOnWall`](Refusal::StartOnWall).
pub fn read_scenario(file: &[u8]) -> Result<Scenario, Refusal> {
    // a file with more starts than the largest board has cells is refused for their cells, before room is asked for
    let most_starts = MOST_CELLS.min(file.len() / 8);
    let (mut slow, mut starts) = (vec![Slowness::WALL; MOST_CELLS], vec![Start { cell: 0, time: 0 }; most_starts]);
    // SAFETY: the lists are as long as said, and those lent for writing are borrowed alone
    #[rustfmt::skip]
    let said = unsafe {
        sys::murgolab_read_scenario(
            file.as_ptr(), file.len(), slow.as_mut_ptr().cast(), slow.len(), starts.as_mut_ptr(), starts.len(),
        )
    };
    accepted(said.number, Some(said.place))?;
    let mut board = Board { width: said.width, height: said.height, storeys: said.storeys, slow, starts };
    board.slow.truncate(board.size());
    board.slow.shrink_to_fit();
    board.starts.truncate(said.starts as usize);
    board.starts.shrink_to_fit();
    Ok(Scenario { ticks: said.ticks, ground: said.ground.into(), board })
}

/// The one file of a scenario: what was read and is written again has the same bytes.
///
/// ```
/// use murgolab::{write_scenario, Board, Scenario, Slowness};
/// let ground = Slowness::new(10, 20);
/// let board = Board { width: 1, height: 1, storeys: 1, slow: vec![ground], starts: vec![] };
/// let file = write_scenario(&Scenario { ticks: 3, ground, board })?;
/// assert_eq!(file, [1, 0, 1, 0, 1, 0, 3, 0, 10, 0, 20, 0, 0, 0, 0, 0, 0, 0, 0, 0]);
/// # Ok::<(), murgolab::Refusal>(())
/// ```
///
/// # Errors
///
/// [`SidesOfBoard`](Refusal::SidesOfBoard), [`Ticks`](Refusal::Ticks), [`ListLength`](Refusal::ListLength),
/// [`Slowness`](Refusal::Slowness), [`HalfWall`](Refusal::HalfWall), [`Storeys`](Refusal::Storeys),
/// [`StartCell`](Refusal::StartCell), [`StartOrder`](Refusal::StartOrder), [`StartTime`](Refusal::StartTime),
/// [`StartOnWall`](Refusal::StartOnWall).
pub fn write_scenario(scenario: &Scenario) -> Result<Vec<u8>, Refusal> {
    let Scenario { ticks, ground, board } = scenario;
    // a run for each cell at most, and a start: more starts are refused for their cells, before room is asked for
    let mut out = vec![0; 20 + 12 * board.size() + 8 * board.size().min(board.starts.len())];
    // SAFETY: the lists are as long as said, and the one lent for writing is borrowed alone
    #[rustfmt::skip]
    let reply = unsafe {
        sys::murgolab_write_scenario(
            board.width, board.height, board.storeys, *ticks, (*ground).into(),
            board.slow.as_ptr().cast(), board.slow.len(), board.starts.as_ptr(), board.starts.len(),
            out.as_mut_ptr(), out.len(),
        )
    };
    out.truncate(answer(reply)? as usize);
    out.shrink_to_fit();
    Ok(out)
}

/// What the tablet's call gives. Later versions may give more.
#[derive(Clone, Debug, PartialEq, Eq, Hash)]
#[non_exhaustive]
pub struct TabletRun {
    /// The times that a march gives.
    pub times: Vec<u32>,
    /// The number of rounds, the last, which alters no time, among them.
    pub rounds: u32,
}

/// The tablet's call: the tile run of a scenario file whose board has sides to 32 and 1,024 cells at most, up to
/// 6,000,000.
///
/// Where one tile covers the board, as one of 32 by 32 always does, the rounds are exactly those that
/// [`tile_run`](crate::tile_run) names. With such a tile and a stride of at most 810,815 they are 6,000,000 divided by
/// the stride, rounded up, whatever the file holds: known before the call.
///
/// ```
/// use murgolab::{tablet_run, write_scenario, Board, Scenario, Slowness, Start, Tiles};
/// let ground = Slowness::equal(10);
/// let (slow, starts) = (vec![ground; 9], vec![Start { cell: 0, time: 0 }]);
/// let board = Board { width: 3, height: 3, storeys: 1, slow, starts };
/// let file = write_scenario(&Scenario { ticks: 10, ground, board })?;
/// let run = tablet_run(&file, 65_536, Tiles { across: 8, down: 8 })?;
/// assert_eq!(run.times, [0, 10, 20, 10, 18, 26, 20, 26, 34]);
/// assert_eq!(run.rounds, 92);
/// # Ok::<(), murgolab::Refusal>(())
/// ```
///
/// # Errors
///
/// Those of [`read_scenario`], without the place of a start, [`SmallBoard`](Refusal::SmallBoard) for a side above 32 or
/// more than 1,024 cells, [`Range`](Refusal::Range) for the stride and [`SidesOfTile`](Refusal::SidesOfTile) for the
/// tiles.
pub fn tablet_run(file: &[u8], stride: u32, tiles: Tiles) -> Result<TabletRun, Refusal> {
    let mut out = [0; 4 * 32 * 32];
    // SAFETY: the lists are as long as said, and the one lent for writing is borrowed alone
    #[rustfmt::skip]
    let said = unsafe {
        sys::murgolab_tablet_run(
            file.as_ptr(), file.len(), stride, tiles.across, tiles.down, out.as_mut_ptr(), out.len(),
        )
    };
    // rounds × 256, or the bare refusal
    accepted((said % 256) as u32, None)?;
    let rounds = (said / 256) as u32;
    let two = |at: usize| usize::from(u16::from_le_bytes([file[at], file[at + 1]]));
    let times = out.chunks_exact(4).map(|four| u32::from_le_bytes([four[0], four[1], four[2], four[3]]));
    Ok(TabletRun { times: times.take(two(0) * two(2) * two(4)).collect(), rounds })
}
