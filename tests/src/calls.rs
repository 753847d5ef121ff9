//! March, round and run as calls on one list of times and one of sides: what document 01's ledger enters and answers.

use crate::board::{side_is_good, Board, Grid};
use crate::leap::run_by_leaps;
use crate::march::{march, Front};
use crate::tiles::{altered, round, run_every_round, tile_count, Tiling};
use crate::{Cause, Reply, LARGEST};

#[derive(Clone, Debug)]
pub struct Call {
    pub board: Board,
    pub kind: Kind,
}

#[derive(Clone, Debug)]
pub enum Kind {
    March { horizon: u32 },
    Round { across: u32, down: u32, bound: u32, order: Vec<u32> },
    Run { across: u32, down: u32, stride: u32, horizon: u32, order: Vec<u32> },
}

impl Kind {
    /// A round with its tiles in rising order.
    pub fn round(board: &Board, [across, down]: [u32; 2], bound: u32) -> Kind {
        Kind::Round { across, down, bound, order: rising(board, across, down) }
    }

    /// A run with its tiles in rising order.
    pub fn run(board: &Board, [across, down]: [u32; 2], stride: u32, horizon: u32) -> Kind {
        Kind::Run { across, down, stride, horizon, order: rising(board, across, down) }
    }
}

/// Every tile number once, in rising order.
pub fn rising(board: &Board, across: u32, down: u32) -> Vec<u32> {
    (0..tile_count(board.width, board.height, across, down)).collect()
}

/// The lengths of the lists that a call is lent for writing.
#[derive(Clone, Copy, Debug, PartialEq, Eq)]
pub struct Lengths {
    pub times: usize,
    pub sides: usize,
    pub work: usize,
}

impl Lengths {
    /// Those for so many cells.
    pub fn of(size: usize) -> Lengths {
        Lengths { times: size, sides: size, work: 4 * size }
    }

    /// The same with a work list that is longer than it must be by so much.
    pub fn longer(self, more: u32) -> Lengths {
        Lengths { work: self.work + more as usize, ..self }
    }

    /// Lists of these lengths, each of one number, or byte, throughout; no call leaves these.
    pub fn filled(self) -> (Front, Vec<u32>) {
        (Front { times: vec![LARGEST + 5; self.times], sides: vec![0xC5; self.sides] }, vec![6; self.work])
    }
}

impl Call {
    /// What the table has against this call, with lent lists of these lengths.
    pub fn judge(&self, lengths: Lengths) -> Result<(), Cause> {
        self.board.judge()?;
        let numbers_good = match self.kind {
            Kind::March { horizon } => horizon <= LARGEST,
            Kind::Round { bound, .. } => bound <= LARGEST,
            Kind::Run { stride, horizon, .. } => horizon <= LARGEST && (1..=LARGEST).contains(&stride),
        };
        if !numbers_good {
            return Err(10.into());
        }
        if let Kind::Round { across, down, order, .. } | Kind::Run { across, down, order, .. } = &self.kind {
            if !side_is_good(*across) || !side_is_good(*down) {
                return Err(11.into());
            }
            if !order_is_good(order, tile_count(self.board.width, self.board.height, *across, *down)) {
                return Err(12.into());
            }
        }
        if lengths.times != self.board.size() {
            return Err(13.into());
        }
        if lengths.sides != self.board.size() || lengths.work < 4 * self.board.size() {
            return Err(14.into());
        }
        Ok(())
    }

    /// Plays the call: the answer, and what the lent lists hold afterwards.
    pub fn play(&self, front: &mut Front, work: &mut [u32]) -> Reply {
        let lengths = Lengths { times: front.times.len(), sides: front.sides.len(), work: work.len() };
        if let Err(cause) = self.judge(lengths) {
            return Reply::refused(cause);
        }
        let (count, after) = self.outcome(&front.times);
        *front = after;
        work[..4 * self.board.size()].fill(0);
        Reply::accepted(count)
    }

    /// Count, times and sides of a call that is not refused.
    fn outcome(&self, times: &[u32]) -> (u32, Front) {
        let grid = Grid::new(&self.board);
        match self.kind {
            Kind::March { horizon } => {
                let after = march(&grid, horizon);
                let reached = after.times.iter().filter(|&&t| t <= horizon).count();
                (reached as u32, after)
            }
            Kind::Round { across, down, bound, .. } => {
                let tiling = Tiling::new(&grid, across, down);
                let after = round(&grid, &tiling, bound, times);
                (altered(times, &after.times), after)
            }
            Kind::Run { across, down, stride, horizon, .. } => {
                let tiling = Tiling::new(&grid, across, down);
                run(&grid, &tiling, stride, horizon)
            }
        }
    }
}

/// Every tile number once.
fn order_is_good(order: &[u32], tiles: u32) -> bool {
    let mut sorted = order.to_vec();
    sorted.sort_unstable();
    sorted.iter().copied().eq(0..tiles)
}

/// As many rounds of as many cells are worked out one by one.
pub const MOST_WORKED: u64 = 20_000_000;

/// The number of rounds of a run, and what it leaves. Every round is worked out where that is not too much; the count
/// by leaps must then be the same, and the sides that the last round leaves those of the march. Either way the run must
/// end at the times of the march.
pub fn run(grid: &Grid, tiling: &Tiling, stride: u32, horizon: u32) -> (u32, Front) {
    let (count, times) = run_by_leaps(grid, tiling, stride, horizon);
    let marched = march(grid, horizon);
    assert_eq!(times, marched.times, "the second solver's run does not end at its march");
    if count * grid.size() as u64 <= MOST_WORKED {
        let (worked, left) = run_every_round(grid, tiling, stride, horizon);
        assert_eq!(worked, count, "the second solver's leaps miss rounds");
        assert_eq!(left, marched, "the second solver's last round does not leave its march");
    }
    (count as u32, marched)
}
