//! One round over tiles, a tile run with every round worked out, and how many rounds a single tile takes.

use crate::board::Grid;
use crate::march::{cut, settle, with_sides, Front};
use crate::rule::counted;
use crate::NEVER;

/// The tile of each cell, and the cells of each tile, tiles being laid from the top left, cut at the
/// edge and numbered row by row. They span all storeys.
pub struct Tiling {
    pub of: Vec<usize>,
    pub cells: Vec<Vec<usize>>,
}

/// a divided by b, rounded up.
pub fn up(a: u32, b: u32) -> u32 {
    a / b + u32::from(a % b > 0)
}

pub fn tile_count(width: u32, height: u32, across: u32, down: u32) -> u32 {
    up(width, across) * up(height, down)
}

impl Tiling {
    pub fn new(grid: &Grid, across: u32, down: u32) -> Tiling {
        let in_a_row = up(grid.width as u32, across) as usize;
        let in_a_column = up(grid.height as u32, down) as usize;
        let (across, down) = (across as usize, down as usize);
        let mut cells = vec![Vec::new(); in_a_row * in_a_column];
        let mut of = Vec::with_capacity(grid.size());
        for c in 0..grid.size() {
            let (row, column) = (c / grid.width % grid.height, c % grid.width);
            let tile = row / down * in_a_row + column / across;
            of.push(tile);
            cells[tile].push(c);
        }
        Tiling { of, cells }
    }
}

/// What other tiles see of the stored times: never above 300,000,000 and at walls.
pub fn ghosts(grid: &Grid, stored: &[u32]) -> Vec<u32> {
    let see = |(&t, &s): (&u32, &u32)| if s == 0 { NEVER } else { counted(t) };
    stored.iter().zip(&grid.slow).map(see).collect()
}

/// Times and sides after one round: each tile is solved by passes, with what its neighbours held before. A cell's sides
/// come from the times that its tile saw: of its own cells those that the round leaves, of others what they held
/// before.
pub fn round(grid: &Grid, tiling: &Tiling, bound: u32, stored: &[u32]) -> Front {
    let ghosts = ghosts(grid, stored);
    let mut times = vec![NEVER; grid.size()];
    for (tile, cells) in tiling.cells.iter().enumerate() {
        let seen = |times: &[u32], e: usize| if tiling.of[e] == tile { times[e] } else { ghosts[e] };
        settle(grid, cells, &mut times, seen);
    }
    let times = cut(times, bound);
    with_sides(grid, times.clone(), |c, e| if tiling.of[c] == tiling.of[e] { times[e] } else { ghosts[e] })
}

/// The entries of times that differ, as bare numbers.
pub fn altered(before: &[u32], after: &[u32]) -> u32 {
    before.iter().zip(after).filter(|(a, b)| a != b).count() as u32
}

/// The bound of round k.
pub fn bound_of(k: u64, stride: u32, horizon: u32) -> u32 {
    (k * u64::from(stride)).min(u64::from(horizon)) as u32
}

/// The number of rounds of a run, and what it leaves, each round worked out. A round may alter sides and no time: the
/// times alone say which one is the last.
pub fn run_every_round(grid: &Grid, tiling: &Tiling, stride: u32, horizon: u32) -> (u64, Front) {
    let mut times = vec![NEVER; grid.size()];
    let mut k = 1;
    loop {
        let next = round(grid, tiling, bound_of(k, stride, horizon), &times);
        if next.times == times && k * u64::from(stride) >= u64::from(horizon) {
            return (k, next);
        }
        times = next.times;
        k += 1;
    }
}

/// The number of rounds of a run in which one tile covers the board, as card 8 has it, from the board's times. K is the
/// horizon divided by the stride, rounded up, at least 1; there is one round more where some time is above (K - 1) ×
/// stride and at most the horizon, and for K = 1 the span starts at 0 and includes it.
pub fn rounds_of_one_tile(times: &[u32], stride: u32, horizon: u32) -> u64 {
    let k = u64::from(up(horizon, stride)).max(1);
    let below = (k - 1) * u64::from(stride);
    let in_span = |&t: &u32| (k == 1 || u64::from(t) > below) && t <= horizon;
    k + u64::from(times.iter().any(in_span))
}
