//! The times of a whole board, and its cells' sides. Just one set of times meets the rule in every cell, so any way
//! that ends with every cell meeting it has found them.

use crate::board::{Grid, OFF};
use crate::rule::{local, sides};
use crate::NEVER;
use std::cmp::Reverse;
use std::collections::BinaryHeap;

/// What a march, a round or a run leaves.
#[derive(Clone, Debug, PartialEq, Eq)]
pub struct Front {
    pub times: Vec<u32>,
    /// A byte a cell, as `rule::sides` has it.
    pub sides: Vec<u8>,
}

impl Front {
    /// These times, and sides that are still to be written: each a byte that no call leaves.
    pub fn holding(times: impl Into<Vec<u32>>) -> Front {
        let times = times.into();
        let sides = (0..times.len()).map(|c| c as u8 | 0xC0).collect();
        Front { times, sides }
    }
}

/// The times around cell c where it sees the times `seen`, never beyond the edge.
fn around(grid: &Grid, c: usize, seen: impl Fn(usize) -> u32) -> [u32; 6] {
    grid.near[c].map(|e| if e == OFF { NEVER } else { seen(e) })
}

/// What cell c must hold when it sees the times `seen`: the earlier of its start and the local rule.
pub fn met(grid: &Grid, c: usize, seen: impl Fn(usize) -> u32) -> u32 {
    grid.start[c].min(local(grid.slow[c], around(grid, c, seen)))
}

/// These times with the sides of every cell; `seen(c, e)` is what cell c sees of cell e. A cell has none that is never,
/// and none whose start is no later than the local rule's time.
pub fn with_sides(grid: &Grid, times: Vec<u32>, seen: impl Fn(usize, usize) -> u32) -> Front {
    let of_cell = |c: usize| {
        let near = around(grid, c, |e| seen(c, e));
        let by_front = local(grid.slow[c], near);
        if times[c] == NEVER || grid.start[c] <= by_front {
            0
        } else {
            sides(near, by_front)
        }
    };
    let sides = (0..grid.size()).map(of_cell).collect();
    Front { times, sides }
}

/// Passes over the cells, there and back, until one of them alters nothing. `seen(times, e)` is what
/// the cells see of cell e.
pub fn settle(grid: &Grid, cells: &[usize], times: &mut [u32], seen: impl Fn(&[u32], usize) -> u32) {
    let mut back = false;
    loop {
        let mut altered = false;
        for i in 0..cells.len() {
            let c = if back { cells[cells.len() - 1 - i] } else { cells[i] };
            let now = met(grid, c, |e| seen(times, e));
            altered |= now != times[c];
            times[c] = now;
        }
        if !altered {
            return;
        }
        back = !back;
    }
}

/// All times by passes from all never.
pub fn solved_by_passes(grid: &Grid) -> Vec<u32> {
    let mut times = vec![NEVER; grid.size()];
    let cells: Vec<usize> = (0..grid.size()).collect();
    settle(grid, &cells, &mut times, |times, e| times[e]);
    times
}

/// All times by a front that advances from the earliest cell on; whenever a cell gets an earlier
/// time its neighbours are looked at again. For large boards.
pub fn solved_by_front(grid: &Grid) -> Vec<u32> {
    let mut times = vec![NEVER; grid.size()];
    let mut front = BinaryHeap::new();
    for (c, &start) in grid.start.iter().enumerate() {
        if start != NEVER {
            times[c] = start;
            front.push(Reverse((start, c)));
        }
    }
    while let Some(Reverse((time, c))) = front.pop() {
        if time != times[c] {
            continue;
        }
        for e in grid.near[c] {
            if e != OFF {
                let now = met(grid, e, |f| times[f]);
                if now < times[e] {
                    times[e] = now;
                    front.push(Reverse((now, e)));
                }
            }
        }
    }
    times
}

/// All times, by passes where the board is small.
pub fn solved(grid: &Grid) -> Vec<u32> {
    if grid.size() <= 2_500 {
        solved_by_passes(grid)
    } else {
        solved_by_front(grid)
    }
}

/// The march to a horizon: its cells see the times that it leaves.
pub fn march(grid: &Grid, horizon: u32) -> Front {
    let times = cut(solved(grid), horizon);
    with_sides(grid, times.clone(), |_, e| times[e])
}

/// Each time up to the bound, never elsewhere.
pub fn cut(mut times: Vec<u32>, bound: u32) -> Vec<u32> {
    for t in &mut times {
        if *t > bound {
            *t = NEVER;
        }
    }
    times
}
