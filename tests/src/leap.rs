//! A tile run that skips idle rounds. It shares no solving with `tiles`: tiles are solved by a front,
//! and only those of which a ghost was altered.
//!
//! After a round that alters nothing, the times that the tiles would reach without a bound stay the
//! same until the bound lets the earliest of those above it in; the rounds before that are idle.

use crate::board::{Grid, OFF};
use crate::march::met;
use crate::tiles::{bound_of, up, Tiling};
use crate::NEVER;
use std::cmp::Reverse;
use std::collections::BinaryHeap;

/// The number of rounds and the times of a run.
pub fn run_by_leaps(grid: &Grid, tiling: &Tiling, stride: u32, horizon: u32) -> (u64, Vec<u32>) {
    let mut held = vec![NEVER; grid.size()];
    // what each cell would get if there were no bound
    let mut free = vec![NEVER; grid.size()];
    // free times that a bound has still to let in; one that has been lowered since is passed over
    let mut later = BinaryHeap::new();
    let mut stale: Vec<usize> = (0..tiling.cells.len()).collect();
    let first_at_horizon = u64::from(up(horizon, stride)).max(1);
    let mut k = 1;
    loop {
        for &tile in &stale {
            solve_tile(grid, tiling, tile, &held, &mut free);
            for &c in &tiling.cells[tile] {
                assert!(free[c] <= held[c], "the times of a run only fall");
                if free[c] < held[c] {
                    later.push(Reverse((free[c], c)));
                }
            }
        }
        let changed = let_in(&mut later, &free, bound_of(k, stride, horizon), &mut held);
        stale = tiles_that_see(grid, tiling, &changed);
        if !changed.is_empty() {
            k += 1;
        } else if k >= first_at_horizon {
            return (k, held);
        } else {
            let next = later.peek().map_or(NEVER, |&Reverse((time, _))| time);
            k = u64::from(up(next, stride)).min(first_at_horizon);
        }
    }
}

fn solve_tile(grid: &Grid, tiling: &Tiling, tile: usize, held: &[u32], free: &mut [u32]) {
    let mut front = BinaryHeap::new();
    for &c in &tiling.cells[tile] {
        free[c] = NEVER;
    }
    let see = |free: &[u32], e: usize| if tiling.of[e] == tile { free[e] } else { held[e] };
    for &c in &tiling.cells[tile] {
        front.push(Reverse((met(grid, c, |e| see(free, e)), c)));
    }
    while let Some(Reverse((time, c))) = front.pop() {
        if time >= free[c] {
            continue;
        }
        free[c] = time;
        for e in grid.near[c] {
            if e != OFF && tiling.of[e] == tile {
                front.push(Reverse((met(grid, e, |f| see(free, f)), e)));
            }
        }
    }
}

/// Holds the free times up to the bound, and answers the cells that this altered.
fn let_in(later: &mut BinaryHeap<Reverse<(u32, usize)>>, free: &[u32], bound: u32, held: &mut [u32]) -> Vec<usize> {
    let mut changed = Vec::new();
    while let Some(&Reverse((time, c))) = later.peek() {
        if time > bound {
            break;
        }
        later.pop();
        if time == free[c] && time < held[c] {
            held[c] = time;
            changed.push(c);
        }
    }
    changed
}

fn tiles_that_see(grid: &Grid, tiling: &Tiling, changed: &[usize]) -> Vec<usize> {
    let mut stale = Vec::new();
    for &c in changed {
        for e in grid.near[c] {
            if e != OFF && tiling.of[e] != tiling.of[c] {
                stale.push(tiling.of[e]);
            }
        }
    }
    stale.sort_unstable();
    stale.dedup();
    stale
}
