//! The scenario file: its reader and its writer.

use crate::board::{judge_slownesses, judge_starts, judge_storeys, side_is_good, size_of, Board};
use crate::{Cause, Reply};

/// What the reader answers: number 0 and what the file's head says, or a refusal's number, zeros and its place.
#[repr(C)]
#[derive(Clone, Copy, Debug, PartialEq, Eq)]
pub struct Scenario {
    pub number: u32,
    pub width: u32,
    pub height: u32,
    pub storeys: u32,
    pub ticks: u32,
    pub ground: u32,
    pub starts: u32,
    pub place: usize,
}

impl Scenario {
    pub fn refused(cause: impl Into<Cause>) -> Scenario {
        let Cause { number, place } = cause.into();
        Scenario { number, width: 0, height: 0, storeys: 0, ticks: 0, ground: 0, starts: 0, place }
    }
}

/// What an accepted file holds.
#[derive(Clone, Debug, PartialEq, Eq)]
pub struct Held {
    pub ticks: u32,
    pub ground: u32,
    pub board: Board,
}

#[derive(Clone, Copy)]
struct Run {
    offset: u64,
    length: u64,
    slowness: u32,
}

fn two(file: &[u8], at: usize) -> u32 {
    u32::from(file[at]) + 256 * u32::from(file[at + 1])
}

fn four(file: &[u8], at: usize) -> u32 {
    two(file, at) + 65_536 * two(file, at + 2)
}

/// What the tablet and `rings` take at most.
#[derive(Clone, Copy)]
pub struct Limit {
    pub side: u32,
    pub cells: u64,
}

/// The bytes of a file's head.
pub const HEAD: usize = 20;

/// Refusals 1, 2, 3, 5, 21, 23, 6, 7, 18, 8 and 9, or what the file holds. A limit gives 15, directly after 2, for a
/// board above it, by the storeys that the file states, whether they are good or not.
pub fn judge(file: &[u8], limit: Option<Limit>) -> Result<Held, Cause> {
    if file.len() < HEAD {
        return Err(1.into());
    }
    let (run_count, start_count) = (u64::from(four(file, 12)), u64::from(four(file, 16)));
    if file.len() as u64 != HEAD as u64 + 12 * run_count + 8 * start_count {
        return Err(1.into());
    }
    let sides @ [width, height, storeys] = [two(file, 0), two(file, 2), two(file, 4)];
    let (ticks, ground) = (two(file, 6), four(file, 8));
    if !side_is_good(width) || !side_is_good(height) {
        return Err(2.into());
    }
    if limit.map_or(false, |most| width.max(height) > most.side || size_of(sides) > most.cells) {
        return Err(15.into());
    }
    if ticks == 0 {
        return Err(3.into());
    }
    let runs: Vec<Run> = (0..run_count as usize).map(|i| run_at(file, HEAD + 12 * i)).collect();
    let pairs = || runs.iter().map(|run| &run.slowness).chain([&ground]);
    judge_slownesses(pairs())?;
    judge_storeys(sides, pairs())?;
    let size = size_of(sides);
    if !runs_are_good(&runs, size, ground) {
        return Err(6.into());
    }
    let mut slow = vec![ground; size as usize];
    for run in &runs {
        slow[run.offset as usize..(run.offset + run.length) as usize].fill(run.slowness);
    }
    let first_start = HEAD + 12 * run_count as usize;
    let places = (0..start_count as usize).map(|i| first_start + 8 * i);
    let cells: Vec<u32> = places.clone().map(|at| four(file, at)).collect();
    let begins: Vec<u32> = places.map(|at| four(file, at + 4)).collect();
    judge_starts(&slow, &cells, &begins)?;
    Ok(Held { ticks, ground, board: Board { width, height, storeys, slow, cells, begins } })
}

fn run_at(file: &[u8], at: usize) -> Run {
    Run { offset: u64::from(four(file, at)), length: u64::from(four(file, at + 4)), slowness: four(file, at + 8) }
}

fn runs_are_good(runs: &[Run], size: u64, ground: u32) -> bool {
    let alone = runs.iter().all(|run| run.length >= 1 && run.offset + run.length <= size && run.slowness != ground);
    let in_pairs = runs.windows(2).all(|pair| {
        let end = pair[0].offset + pair[0].length;
        end <= pair[1].offset && (end != pair[1].offset || pair[0].slowness != pair[1].slowness)
    });
    alone && in_pairs
}

/// What the call `read_scenario` answers, and what the lent lists hold afterwards.
pub fn read(file: &[u8], slow: &mut [u32], cells: &mut [u32], begins: &mut [u32]) -> Scenario {
    let held = match judge(file, None) {
        Ok(held) => held,
        Err(cause) => return Scenario::refused(cause),
    };
    let (size, starts) = (held.board.slow.len(), held.board.cells.len());
    if slow.len() < size || cells.len() < starts || begins.len() < starts {
        return Scenario::refused(14);
    }
    slow[..size].copy_from_slice(&held.board.slow);
    cells[..starts].copy_from_slice(&held.board.cells);
    begins[..starts].copy_from_slice(&held.board.begins);
    Scenario {
        number: 0,
        width: held.board.width,
        height: held.board.height,
        storeys: held.board.storeys,
        ticks: held.ticks,
        ground: held.ground,
        starts: starts as u32,
        place: 0,
    }
}

/// The one file that fits a board and a ground.
pub fn file_of(board: &Board, ticks: u32, ground: u32) -> Vec<u8> {
    let mut runs: Vec<(u32, u32, u32)> = Vec::new();
    for (c, &s) in board.slow.iter().enumerate() {
        let c = c as u32;
        if s == ground {
            continue;
        }
        match runs.last_mut() {
            Some((offset, length, slowness)) if *slowness == s && *offset + *length == c => *length += 1,
            _ => runs.push((c, 1, s)),
        }
    }
    let mut file = Vec::new();
    for number in [board.width, board.height, board.storeys, ticks] {
        file.extend_from_slice(&(number as u16).to_le_bytes());
    }
    file.extend_from_slice(&ground.to_le_bytes());
    file.extend_from_slice(&(runs.len() as u32).to_le_bytes());
    file.extend_from_slice(&(board.cells.len() as u32).to_le_bytes());
    for (offset, length, slowness) in runs {
        file.extend_from_slice(&offset.to_le_bytes());
        file.extend_from_slice(&length.to_le_bytes());
        file.extend_from_slice(&slowness.to_le_bytes());
    }
    for (cell, time) in board.cells.iter().zip(&board.begins) {
        file.extend_from_slice(&cell.to_le_bytes());
        file.extend_from_slice(&time.to_le_bytes());
    }
    file
}

/// Refusals 2, 3, 4, 5, 21, 23, 7, 18, 8 and 9.
fn judge_writing(board: &Board, ticks: u32, ground: u32) -> Result<(), Cause> {
    board.judge_sides()?;
    if ticks == 0 || ticks > 65_535 {
        return Err(3.into());
    }
    board.judge_lengths()?;
    let pairs = || board.slow.iter().chain([&ground]);
    judge_slownesses(pairs())?;
    judge_storeys(board.sides(), pairs())?;
    judge_starts(&board.slow, &board.cells, &board.begins)
}

/// What the call `write_scenario` answers, and what the lent list holds afterwards.
pub fn write(board: &Board, ticks: u32, ground: u32, out: &mut [u8]) -> Reply {
    if let Err(cause) = judge_writing(board, ticks, ground) {
        return Reply::refused(cause);
    }
    let file = file_of(board, ticks, ground);
    if out.len() < file.len() {
        return Reply::refused(14);
    }
    out[..file.len()].copy_from_slice(&file);
    Reply::accepted(file.len() as u32)
}
