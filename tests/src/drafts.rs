//! Scenario files taken apart, so that they can be damaged in every way that the table names.

use crate::damage::{HALF_WALLS, TOO_SLOW, UNEQUAL};
use crate::random::Random;
use crate::scenario::{file_of, Held, HEAD};
use crate::shown::SHOWN_CELLS;
use crate::{LATEST_START, LONGEST_SIDE, MOST_STOREYS, NEVER};

#[derive(Clone, Debug)]
pub struct Draft {
    /// Width, height, storeys, ticks.
    pub head: [u16; 4],
    pub ground: u32,
    /// Counts of runs and of starts, as the file states them.
    pub counts: [u32; 2],
    pub runs: Vec<(u32, u32, u32)>,
    pub starts: Vec<(u32, u32)>,
    /// Bytes that are cut off the end, and bytes that are added behind it.
    pub cut: usize,
    pub tail: Vec<u8>,
    walls: Vec<u32>,
    size: u32,
}

/// The numbers of the table that a file can be refused by; 15 is the tablet's and that of `rings`.
pub const FILE_CAUSES: [u32; 11] = [1, 2, 3, 5, 21, 23, 6, 7, 18, 8, 9];

impl Draft {
    pub fn of(held: &Held) -> Draft {
        let file = file_of(&held.board, held.ticks, held.ground);
        let two = |at: usize| u16::from_le_bytes([file[at], file[at + 1]]);
        let four = |at: usize| u32::from_le_bytes([file[at], file[at + 1], file[at + 2], file[at + 3]]);
        let counts = [four(12), four(16)];
        let first_start = HEAD + 12 * counts[0] as usize;
        let run = |i: u32| HEAD + 12 * i as usize;
        let start = |i: u32| first_start + 8 * i as usize;
        let slow = &held.board.slow;
        Draft {
            head: [two(0), two(2), two(4), two(6)],
            ground: four(8),
            counts,
            runs: (0..counts[0]).map(|i| (four(run(i)), four(run(i) + 4), four(run(i) + 8))).collect(),
            starts: (0..counts[1]).map(|i| (four(start(i)), four(start(i) + 4))).collect(),
            cut: 0,
            tail: Vec::new(),
            walls: (0..slow.len() as u32).filter(|&c| slow[c as usize] == 0).collect(),
            size: slow.len() as u32,
        }
    }

    pub fn bytes(&self) -> Vec<u8> {
        let mut file = Vec::new();
        for number in self.head {
            file.extend_from_slice(&number.to_le_bytes());
        }
        for number in [self.ground].into_iter().chain(self.counts) {
            file.extend_from_slice(&number.to_le_bytes());
        }
        for (offset, length, slowness) in &self.runs {
            file.extend_from_slice(&offset.to_le_bytes());
            file.extend_from_slice(&length.to_le_bytes());
            file.extend_from_slice(&slowness.to_le_bytes());
        }
        for (cell, time) in &self.starts {
            file.extend_from_slice(&cell.to_le_bytes());
            file.extend_from_slice(&time.to_le_bytes());
        }
        file.truncate(file.len().saturating_sub(self.cut));
        file.extend_from_slice(&self.tail);
        file
    }

    /// Gives the file the cause `number`, where it can have it.
    pub fn spoil(&mut self, r: &mut Random, number: u32) {
        match number {
            1 => self.spoil_length(r),
            2 => self.head[r.below(2) as usize] = r.pick(&[0, LONGEST_SIDE as u16 + 1, 511, 512, 32_768, 65_535]),
            3 => self.head[3] = 0,
            5 => *self.any_slowness(r) = r.pick(&TOO_SLOW),
            21 => *self.any_slowness(r) = r.pick(&HALF_WALLS),
            23 => self.spoil_storeys(r),
            6 => self.spoil_run(r),
            7 => self.start_off_the_board(r),
            18 => self.starts_that_do_not_rise(r),
            8 => {
                let late = r.pick(&[LATEST_START + 1, 1_048_576, 300_000_000, NEVER]);
                match self.any_start(r) {
                    Some(at) => self.starts[at].1 = late,
                    None => self.add_start(0, (0, late)),
                }
            }
            9 => self.start_on_a_wall(r),
            _ => self.too_large_to_be_shown(r),
        }
    }

    /// None or too many storeys, a board too large for its storeys, or an unequal pair in a house; a board that has one
    /// storey is made a house for that.
    fn spoil_storeys(&mut self, r: &mut Random) {
        match r.below(8) {
            0 => self.head[2] = r.pick(&[10, 255, 256, 257, 32_768, 65_535]),
            1 => self.head[..3].copy_from_slice(&r.pick(&[[256, 256, 2], [256, 129, 2], [256, 37, 7], [91, 91, 8]])),
            2 | 3 => self.head[2] = 0,
            4 | 5 => self.head[2] = MOST_STOREYS as u16 + 1,
            _ => {
                self.head[2] = self.head[2].max(2);
                *self.any_slowness(r) = r.pick(&UNEQUAL);
            }
        }
    }

    /// A side above 32, or so many storeys that there are more than 1,024 cells.
    fn too_large_to_be_shown(&mut self, r: &mut Random) {
        let floor = u32::from(self.head[0]) * u32::from(self.head[1]);
        match r.below(4) {
            0 if (1..=SHOWN_CELLS).contains(&floor) => {
                let most = SHOWN_CELLS / floor;
                self.head[2] = r.pick(&[most + 1, most + 2, 65_535]) as u16;
            }
            1 => self.head[..3].copy_from_slice(&r.pick(&[[32, 32, 2], [16, 32, 3], [32, 17, 2], [13, 13, 8]])),
            _ => self.head[r.below(2) as usize] = r.within(33, LONGEST_SIDE) as u16,
        }
    }

    /// A run's, where there is one, more often than the ground's.
    fn any_slowness(&mut self, r: &mut Random) -> &mut u32 {
        match self.any_run(r) {
            Some(at) if !r.once_in(3) => &mut self.runs[at].2,
            _ => &mut self.ground,
        }
    }

    fn any_run(&self, r: &mut Random) -> Option<usize> {
        let count = self.runs.len() as u32;
        Some(r.below(count.max(1)) as usize).filter(|_| count > 0)
    }

    fn any_start(&self, r: &mut Random) -> Option<usize> {
        let count = self.starts.len() as u32;
        Some(r.below(count.max(1)) as usize).filter(|_| count > 0)
    }

    fn add_run(&mut self, at: usize, run: (u32, u32, u32)) {
        self.runs.insert(at, run);
        self.counts[0] = self.counts[0].wrapping_add(1);
    }

    fn add_start(&mut self, at: usize, start: (u32, u32)) {
        self.starts.insert(at, start);
        self.counts[1] = self.counts[1].wrapping_add(1);
    }

    /// Bytes cut off or added, or a count that is off; some fit where sums wrap at 32 bits.
    fn spoil_length(&mut self, r: &mut Random) {
        let which = r.below(2) as usize;
        let count = &mut self.counts[which];
        match r.below(5) {
            0 => self.cut = r.within(1, 20) as usize,
            1 => self.tail = (0..r.within(1, 20)).map(|i| i as u8).collect(),
            2 => *count = r.pick(&[count.wrapping_add(1), count.wrapping_sub(1)]),
            3 => *count = count.wrapping_add(r.pick(&[1 << 29, 1 << 30, 1 << 31])),
            _ => *count = r.pick(&[NEVER, NEVER - 1, 1 << 31, 1 << 29, 1 << 28]),
        }
    }

    fn spoil_run(&mut self, r: &mut Random) {
        let at = match self.any_run(r) {
            Some(at) => at,
            None => return self.add_run(0, (r.pick(&[0, self.size, NEVER]), 1, self.ground)),
        };
        let (offset, length, slowness) = self.runs[at];
        match r.below(9) {
            0 => self.runs[at].1 = 0,
            1 => self.runs[at].2 = self.ground,
            2 => self.add_run(at, (offset, length, slowness)),
            3 if length > 1 => {
                // one run as two that touch and have the same slowness
                self.runs[at].1 = 1;
                self.add_run(at + 1, (offset.wrapping_add(1), length - 1, slowness));
            }
            4 => self.runs[at].0 = offset.wrapping_sub(1),
            5 => {
                self.runs[at].1 =
                    r.pick(&[length.wrapping_add(1), self.size, self.size.wrapping_sub(offset).wrapping_add(1), NEVER])
            }
            6 => {
                // the end wraps at 32 bits to a good one
                self.runs[at].0 = NEVER - r.below(3);
                self.runs[at].1 = r.within(1, 5);
            }
            7 if at > 0 => self.runs.swap(at - 1, at),
            _ => {
                let last = self.runs.len() - 1;
                let (offset, length, _) = self.runs[last];
                let beyond = self.size.saturating_sub(offset).max(length).wrapping_add(1);
                self.runs[last] = (offset, beyond, slowness);
            }
        }
    }

    fn start_off_the_board(&mut self, r: &mut Random) {
        let off = r.pick(&[self.size, self.size + 1, 65_536, NEVER]);
        match self.any_start(r) {
            Some(at) if r.once_in(2) => self.starts[at].0 = off,
            _ => self.add_start(self.starts.len(), (off, 0)),
        }
    }

    /// The same cell twice, two that fall, or a last start that is not above the one before.
    fn starts_that_do_not_rise(&mut self, r: &mut Random) {
        if self.starts.is_empty() {
            self.add_start(0, (0, 0));
        }
        let at = r.below(self.starts.len() as u32) as usize;
        match r.below(3) {
            0 if at > 0 => self.starts.swap(at - 1, at),
            1 => self.add_start(self.starts.len(), self.starts[at]),
            _ => self.add_start(at, self.starts[at]),
        }
    }

    fn start_on_a_wall(&mut self, r: &mut Random) {
        if !self.walls.is_empty() {
            let wall = r.pick(&self.walls);
            let at = self.starts.iter().filter(|start| start.0 < wall).count();
            self.add_start(at, (wall, 0));
        } else if let Some(at) = self.any_start(r) {
            // a wall under a start that stands on the ground
            let cell = self.starts[at].0;
            let at = self.runs.iter().filter(|run| run.0 < cell).count();
            self.add_run(at, (cell, 1, 0));
        }
    }
}

/// One byte more, less or other, anywhere.
pub fn spoil_byte(r: &mut Random, file: &mut Vec<u8>) {
    let at = r.below(file.len().max(1) as u32) as usize;
    match r.below(4) {
        0 => file.truncate(at),
        1 => file.insert(at, r.any() as u8),
        _ if !file.is_empty() => file[at] ^= 1 << r.below(8),
        _ => {}
    }
}
