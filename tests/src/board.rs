//! Boards with plain start lists, as a caller hands them in: nothing here says that they are good.

use crate::rule::parts;
use crate::{Cause, Start, LATEST_START, LONGEST_SIDE, MOST_CELLS, MOST_STOREYS, NEVER, SLOWEST};

#[derive(Clone, Debug, PartialEq, Eq)]
pub struct Board {
    pub width: u32,
    pub height: u32,
    pub storeys: u32,
    /// Slownesses by cell, storey by storey and row by row, pairs as `rule::pair` packs them, 0 being a wall.
    pub slow: Vec<u32>,
    /// Starts: their cells, and beside them their times.
    pub cells: Vec<u32>,
    pub begins: Vec<u32>,
}

pub fn side_is_good(side: u32) -> bool {
    (1..=LONGEST_SIDE).contains(&side)
}

/// Width × height × storeys. The storeys may be any number of 32 bits: with good sides the product is far below 2⁶⁴.
pub fn size_of(sides: [u32; 3]) -> u64 {
    sides.into_iter().map(u64::from).product()
}

impl Board {
    /// N, for sides that are good and any number of storeys.
    pub fn size(&self) -> usize {
        size_of(self.sides()) as usize
    }

    /// Width, height and storeys.
    pub fn sides(&self) -> [u32; 3] {
        [self.width, self.height, self.storeys]
    }

    /// Refusals 2, 4, 5, 21, 23, 7, 18, 8 and 9.
    pub fn judge(&self) -> Result<(), Cause> {
        self.judge_sides()?;
        self.judge_lengths()?;
        judge_slownesses(&self.slow)?;
        judge_storeys(self.sides(), &self.slow)?;
        judge_starts(&self.slow, &self.cells, &self.begins)
    }

    /// Refusal 2.
    pub fn judge_sides(&self) -> Result<(), Cause> {
        if !side_is_good(self.width) || !side_is_good(self.height) {
            return Err(2.into());
        }
        Ok(())
    }

    /// Refusal 4, for sides that are good.
    pub fn judge_lengths(&self) -> Result<(), Cause> {
        if self.slow.len() != self.size() || self.cells.len() != self.begins.len() {
            return Err(4.into());
        }
        Ok(())
    }

    /// The starts as records, where both lists are as long.
    pub fn starts(&self) -> Vec<Start> {
        self.cells.iter().zip(&self.begins).map(|(&cell, &time)| Start { cell, time }).collect()
    }
}

/// Refusals 5 and 21; 5 looks at both numbers of every pair before 21 looks at any.
pub fn judge_slownesses<'a>(slow: impl IntoIterator<Item = &'a u32>) -> Result<(), Cause> {
    let pairs: Vec<[u32; 2]> = slow.into_iter().map(|&s| parts(s)).collect();
    if pairs.iter().flatten().any(|&number| number > SLOWEST) {
        return Err(5.into());
    }
    if pairs.iter().any(|[g, h]| (*g == 0) != (*h == 0)) {
        return Err(21.into());
    }
    Ok(())
}

/// Refusal 23, for sides that are good: storeys that are none or too many, too many cells in all, or an unequal pair
/// where there are several storeys.
pub fn judge_storeys<'a>(sides: [u32; 3], slow: impl IntoIterator<Item = &'a u32>) -> Result<(), Cause> {
    let storeys = sides[2];
    if !(1..=MOST_STOREYS).contains(&storeys) || size_of(sides) > MOST_CELLS {
        return Err(23.into());
    }
    let is_unequal = |&s: &u32| parts(s)[0] != parts(s)[1];
    if storeys >= 2 && slow.into_iter().any(is_unequal) {
        return Err(23.into());
    }
    Ok(())
}

/// Refusals 7, 18, 8 and 9; each looks at the whole list.
pub fn judge_starts(slow: &[u32], cells: &[u32], begins: &[u32]) -> Result<(), Cause> {
    if let Some(place) = cells.iter().position(|&c| c as usize >= slow.len()) {
        return Err(Cause { number: 7, place });
    }
    // the second of a pair is at fault, so the list's first start never is
    if let Some(first) = cells.windows(2).position(|pair| pair[1] <= pair[0]) {
        return Err(Cause { number: 18, place: first + 1 });
    }
    if begins.iter().any(|&t| t > LATEST_START) {
        return Err(8.into());
    }
    if cells.iter().any(|&c| slow[c as usize] == 0) {
        return Err(9.into());
    }
    Ok(())
}

/// A good board laid out for solving.
pub struct Grid {
    pub width: usize,
    pub height: usize,
    pub slow: Vec<u32>,
    /// Start time by cell, never where the cell has none.
    pub start: Vec<u32>,
    /// Left, right, above, below, over and under of each cell; `OFF` beyond the edge.
    pub near: Vec<[usize; 6]>,
}

pub const OFF: usize = usize::MAX;

impl Grid {
    pub fn new(board: &Board) -> Grid {
        let sides = board.sides().map(|side| side as usize);
        let mut start = vec![NEVER; board.size()];
        for (&cell, &time) in board.cells.iter().zip(&board.begins) {
            start[cell as usize] = time;
        }
        let near = (0..board.size()).map(|c| neighbours(c, sides)).collect();
        Grid { width: sides[0], height: sides[1], slow: board.slow.clone(), start, near }
    }

    pub fn size(&self) -> usize {
        self.slow.len()
    }
}

/// Over is the next storey, under the one before. A storey's last row is not above the next storey's first.
fn neighbours(c: usize, [width, height, storeys]: [usize; 3]) -> [usize; 6] {
    let (storey, row, column) = (c / width / height, c / width % height, c % width);
    let at = |storey: usize, row: usize, column: usize| (storey * height + row) * width + column;
    [
        if column > 0 { at(storey, row, column - 1) } else { OFF },
        if column + 1 < width { at(storey, row, column + 1) } else { OFF },
        if row > 0 { at(storey, row - 1, column) } else { OFF },
        if row + 1 < height { at(storey, row + 1, column) } else { OFF },
        if storey + 1 < storeys { at(storey + 1, row, column) } else { OFF },
        if storey > 0 { at(storey - 1, row, column) } else { OFF },
    ]
}
