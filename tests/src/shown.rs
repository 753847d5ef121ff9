//! What people see of a scenario: the tablet's call and the lines of `rings`.

use crate::board::{side_is_good, Grid};
use crate::calls::run;
use crate::march::{cut, solved};
use crate::rule::turn;
use crate::scenario::{judge, Held, Limit};
use crate::tiles::Tiling;
use crate::{LARGEST, NEVER};

/// The horizon of the tablet and of `rings`.
pub const SHOWN_HORIZON: u32 = 6_000_000;
/// The longest side that they take.
pub const SHOWN_SIDE: u32 = 32;
/// The most cells that they take, all storeys together.
pub const SHOWN_CELLS: u32 = 1_024;
/// The longest file that `rings` takes.
pub const SHOWN_FILE: usize = 20_500;

const SHOWN: Limit = Limit { side: SHOWN_SIDE, cells: SHOWN_CELLS as u64 };

/// What the tablet's call answers, and what the lent output holds afterwards.
pub fn tablet(file: &[u8], stride: u32, across: u32, down: u32, out: &mut [u8]) -> u64 {
    let held = match judge(file, Some(SHOWN)) {
        Ok(held) => held,
        Err(cause) => return u64::from(cause.number),
    };
    if stride == 0 || stride > LARGEST {
        return 10;
    }
    if !side_is_good(across) || !side_is_good(down) {
        return 11;
    }
    if out.len() < 4 * held.board.size() {
        return 14;
    }
    let grid = Grid::new(&held.board);
    let (rounds, left) = run(&grid, &Tiling::new(&grid, across, down), stride, SHOWN_HORIZON);
    for (c, time) in left.times.into_iter().enumerate() {
        out[4 * c..4 * c + 4].copy_from_slice(&time.to_le_bytes());
    }
    256 * u64::from(rounds)
}

/// What `rings` prints for a file. Its tile run ends at the times of the march, whatever its tiles
/// and its stride.
pub fn rings(file: &[u8]) -> String {
    if file.len() > SHOWN_FILE {
        return "refused 15\n".to_string();
    }
    let held = match judge(file, Some(SHOWN)) {
        Ok(held) => held,
        Err(cause) => return format!("refused {}\n", cause.number),
    };
    turns(&held, SHOWN_HORIZON)
}

/// The lines of a scenario: width, height and ticks, then the turns of each row. Storeys stand one below the other, the
/// lowest number first, with nothing between.
pub fn turns(held: &Held, horizon: u32) -> String {
    let mut lines = format!("{} {} {}\n", held.board.width, held.board.height, held.ticks);
    let times = cut(solved(&Grid::new(&held.board)), horizon);
    for row in times.chunks(held.board.width as usize) {
        let fields: Vec<String> = row.iter().map(|&t| field(t, held.ticks)).collect();
        lines += &fields.join(" ");
        lines.push('\n');
    }
    lines
}

fn field(time: u32, ticks: u32) -> String {
    match turn(time, ticks).turn {
        NEVER => "-".to_string(),
        number => number.to_string(),
    }
}
