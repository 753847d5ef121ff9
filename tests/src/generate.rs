//! Seeded boards, calls and scenarios that the table has nothing against.

use crate::board::{size_of, Board, Grid};
use crate::calls::{Call, Kind, Lengths};
use crate::march::{solved, Front};
use crate::random::Random;
use crate::rule::{equal, pair, parts};
use crate::scenario::Held;
use crate::tiles::{tile_count, up};
use crate::{LARGEST, LATEST_START, LONGEST_SIDE, MOST_CELLS, MOST_STOREYS, NEVER, SLOWEST};

/// An open cell's slowness: the two numbers of the pair are drawn apart, or they are equal.
pub fn open(r: &mut Random, apart: bool, mut number: impl FnMut(&mut Random) -> u32) -> u32 {
    let g = number(r);
    pair(g, if apart { number(r) } else { g })
}

/// Slownesses of a board with these sides: even ground, stretches, scattered ones, with few walls or many. On half of
/// the boards of one storey the two numbers of a pair are drawn apart, on all others they are equal.
pub fn slownesses(r: &mut Random, sides: [u32; 3]) -> Vec<u32> {
    let n = size_of(sides) as usize;
    let (style, apart) = (r.below(7), r.once_in(2) && sides[2] == 1);
    let walls = r.pick(&[0, 0, 0, 5, 20, 40, 60]);
    let highest = r.spread(SLOWEST).max(1);
    let ten = if apart { r.pick(&[pair(10, 20), pair(20, 10)]) } else { equal(10) };
    let (one, other) = (open(r, apart, |r| r.within(1, highest)), open(r, apart, |r| r.within(1, SLOWEST)));
    let mut stretch = 0;
    let mut last = one;
    let mut slow = Vec::with_capacity(n);
    for _ in 0..n {
        if stretch > 0 {
            stretch -= 1;
        } else {
            last = match style {
                0 => ten,
                1 => one,
                2 => open(r, apart, |r| r.pick(&[1, SLOWEST])),
                3 => open(r, apart, |r| r.within(1, SLOWEST)),
                4 => r.pick(&[one, one, one, other]),
                _ => open(r, apart, |r| r.within(1, highest)),
            };
            if r.below(100) < walls {
                last = 0;
            }
            if style >= 4 {
                stretch = r.below(6);
            }
        }
        slow.push(last);
    }
    slow
}

/// Starts on open cells: none, one, a few, many or everywhere; early ones and late ones.
pub fn starts(r: &mut Random, slow: &[u32]) -> (Vec<u32>, Vec<u32>) {
    let mut open: Vec<u32> = (0..slow.len() as u32).filter(|&c| slow[c as usize] > 0).collect();
    let count = match r.below(12) {
        0 => 0,
        1..=5 => 1,
        6..=8 => r.within(2, 4),
        9..=10 => r.below(1 + open.len() as u32 / 3),
        _ => open.len() as u32,
    };
    r.shuffle(&mut open);
    open.truncate(count as usize);
    open.sort_unstable();
    let latest = r.pick(&[0, 0, 20, 3_000, LATEST_START]);
    let begins = open.iter().map(|_| if r.once_in(40) { LATEST_START } else { r.within(0, latest) }).collect();
    (open, begins)
}

pub fn board_of(r: &mut Random, sides: [u32; 3]) -> Board {
    let slow = slownesses(r, sides);
    let (cells, begins) = starts(r, &slow);
    let [width, height, storeys] = sides;
    Board { width, height, storeys, slow, cells, begins }
}

/// A board with sides up to `longest`, small ones more often. Every second is a house.
pub fn board(r: &mut Random, longest: u32) -> Board {
    board_within(r, longest, MOST_CELLS as u32)
}

/// The same with so many cells at most.
pub fn board_within(r: &mut Random, longest: u32, most: u32) -> Board {
    let storeys = if r.once_in(2) { 1 } else { r.within(2, MOST_STOREYS) };
    // a house is half as wide and high, so that it takes about as long
    let side = r.within(1, if storeys == 1 { longest } else { longest / 2 + 1 });
    let (width, height) = (r.within(1, side), r.within(1, side));
    board_of(r, [width, height, storeys.min(most / (width * height))])
}

/// One winding corridor from the top left, of equal pairs, with the latest start there.
pub fn snake(width: u32, height: u32, slowness: u32) -> Board {
    let mut slow = vec![equal(slowness); (width * height) as usize];
    for row in (1..height).step_by(2) {
        let gap = if row % 4 == 1 { width - 1 } else { 0 };
        for column in (0..width).filter(|&column| column != gap) {
            slow[(row * width + column) as usize] = 0;
        }
    }
    Board { width, height, storeys: 1, slow, cells: vec![0], begins: vec![1_000_000] }
}

/// A house of which every second storey is such a corridor and those between are walls but for one cell: the corridor
/// goes on over its end, then over its beginning, and so on. The height is even.
pub fn stairs(width: u32, height: u32, storeys: u32, slowness: u32) -> Board {
    let floor = snake(width, height, slowness);
    let end = (height - 1) * width + if height % 4 == 2 { width - 1 } else { 0 };
    let mut slow = Vec::new();
    for storey in 0..storeys {
        let stair = if storey % 4 == 1 { end } else { 0 };
        let cell = |c: u32| if storey % 2 == 0 || c == stair { floor.slow[c as usize] } else { 0 };
        slow.extend((0..width * height).map(cell));
    }
    Board { storeys, slow, ..floor }
}

/// What a list of times may hold before a call: anything at all.
pub fn stored(r: &mut Random, board: &Board) -> Vec<u32> {
    let times = solved(&Grid::new(board));
    let edges = [0, 1, LARGEST - 1, LARGEST, LARGEST + 1, NEVER - 1, NEVER];
    let late = times.iter().copied().filter(|&t| t != NEVER).max().unwrap_or(0);
    let (style, rare) = (r.below(7), r.within(2, 12));
    let mut held = Vec::with_capacity(times.len());
    for time in times {
        held.push(match style {
            0 => NEVER,
            1 => r.any(),
            2 => r.pick(&edges),
            3 => r.within(0, late.saturating_add(late / 4)),
            4 if r.once_in(rare) => NEVER,
            5 if r.once_in(rare) => r.within(0, late),
            6 if r.once_in(rare) => r.pick(&edges),
            _ => time,
        });
    }
    held
}

pub fn garbage(r: &mut Random, length: usize) -> Vec<u32> {
    (0..length).map(|_| r.any()).collect()
}

pub fn garbage_bytes(r: &mut Random, length: usize) -> Vec<u8> {
    (0..length).map(|_| r.any() as u8).collect()
}

/// Lists of these lengths that a call may be lent for writing: times and sides, and work.
pub fn garbage_lists(r: &mut Random, lengths: Lengths) -> (Front, Vec<u32>) {
    let front = Front { times: garbage(r, lengths.times), sides: garbage_bytes(r, lengths.sides) };
    (front, garbage(r, lengths.work))
}

/// A horizon or a bound: at the ends of its range, anywhere, and close to a time of the board.
pub fn horizon(r: &mut Random, board: &Board) -> u32 {
    match r.below(8) {
        0 => r.below(3),
        1 | 2 => LARGEST - r.below(2),
        3 => r.spread(LARGEST),
        4 => 6_000_000,
        _ => {
            let times = solved(&Grid::new(board));
            match r.pick(&times) {
                NEVER => r.spread(LARGEST),
                t => (t + r.below(3)).saturating_sub(1),
            }
        }
    }
}

/// T of card 14 for a board with these times: mostly at one of them or one behind it, so that some cell is earlier; 0,
/// between times, above all of them, above the horizon, and above 32 bits.
pub fn late_from(r: &mut Random, times: &[u32], horizon: u32) -> u64 {
    let reached: Vec<u32> = times.iter().copied().filter(|&t| t != NEVER).collect();
    let earliest = reached.iter().copied().min().unwrap_or(0);
    let latest = reached.iter().copied().max().unwrap_or(0);
    let later: Vec<u32> = reached.into_iter().filter(|&t| t > earliest).collect();
    match r.below(16) {
        0 => 0,
        1 => u64::from(latest) + 1,
        2 => u64::from(horizon) + 1 + u64::from(r.spread(LARGEST)),
        3 => u64::from(NEVER) - 1 + u64::from(r.spread(NEVER)),
        4..=14 if !later.is_empty() => u64::from(r.pick(&later)) + u64::from(r.once_in(4)),
        _ => r.spread(latest.max(1_000)).into(),
    }
}

/// The board with some of the open cells that may be retouched made slower, or walls where no start stands: all of
/// them, or a few. Pairs of a house stay equal.
pub fn retouched(r: &mut Random, board: &Board, may_be: impl Fn(usize) -> bool) -> Board {
    let (rare, walls) = (r.pick(&[1, 1, 2, 4, 12]), r.pick(&[0, 20, 20, 100]));
    let mut slow = board.slow.clone();
    for c in (0..board.size()).filter(|&c| board.slow[c] != 0 && may_be(c)) {
        if r.once_in(rare) {
            let is_wall = r.below(100) < walls && !board.cells.contains(&(c as u32));
            slow[c] = if is_wall { 0 } else { slower(r, slow[c], board.storeys == 1) };
        }
    }
    Board { slow, ..board.clone() }
}

/// A slowness with one number of the pair raised, both apart, or both by as much; the last alone if they are not to
/// part. One at its highest stays.
fn slower(r: &mut Random, slowness: u32, may_part: bool) -> u32 {
    let [g, h] = parts(slowness);
    let more = |r: &mut Random, number: u32| match r.below(4) {
        0 => SLOWEST - number,
        1 => r.within(0, SLOWEST - number),
        _ => r.within(1, 20).min(SLOWEST - number),
    };
    match r.below(if may_part { 4 } else { 1 }) {
        0 => slowness + equal(more(r, g.max(h))),
        1 => pair(g + more(r, g), h),
        2 => pair(g, h + more(r, h)),
        _ => pair(g + more(r, g), h + more(r, h)),
    }
}

/// Runs of more cells × rounds than this are seldom, since the second solver works each of them out.
const USUAL_WORK: u64 = 60_000;

/// A stride for a run over n cells.
pub fn stride(r: &mut Random, n: usize, horizon: u32) -> u32 {
    let few = r.spread((USUAL_WORK / n as u64) as u32).max(1);
    let for_few = up(horizon, few).max(1);
    match r.below(8) {
        0 => r.within(1, LARGEST),
        1 => horizon.max(1),
        2 | 3 => {
            let any = r.spread(LARGEST).max(1);
            let work = u64::from(horizon / any) * n as u64;
            let dear = work > USUAL_WORK && work < crate::calls::MOST_WORKED + USUAL_WORK;
            if dear && !r.once_in(50) {
                for_few
            } else {
                any
            }
        }
        _ => for_few,
    }
}

/// A tile side: every one from 1 to 256, those around the board's side more often.
pub fn tile_side(r: &mut Random, side: u32) -> u32 {
    match r.below(6) {
        0 => r.within(1, LONGEST_SIDE),
        1 => r.pick(&[1, 8, LONGEST_SIDE]),
        2 => (side + r.below(3)).saturating_sub(1).clamp(1, LONGEST_SIDE),
        3 => side / 2 + 1,
        _ => r.within(1, side),
    }
}

/// The sides of tiles for a board.
pub fn tile(r: &mut Random, board: &Board) -> [u32; 2] {
    [tile_side(r, board.width), tile_side(r, board.height)]
}

/// Every tile number once: rising, falling or mixed.
pub fn order(r: &mut Random, tiles: u32) -> Vec<u32> {
    let mut order: Vec<u32> = (0..tiles).collect();
    match r.below(4) {
        0 => {}
        1 => order.reverse(),
        _ => r.shuffle(&mut order),
    }
    order
}

/// A march, a round or a run of the board.
pub fn call(r: &mut Random, board: Board) -> Call {
    let (across, down) = (tile_side(r, board.width), tile_side(r, board.height));
    let order = order(r, tile_count(board.width, board.height, across, down));
    let horizon = horizon(r, &board);
    let kind = match r.below(5) {
        0 => Kind::March { horizon },
        1 | 2 => Kind::Round { across, down, bound: horizon, order },
        _ => Kind::Run { across, down, stride: stride(r, board.size(), horizon), horizon, order },
    };
    Call { board, kind }
}

fn ticks(r: &mut Random) -> u32 {
    match r.below(4) {
        0 => r.pick(&[1, 10, 65_535]),
        _ => r.spread(65_535).max(1),
    }
}

/// Ticks and ground for a board; the ground is mostly one of its slownesses.
pub fn scenario(r: &mut Random, board: Board) -> Held {
    let ground = match r.below(5) {
        0 => 0,
        1 => neither(r, 0, 0, board.storeys == 1),
        _ => r.pick(&board.slow),
    };
    Held { ticks: ticks(r), ground, board }
}

/// How the slownesses of a board lie in its file.
#[derive(Clone, Copy)]
enum Lay {
    NoRun,
    OneRun,
    RunACell,
    Touching,
    GroundBetween,
}

const LAYS: [Lay; 5] = [Lay::NoRun, Lay::OneRun, Lay::RunACell, Lay::Touching, Lay::GroundBetween];

/// A scenario of a small board, in every lay.
pub fn small_scenario(r: &mut Random) -> Held {
    if r.once_in(2) {
        let board = board(r, 14);
        return scenario(r, board);
    }
    let (sides, lay) = ([r.within(1, 12), r.within(1, 12), r.pick(&[1, 1, 1, 2, 3, 8])], r.pick(&LAYS));
    laid_scenario(r, sides, lay)
}

/// Scenarios with the shortest and the longest sides, few storeys and many, in every lay; each has a seed of its own.
pub fn scenarios_of_extreme_sides(first_seed: u64, mut each: impl FnMut(&mut Random, &Held, u64)) {
    let mut seed = first_seed;
    let flat = [([1, 1, 1], 60), ([256, 1, 1], 20), ([1, 256, 1], 20), ([256, 256, 1], 2)];
    let houses = [([1, 1, 8], 30), ([256, 1, 8], 4), ([1, 256, 2], 6), ([256, 32, 8], 2), ([90, 90, 8], 1)];
    for (sides, times) in flat.into_iter().chain(houses) {
        for lay in LAYS.into_iter().cycle().take(LAYS.len() * times) {
            let mut r = Random::new(seed);
            let held = laid_scenario(&mut r, sides, lay);
            each(&mut r, &held, seed);
            seed += 1;
        }
    }
}

/// The scenario with the longest file: a run and a start to each of 65,536 cells.
pub fn longest_scenario() -> Held {
    let slow = (0..65_536).map(|c| pair(1 + c % 4_094, 1 + c % 4_095)).collect();
    let (cells, begins) = ((0..65_536).collect(), vec![LATEST_START; 65_536]);
    let board = Board { width: 256, height: 256, storeys: 1, slow, cells, begins };
    Held { ticks: 65_535, ground: equal(SLOWEST), board }
}

/// A scenario whose slownesses lie as said.
fn laid_scenario(r: &mut Random, sides: [u32; 3], lay: Lay) -> Held {
    let [width, height, storeys] = sides;
    let is_flat = storeys == 1;
    let [near, far] = if is_flat { [pair(10, 20), pair(SLOWEST, 1)] } else { [equal(11), equal(1)] };
    let ground = r.pick(&[0, equal(10), near, equal(SLOWEST), far]);
    let slow = laid(r, size_of(sides) as usize, ground, lay, is_flat);
    let (cells, begins) = starts(r, &slow);
    Held { ticks: ticks(r), ground, board: Board { width, height, storeys, slow, cells, begins } }
}

fn laid(r: &mut Random, n: usize, ground: u32, lay: Lay, is_flat: bool) -> Vec<u32> {
    let mut slow = Vec::with_capacity(n);
    let mut last = ground;
    let longest = r.pick(&[6, 40, 1_000]);
    while slow.len() < n {
        last = match lay {
            Lay::NoRun => ground,
            Lay::GroundBetween if last != ground => ground,
            _ => neither(r, ground, last, is_flat),
        };
        let length = match lay {
            Lay::NoRun | Lay::OneRun => n,
            Lay::RunACell => 1,
            _ => r.within(1, longest) as usize,
        };
        slow.resize(n.min(slow.len() + length), last);
    }
    slow
}

/// A slowness that is neither of two; on a board of one storey one number of its pair is, at times.
fn neither(r: &mut Random, one: u32, other: u32, is_flat: bool) -> u32 {
    loop {
        let apart = is_flat && r.once_in(2);
        let drawn = open(r, apart, |r| r.within(1, SLOWEST));
        let ([g, h], [near_g, near_h]) = (parts(drawn), parts(r.pick(&[one, other])));
        let s = match r.below(8) {
            0 | 1 => 0,
            2 if is_flat && near_g > 0 => pair(near_g, h),
            3 if is_flat && near_h > 0 => pair(g, near_h),
            _ => drawn,
        };
        if s != one && s != other {
            return s;
        }
    }
}
