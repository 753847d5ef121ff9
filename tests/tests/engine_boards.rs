//! Boards chosen by hand, and the largest ones: marches, single rounds and tile runs of the engine.

use second_solver::board::{Board, Grid};
use second_solver::calls::{rising, Call, Kind, Lengths};
use second_solver::compare::{engine_alone, play_both};
use second_solver::ffi::engine::play;
use second_solver::generate::{self, snake, stairs};
use second_solver::march::{solved_by_passes, Front};
use second_solver::random::Random;
use second_solver::rule::{equal, pair, parts};
use second_solver::typed::{house, open_house, HOUSE_TIMES, OPEN_HOUSE_TIMES};
use second_solver::{Reply, LARGEST, NEVER};

fn three_by_three() -> Board {
    Board { width: 3, height: 3, storeys: 1, slow: vec![equal(10); 9], cells: vec![0], begins: vec![0] }
}

/// Answer and times of a call on a board whose times, sides and work hold garbage.
fn outcome(board: &Board, kind: Kind) -> (Reply, Vec<u32>) {
    let call = Call { board: board.clone(), kind };
    let (front, work) = generate::garbage_lists(&mut Random::new(1), Lengths::of(board.size()).longer(5));
    let (reply, left) = play_both(play, &call, &front, &work, 1);
    (reply, left.times)
}

/// The same on times that hold these, and sides that no call leaves.
fn outcome_on(stored: &[u32], board: &Board, kind: Kind) -> (Reply, Vec<u32>) {
    let call = Call { board: board.clone(), kind };
    let (reply, left) = play_both(play, &call, &Front::holding(stored), &vec![7; 4 * board.size() + 1], 0);
    (reply, left.times)
}

#[test]
fn the_three_by_three_board_gives_the_times_worked_by_hand() {
    let board = three_by_three();
    let solved = vec![0, 10, 20, 10, 18, 26, 20, 26, 34];
    assert_eq!(outcome(&board, Kind::March { horizon: 34 }), (Reply::accepted(9), solved.clone()));
    let (reply, times) = outcome(&board, Kind::March { horizon: 33 });
    assert_eq!((reply, &times[..8], times[8]), (Reply::accepted(8), &solved[..8], NEVER));
    let tiles = Kind::Run { across: 2, down: 2, stride: 20, horizon: 34, order: vec![0, 1, 2, 3] };
    assert_eq!(outcome(&board, tiles), (Reply::accepted(4), solved.clone()));
    let one_tile = Kind::Run { across: 3, down: 3, stride: 20, horizon: 34, order: vec![0] };
    assert_eq!(outcome(&board, one_tile), (Reply::accepted(3), solved));
}

/// Each time is the least that passes: in the middle (26 - 20)² × 20² + (26 - 10)² × 10² is just 10² × 20².
const PLOUGHED: [u32; 9] = [0, 10, 20, 20, 26, 34, 40, 45, 51];

/// Furrows along the rows: 10 ticks along a row, 20 down a column.
fn three_by_three_ploughed() -> Board {
    Board { slow: vec![pair(10, 20); 9], ..three_by_three() }
}

#[test]
fn a_ploughed_board_gives_the_times_worked_by_hand() {
    let board = three_by_three_ploughed();
    assert_eq!(outcome(&board, Kind::March { horizon: 51 }), (Reply::accepted(9), PLOUGHED.to_vec()));
    for tile in [1, 2, 3] {
        let order = rising(&board, tile, tile);
        let run = Kind::Run { across: tile, down: tile, stride: 20, horizon: 51, order };
        assert_eq!(outcome(&board, run).1, PLOUGHED, "tiles of {}", tile);
    }
}

/// A board seen along other axes: its side k, of width, height and storeys, is the old one's `order[k]`, counted from
/// the other end where `back[k]` says so.
#[derive(Clone, Copy, Debug)]
struct View {
    order: [usize; 3],
    back: [bool; 3],
}

/// Across the diagonal of each storey, from the top left to the bottom right.
const TRANSPOSED: View = View { order: [1, 0, 2], back: [false; 3] };

impl View {
    fn sides(self, board: &Board) -> [u32; 3] {
        self.order.map(|axis| board.sides()[axis])
    }

    /// Where each cell of the view stands on the board.
    fn cells(self, board: &Board) -> Vec<usize> {
        let [width, height, storeys] = self.sides(board);
        let old_cell = |c: u32| {
            let mut at = [c % width, c / width % height, c / width / height];
            let mut old = [0; 3];
            for (k, side) in [width, height, storeys].into_iter().enumerate() {
                at[k] = if self.back[k] { side - 1 - at[k] } else { at[k] };
                old[self.order[k]] = at[k];
            }
            ((old[2] * board.height + old[1]) * board.width + old[0]) as usize
        };
        (0..width * height * storeys).map(old_cell).collect()
    }

    /// What is seen of such an entry to a cell.
    fn seen<T: Copy>(self, board: &Board, entries: &[T]) -> Vec<T> {
        self.cells(board).into_iter().map(|c| entries[c]).collect()
    }

    /// The view in which left, above and over are named of equal times where they were on the board. Left and above are
    /// the lower numbers of their axes, over is the higher one of its own.
    fn with_ties_kept(order: [usize; 3]) -> View {
        View { order, back: [0, 1, 2].map(|k| (k == 2) != (order[k] == 2)) }
    }

    /// A cell's sides on axes that have changed places.
    fn sides_seen(self, byte: u8) -> u8 {
        let part = |k: usize| (byte >> (2 * self.order[k]) & 3) << (2 * k);
        part(0) + part(1) + part(2)
    }

    /// Times and sides seen so, where ties are kept.
    fn front_seen(self, board: &Board, front: &Front) -> Front {
        let sides = self.seen(board, &front.sides).into_iter().map(|byte| self.sides_seen(byte)).collect();
        Front { times: self.seen(board, &front.times), sides }
    }

    /// The board seen so; the two numbers of its pairs change places, or not.
    fn of(self, board: &Board, swaps: bool) -> Board {
        let from = self.cells(board);
        let swapped = |[g, h]: [u32; 2]| if swaps { pair(h, g) } else { pair(g, h) };
        let slow = from.iter().map(|&c| swapped(parts(board.slow[c]))).collect();
        let start = |c: usize| board.cells.iter().position(|&cell| cell as usize == c);
        let starts = (0..).zip(&from).filter_map(|(c, &from)| Some((c, board.begins[start(from)?])));
        let (cells, begins) = starts.unzip();
        let [width, height, storeys] = self.sides(board);
        Board { width, height, storeys, slow, cells, begins }
    }
}

/// The engine's times and sides of a board's march.
fn marched(board: &Board) -> Front {
    let call = Call { board: board.clone(), kind: Kind::March { horizon: LARGEST } };
    let (front, work) = Lengths::of(board.size()).filled();
    let (reply, left, _) = engine_alone(play, &call, &front, &work);
    assert_eq!(reply.number, 0, "{:?}", board);
    left
}

/// The engine beside itself: g and h change places with rows and columns. Where they do not, boards that tell the two
/// apart have other times.
#[test]
fn a_transposed_board_has_the_transposed_times_and_sides_only_if_g_and_h_change_places_too() {
    let mut told_apart = 0;
    for seed in 95_000_000..95_006_000 {
        let mut r = Random::new(seed);
        let board = generate::board(&mut r, 12);
        let want = TRANSPOSED.front_seen(&board, &marched(&board));
        assert_eq!(marched(&TRANSPOSED.of(&board, true)), want, "seed {}: {:?}", seed, board);
        told_apart += u32::from(marched(&TRANSPOSED.of(&board, false)).times != want.times);
    }
    assert!(told_apart > 700, "{} boards tell g and h apart", told_apart);
    let ploughed = three_by_three_ploughed();
    assert_eq!(marched(&TRANSPOSED.of(&ploughed, true)).times, [0, 20, 40, 10, 26, 45, 20, 34, 51]);
    assert_eq!(marched(&TRANSPOSED.of(&ploughed, false)).times, PLOUGHED);
}

const ORDERS: [[usize; 3]; 6] = [[0, 1, 2], [0, 2, 1], [1, 0, 2], [1, 2, 0], [2, 0, 1], [2, 1, 0]];

/// The engine beside itself: the storeys are an axis as the others are, so a house that stands on any of its sides, or
/// on its head, has the same times. Where it stands so that ties are kept, its cells have the same sides too. It is 8
/// cells long at most each way, since storeys are.
#[test]
fn a_house_that_stands_on_another_side_has_the_same_times_and_sides() {
    for seed in 97_000_000..97_000_800 {
        let mut r = Random::new(seed);
        let sides = [r.within(1, 8), r.within(1, 6), r.within(2, 6)];
        let board = generate::board_of(&mut r, sides);
        let front = marched(&board);
        for order in ORDERS {
            let view = View { order, back: [(); 3].map(|()| r.once_in(2)) };
            let want = view.seen(&board, &front.times);
            assert_eq!(marched(&view.of(&board, false)).times, want, "seed {}, {:?}: {:?}", seed, view, board);
            let view = View::with_ties_kept(order);
            let want = view.front_seen(&board, &front);
            assert_eq!(marched(&view.of(&board, false)), want, "seed {}, {:?}: {:?}", seed, view, board);
        }
    }
}

/// A board of these sides, its slownesses those of equal pairs, with one start at 0.
fn house_of([width, height, storeys]: [u32; 3], slow: &[u32], start: u32) -> Board {
    let slow = slow.iter().map(|&s| equal(s)).collect();
    Board { width, height, storeys, slow, cells: vec![start], begins: vec![0] }
}

/// March and tile runs with tiles of every size that matters leave these times.
fn assert_times(board: &Board, want: &[u32]) {
    let reached = want.iter().filter(|&&t| t != NEVER).count() as u32;
    assert_eq!(outcome(board, Kind::March { horizon: LARGEST }), (Reply::accepted(reached), want.to_vec()));
    for (across, down) in [(1, 1), (1, 2), (2, 1), (2, 2), (256, 256)] {
        let run = Kind::Run { across, down, stride: 7, horizon: 1_000, order: rising(board, across, down) };
        assert_eq!(outcome(board, run).1, want, "tiles of {} by {}: {:?}", across, down, board);
    }
}

/// The last cell of the open one is reached on three axes at once, at 18: 18 + 6.
#[test]
fn the_houses_of_two_by_two_by_two_have_the_times_worked_by_hand() {
    assert_times(&open_house(), &OPEN_HOUSE_TIMES);
    assert_times(&house().board, &HOUSE_TIMES);
    let (reply, times) = outcome(&open_house(), Kind::March { horizon: 23 });
    assert_eq!((reply, &times[..7], times[7]), (Reply::accepted(7), &OPEN_HOUSE_TIMES[..7], NEVER));
}

/// Tiles of one cell a storey: the first reaches the cell over its start in the first round, by itself.
#[test]
fn the_rounds_of_a_house_are_those_worked_by_hand() {
    let (board, n) = (open_house(), NEVER);
    let after = [
        vec![0, n, n, n, 10, n, n, n],
        vec![0, 10, 10, n, 10, 18, 18, n],
        OPEN_HOUSE_TIMES.to_vec(),
        OPEN_HOUSE_TIMES.to_vec(),
    ];
    let mut times = vec![n; 8];
    for (k, (want, altered)) in (1..).zip(after.iter().zip([2, 4, 2, 0])) {
        let kind = Kind::Round { across: 1, down: 1, bound: (10 * k).min(24), order: vec![3, 1, 0, 2] };
        let (reply, next) = outcome_on(&times, &board, kind);
        assert_eq!((reply, &next), (Reply::accepted(altered), want), "round {}", k);
        times = next;
    }
    let run = Kind::Run { across: 1, down: 1, stride: 10, horizon: 24, order: vec![2, 0, 3, 1] };
    assert_eq!(outcome(&board, run), (Reply::accepted(4), times));
}

/// Three by three in three storeys, the middle one of walls but for its last cell: up there, and back on the upper one.
#[test]
fn a_stair_is_the_one_way_up() {
    let stair = [0, 0, 0, 0, 0, 0, 0, 0, 10];
    let board = house_of([3, 3, 3], &[[10; 9], stair, [10; 9]].concat(), 0);
    let lower = [0, 10, 20, 10, 18, 26, 20, 26, 34];
    let middle = [NEVER, NEVER, NEVER, NEVER, NEVER, NEVER, NEVER, NEVER, 44];
    let upper = [88, 80, 74, 80, 72, 64, 74, 64, 54];
    assert_times(&board, &[lower, middle, upper].concat());
    let walled = house_of([3, 3, 3], &[[10; 9], [0; 9], [10; 9]].concat(), 0);
    assert_times(&walled, &[lower, [NEVER; 9], [NEVER; 9]].concat());
}

/// In the list the first row of a storey stands behind the last row of the one before, and its first cell behind the
/// last: they are no neighbours. Where they were, the front would be in the next storey too early, or at all.
#[test]
fn the_last_row_of_a_storey_is_not_beside_the_first_of_the_next() {
    assert_times(&house_of([1, 2, 2], &[10; 4], 1), &[10, 0, 18, 10]);
    assert_times(&house_of([1, 2, 2], &[10; 4], 2), &[10, 18, 0, 10]);
    assert_times(&house_of([2, 1, 2], &[10; 4], 1), &[10, 0, 18, 10]);
    // open are the last row of the first storey and the first of the second
    let (n, open) = (NEVER, [0, 0, 0, 10, 10, 10, 10, 10, 10, 0, 0, 0]);
    assert_times(&house_of([3, 2, 2], &open, 4), &[n, n, n, 10, 0, 10, n, n, n, n, n, n]);
    assert_times(&house_of([3, 2, 2], &open, 5), &[n, n, n, 20, 10, 0, n, n, n, n, n, n]);
    assert_times(&house_of([3, 2, 2], &open, 6), &[n, n, n, n, n, n, 0, 10, 20, n, n, n]);
    // .. the last cell and the first one
    assert_times(&house_of([2, 2, 2], &[0, 0, 0, 10, 10, 0, 0, 0], 3), &[n, n, n, 0, n, n, n, n]);
}

/// The same for what a tile sees. The rows are two tiles: a cell sees the stored time of the other row of its own
/// storey, and not that of the row behind it in the list.
#[test]
fn a_tile_sees_no_ghost_of_another_storey() {
    let mut board = house_of([1, 2, 2], &[10; 4], 0);
    board.cells.clear();
    board.begins.clear();
    for (stored, want) in [
        ([NEVER, 5, NEVER, NEVER], [15, NEVER, 25, NEVER]),
        ([NEVER, NEVER, 5, NEVER], [NEVER, 25, NEVER, 15]),
        ([7, NEVER, NEVER, NEVER], [NEVER, 17, NEVER, 27]),
        ([NEVER, NEVER, NEVER, 7], [27, NEVER, 17, NEVER]),
    ] {
        let kind = Kind::Round { across: 1, down: 1, bound: 100, order: vec![1, 0] };
        assert_eq!(outcome_on(&stored, &board, kind), (Reply::accepted(3), want.to_vec()), "{:?}", stored);
    }
}

/// One tick along a row, 4,095 down a column: behind the wall the middle row is reached from above and below alone.
#[test]
fn walls_stand_among_unequal_pairs() {
    let mut board =
        Board { width: 5, height: 3, storeys: 1, slow: vec![pair(1, 4_095); 15], cells: vec![5], begins: vec![0] };
    board.slow[7] = 0;
    let outer = [4_095, 4_096, 4_097, 4_098, 4_099];
    let times = [outer, [0, 1, NEVER, 8_193, 8_194], outer].concat();
    assert_eq!(outcome(&board, Kind::March { horizon: LARGEST }), (Reply::accepted(14), times));
}

#[test]
fn the_rounds_of_the_three_by_three_board_are_those_worked_by_hand() {
    let board = three_by_three();
    let after = [
        vec![0, 10, NEVER, 10, 18, NEVER, NEVER, NEVER, NEVER],
        vec![0, 10, 20, 10, 18, 26, 20, 26, NEVER],
        vec![0, 10, 20, 10, 18, 26, 20, 26, 34],
        vec![0, 10, 20, 10, 18, 26, 20, 26, 34],
    ];
    let mut times = vec![NEVER; 9];
    for (k, (want, altered)) in after.iter().zip([4, 4, 1, 0]).enumerate() {
        let bound = if k == 0 { 20 } else { 34 };
        let kind = Kind::Round { across: 2, down: 2, bound, order: vec![3, 1, 0, 2] };
        let (reply, next) = outcome_on(&times, &board, kind);
        assert_eq!((reply, &next), (Reply::accepted(altered), want), "round {}", k + 1);
        times = next;
    }
}

#[test]
fn a_board_without_starts_is_all_never() {
    let mut board = three_by_three();
    board.cells.clear();
    board.begins.clear();
    let all_never = vec![NEVER; 9];
    assert_eq!(outcome(&board, Kind::March { horizon: LARGEST }), (Reply::accepted(0), all_never.clone()));
    let run = Kind::Run { across: 1, down: 2, stride: 7, horizon: 70, order: rising(&board, 1, 2) };
    assert_eq!(outcome(&board, run), (Reply::accepted(10), all_never));
}

#[test]
fn a_start_later_than_the_front_gives_way_to_it() {
    let mut board = three_by_three();
    for (late, want) in [(17, 17), (18, 18), (19, 18), (1_000_000, 18)] {
        board.cells = vec![0, 4];
        board.begins = vec![0, late];
        let (_, times) = outcome(&board, Kind::March { horizon: LARGEST });
        assert_eq!(times[4], want, "start at {}", late);
    }
}

/// Two fronts that meet at a corner: the time there is earlier than what either front gives alone.
#[test]
fn a_corner_between_two_fronts_is_reached_earlier_than_by_either_alone() {
    for (first, second) in [(0, 0), (0, 3), (2, 1)] {
        let both = Board {
            width: 2,
            height: 2,
            storeys: 1,
            slow: [10, 10, 10, 0].map(equal).to_vec(),
            cells: vec![1, 2],
            begins: vec![first, second],
        };
        let alone = |at: usize| {
            let board = Board { cells: vec![both.cells[at]], begins: vec![both.begins[at]], ..both.clone() };
            solved_by_passes(&Grid::new(&board))[0]
        };
        let earlier = alone(0).min(alone(1));
        let (_, times) = outcome(&both, Kind::March { horizon: 100 });
        assert!(times[0] < earlier, "{} and {}: {} is not before {}", first, second, times[0], earlier);
        // the same where the fronts come from other tiles
        let run = Kind::Run { across: 1, down: 1, stride: 2, horizon: 100, order: rising(&both, 1, 1) };
        assert_eq!(outcome(&both, run).1, times);
    }
}

/// Garbage behind a wall and above 300,000,000 is never for the neighbours, and still counts as altered.
#[test]
fn stored_garbage_is_not_seen_but_its_change_is_counted() {
    let board =
        Board { width: 3, height: 1, storeys: 1, slow: [10, 0, 10].map(equal).to_vec(), cells: vec![], begins: vec![] };
    for (stored, altered) in [
        ([NEVER, 5, NEVER], 1),
        ([300_000_001, NEVER, NEVER], 1),
        ([LARGEST, 0, NEVER - 1], 3),
        ([NEVER, NEVER, NEVER], 0),
    ] {
        let kind = Kind::Round { across: 1, down: 1, bound: LARGEST, order: vec![2, 0, 1] };
        let want = (Reply::accepted(altered), vec![NEVER; 3]);
        assert_eq!(outcome_on(&stored, &board, kind), want, "{:?}", stored);
    }
    let open = Board { slow: vec![equal(10); 3], ..board };
    let kind = Kind::Round { across: 1, down: 1, bound: LARGEST, order: vec![0, 1, 2] };
    let got = outcome_on(&[300_000_001, LARGEST - 10, NEVER], &open, kind);
    assert_eq!(got, (Reply::accepted(3), vec![LARGEST, NEVER, LARGEST]));
}

/// What a tile held is not used: a round can make a time later, or take it away.
#[test]
fn a_round_forgets_what_the_tile_held() {
    let board = Board { width: 2, height: 1, storeys: 1, slow: vec![equal(10); 2], cells: vec![0], begins: vec![40] };
    let kind = Kind::Round { across: 2, down: 1, bound: 45, order: vec![0] };
    assert_eq!(outcome_on(&[3, 13], &board, kind), (Reply::accepted(2), vec![40, NEVER]));
}

/// The largest boards: even, scattered, ploughed, walled, all cells starting, at random times and each before the last,
/// a snake with the latest times that there are.
fn largest_boards() -> Vec<Board> {
    let mut r = Random::new(77);
    let mut board = |slow: &mut dyn FnMut(&mut Random) -> u32| {
        let mut slow: Vec<u32> = (0..65_536).map(|_| slow(&mut r)).collect();
        slow[0] = equal(10);
        slow[65_535] = equal(4_095);
        Board { width: 256, height: 256, storeys: 1, slow, cells: vec![0, 65_535], begins: vec![0, 1_000_000] }
    };
    let even = board(&mut |_| equal(10));
    let scattered = board(&mut |r| equal(r.within(1, 4_095)));
    let ploughed = board(&mut |r| pair(r.within(1, 4_095), r.within(1, 4_095)));
    let walled = board(&mut |r| if r.below(10) < 3 { 0 } else { pair(r.within(1, 100), r.within(1, 100)) });
    let cells: Vec<u32> = (0..65_536).collect();
    let begins = cells.iter().map(|c| c * 40_503 % 1_000_001).collect();
    let crowded = Board { cells: cells.clone(), begins, ..even.clone() };
    let begins = cells.iter().map(|c| 1_000_000 - 15 * c).collect();
    let falling = Board { cells, begins, ..even.clone() };
    vec![even, scattered, ploughed, walled, crowded, falling, snake(256, 256, 4_095)]
}

/// The largest houses: scattered, walled, all cells starting, and a corridor over eight storeys. 90 by 90 by 8 is as
/// close to a cube as there is.
fn largest_houses() -> Vec<Board> {
    let mut r = Random::new(78);
    let mut board = |[width, height, storeys]: [u32; 3], slow: &mut dyn FnMut(&mut Random) -> u32| {
        let last = width * height * storeys - 1;
        let mut slow: Vec<u32> = (0..=last).map(|_| equal(slow(&mut r))).collect();
        slow[0] = equal(10);
        slow[last as usize] = equal(4_095);
        Board { width, height, storeys, slow, cells: vec![0, last], begins: vec![0, 1_000_000] }
    };
    let scattered = board([90, 90, 8], &mut |r| r.within(1, 4_095));
    let walled = board([256, 32, 8], &mut |r| if r.below(10) < 3 { 0 } else { r.within(1, 100) });
    let cells: Vec<u32> = (0..65_536).collect();
    let begins = cells.iter().map(|c| c * 40_503 % 1_000_001).collect();
    let crowded = Board { cells, begins, ..board([32, 256, 8], &mut |_| 10) };
    vec![scattered, walled, crowded, stairs(256, 32, 8, 4_095)]
}

#[test]
fn the_largest_boards_are_marched() {
    for board in largest_boards().into_iter().chain(largest_houses()) {
        for horizon in [LARGEST, 1_500_000] {
            outcome(&board, Kind::March { horizon });
        }
    }
}

#[test]
fn the_largest_boards_are_run_and_rounded_over_tiles() {
    let sides = [8, 16, 20, 16, 8, 24, 64, 2, 4, 3, 32];
    for (board, side) in largest_boards().into_iter().chain(largest_houses()).zip(sides) {
        let order = rising(&board, side, side);
        for stride in [65_536, 1] {
            let run = Kind::Run { across: side, down: side, stride, horizon: LARGEST, order: order.clone() };
            let (_, times) = outcome(&board, run);
            let kind = Kind::Round { across: side, down: side, bound: LARGEST, order: order.clone() };
            assert_eq!(outcome_on(&times, &board, kind), (Reply::accepted(0), times), "a round alters what a run left");
        }
    }
}

#[test]
fn sides_of_one_and_256_and_eight_storeys_pass() {
    let flat = [[1, 1, 1], [256, 1, 1], [1, 256, 1], [256, 2, 1], [3, 256, 1]];
    for sides in flat.into_iter().chain([[1, 1, 2], [1, 1, 8], [256, 1, 8], [1, 256, 8], [2, 256, 7]]) {
        let mut r = Random::new(u64::from(1_000 * sides[0] + sides[1]));
        let board = generate::board_of(&mut r, sides);
        let (reply, _) = outcome(&board, Kind::March { horizon: LARGEST });
        assert_eq!(reply.number, 0);
        // the second solver works every round out: many of them on boards of few cells alone
        let stride = if board.slow.len() <= 256 { 1_000 } else { 100_000 };
        for (across, down) in [(1, 1), (256, 256), (1, 256), (256, 1), (255, 7)] {
            let order = rising(&board, across, down);
            let run = Kind::Run { across, down, stride, horizon: 3_000_000, order };
            assert_eq!(outcome(&board, run).0.number, 0);
        }
    }
}
