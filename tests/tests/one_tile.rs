//! Runs in which one tile covers the board: the rounds are those of card 8, exactly, for each call that runs tiles.

use second_solver::board::{Board, Grid};
use second_solver::calls::{Call, Kind, Lengths};
use second_solver::compare::{play_both, tablet_both};
use second_solver::ffi::{engine, engine_records, tablet};
use second_solver::generate::{self, garbage_lists, snake, stairs};
use second_solver::march::solved;
use second_solver::random::Random;
use second_solver::rule::equal;
use second_solver::scenario::file_of;
use second_solver::shown::{SHOWN_HORIZON, SHOWN_SIDE};
use second_solver::tiles::{rounds_of_one_tile, tile_count, up};
use second_solver::typed::open_house;
use second_solver::{LARGEST, LONGEST_SIDE};

/// The seed of what lent lists hold at first.
const GARBAGE: u64 = 92_000_000;

/// The rounds of a run and the times that it leaves on lists that held garbage: over plain lists and over start
/// records, each beside the second solver.
fn run(board: &Board, [across, down]: [u32; 2], stride: u32, horizon: u32) -> (u64, Vec<u32>) {
    let order = (0..tile_count(board.width, board.height, across, down)).collect();
    let call = Call { board: board.clone(), kind: Kind::Run { across, down, stride, horizon, order } };
    let (front, work) = garbage_lists(&mut Random::new(GARBAGE), Lengths::of(board.size()).longer(3));
    let plain = play_both(engine::play, &call, &front, &work, GARBAGE);
    let records = play_both(engine_records::play, &call, &front, &work, GARBAGE);
    assert!(plain == records && plain.0.number == 0, "refused, or not the same in both forms: {:?}", call);
    (plain.0.count.into(), plain.1.times)
}

/// The rounds are the formula's, by the second solver's times and by those that the call left.
fn assert_formula(rounds: u64, board: &Board, left: &[u32], tile: [u32; 2], stride: u32, horizon: u32) {
    assert!(tile[0] >= board.width && tile[1] >= board.height, "a tile of {:?} does not cover {:?}", tile, board);
    for times in [&solved(&Grid::new(board))[..], left] {
        let want = rounds_of_one_tile(times, stride, horizon);
        assert_eq!(rounds, want, "stride {}, horizon {}, times {:?} of {:?}", stride, horizon, times, board);
    }
}

/// The rounds of a run with one tile.
fn rounds(board: &Board, tile: [u32; 2], stride: u32, horizon: u32) -> u64 {
    let (rounds, left) = run(board, tile, stride, horizon);
    assert_formula(rounds, board, &left, tile, stride, horizon);
    rounds
}

/// The rounds that the tablet's call answers with one tile.
fn tablet_rounds(board: &Board, tile: [u32; 2], stride: u32) -> u64 {
    let out = vec![0xEE; 4 * board.size() + 3];
    let (answer, out) = tablet_both(tablet::tablet_run, &file_of(board, 10, equal(10)), stride, tile, &out, 0);
    let left: Vec<u32> = out.chunks_exact(4).map(|b| u32::from_le_bytes([b[0], b[1], b[2], b[3]])).collect();
    assert_formula(answer / 256, board, &left, tile, stride, SHOWN_HORIZON);
    // no time of 1,024 cells is past 5,189,185, so for these strides the rounds are known beforehand
    if stride <= 810_815 {
        assert_eq!(answer / 256, u64::from(up(SHOWN_HORIZON, stride)), "stride {}: {:?}", stride, board);
    }
    answer / 256
}

/// Stride, horizon, and the rounds worked by hand.
fn assert_typed(board: &Board, tile: [u32; 2], typed: &[(u32, u32, u64)]) {
    for &(stride, horizon, want) in typed {
        let got = rounds(board, tile, stride, horizon);
        assert_eq!(got, want, "tile {:?}, stride {}, horizon {}: {:?}", tile, stride, horizon, board);
    }
}

/// A board of one storey; the slownesses are those of equal pairs.
fn board(width: u32, height: u32, slow: Vec<u32>, starts: &[(u32, u32)]) -> Board {
    let slow = slow.into_iter().map(equal).collect();
    let (cells, begins) = starts.iter().copied().unzip();
    Board { width, height, storeys: 1, slow, cells, begins }
}

/// Its times are 0 10 20, 10 18 26, 20 26 34.
fn three_by_three() -> Board {
    board(3, 3, vec![10; 9], &[(0, 0)])
}

#[test]
#[rustfmt::skip]
fn the_three_by_three_board_takes_the_rounds_worked_by_hand() {
    assert_typed(&three_by_three(), [3, 3], &[
        (20, 0, 2), (20, 19, 2), (20, 20, 2), (20, 21, 2), (20, 25, 2), (20, 26, 3), (20, 33, 3), (20, 34, 3),
        (20, 40, 3), (20, 41, 3), (20, 60, 3), (20, 61, 4), (20, 80, 4), (20, 81, 5), (20, 100, 5), (10, 30, 4),
        (10, 31, 4), (10, 34, 5), (17, 34, 3), (33, 34, 3), (34, 34, 2), (34, 35, 2), (1, 0, 2), (1, 1, 2), (1, 2, 2),
        (1, 9, 9), (1, 10, 11), (1, 11, 11), (1, 18, 19), (1, 20, 21), (1, 26, 27), (1, 33, 33), (1, 34, 35),
    ]);
}

/// Its times are 0 10, 10 18, and over them 10 18, 18 24. A tile spans both storeys, so one of two by two covers it.
#[test]
#[rustfmt::skip]
fn a_house_takes_the_rounds_worked_by_hand() {
    assert_typed(&open_house(), [2, 2], &[
        (10, 0, 2), (10, 9, 2), (10, 10, 2), (10, 17, 2), (10, 18, 3), (10, 23, 3), (10, 24, 4), (10, 30, 4),
        (10, 31, 4), (20, 23, 2), (20, 24, 3), (24, 24, 2), (24, 35, 2), (18, 35, 3), (6, 24, 5), (9, 18, 3),
        (1, 18, 19), (1, 23, 23), (1, 24, 25),
    ]);
    for tile in [[1, 1], [2, 1], [1, 2]] {
        let (rounds, times) = run(&open_house(), tile, 24, 24);
        assert!(rounds > 2 && rounds_of_one_tile(&times, 24, 24) == 2, "tiles {:?}: {} rounds", tile, rounds);
    }
}

/// One way only is not enough.
#[test]
fn tiles_that_do_not_cover_the_board_may_take_more_rounds() {
    for tile in [[2, 2], [3, 2], [2, 3], [3, 1], [1, 3]] {
        let (rounds, times) = run(&three_by_three(), tile, 20, 34);
        assert_eq!((rounds, rounds_of_one_tile(&times, 20, 34)), (4, 3), "tiles {:?}", tile);
    }
}

#[test]
fn horizons_at_and_beside_multiples_of_the_stride_take_the_formulas_rounds() {
    let late = [14, 40, 60, 65_536, 65_537, 131_073, 196_608, 655_360, 655_361, 1_000_000];
    let boards = [
        three_by_three(),
        board(1, 1, vec![1], &[(0, 0)]),
        board(7, 1, vec![7; 7], &[(2, 6)]),
        board(20, 1, [10, 0].repeat(10), &(0..).step_by(2).zip(late).collect::<Vec<_>>()),
        board(4, 2, vec![3; 8], &[]),
    ];
    for stride in [1, 2, 7, 20, 65_536, 299_999_999, 300_000_000_u64] {
        let multiples = [1, 2, 3, 10, 100].into_iter().flat_map(|k| k * stride - 1..=k * stride + 1);
        for horizon in multiples.chain([0]).filter(|&horizon| horizon <= LARGEST.into()) {
            for board in &boards {
                rounds(board, [board.width, board.height], stride as u32, horizon as u32);
            }
        }
    }
}

/// Stride and horizon, then start times with the rounds: for K = 1, 2, 3, 10,000 and 900,000.
#[test]
fn a_start_alone_counts_from_above_the_last_stride_to_the_horizon() {
    let typed = [
        (20, 0, [(0, 2), (1, 1), (2, 1), (20, 1), (1_000_000, 1)]),
        (20, 15, [(0, 2), (1, 2), (14, 2), (15, 2), (16, 1)]),
        (20, 20, [(0, 2), (1, 2), (19, 2), (20, 2), (21, 1)]),
        (300_000_000, 999_999, [(0, 2), (1, 2), (999_998, 2), (999_999, 2), (1_000_000, 1)]),
        (20, 34, [(19, 2), (20, 2), (21, 3), (34, 3), (35, 2)]),
        (20, 60, [(39, 3), (40, 3), (41, 4), (60, 4), (61, 3)]),
        (99, 989_950, [(989_900, 10_000), (989_901, 10_000), (989_902, 10_001), (989_950, 10_001), (989_951, 10_000)]),
        (1, 900_000, [(0, 900_000), (899_998, 900_000), (899_999, 900_000), (900_000, 900_001), (900_001, 900_000)]),
    ];
    for (stride, horizon, of_start) in typed {
        for (time, want) in of_start {
            let one_cell = board(1, 1, vec![4_095], &[(0, time)]);
            let among_walls = board(3, 1, vec![0, 10, 0], &[(1, time)]);
            let walled_off = board(23, 1, [vec![10, 0], vec![7; 21]].concat(), &[(0, time)]);
            for board in [one_cell, among_walls, walled_off] {
                assert_typed(&board, [23, 1], &[(stride, horizon, want)]);
            }
        }
    }
}

/// Start, stride and horizon, then slownesses of a second cell with the rounds. The corner is reached from two sides.
#[test]
fn a_front_counts_from_above_the_last_stride_to_the_horizon() {
    let typed = [
        (0, 20, 34, [(19, 2), (20, 2), (21, 3), (34, 3), (35, 2)]),
        (0, 20, 60, [(39, 3), (40, 3), (41, 4), (60, 4), (61, 3)]),
        (0, 4, 4_003, [(3_999, 1_001), (4_000, 1_001), (4_001, 1_002), (4_003, 1_002), (4_004, 1_001)]),
        (999_990, 1_000_000, 1_000_015, [(9, 2), (10, 2), (11, 3), (25, 3), (26, 2)]),
    ];
    for (start, stride, horizon, of_slowness) in typed {
        for (slowness, want) in of_slowness {
            assert_typed(&board(2, 1, vec![1, slowness], &[(0, start)]), [2, 1], &[(stride, horizon, want)]);
        }
    }
    for (slowness, time, to_34, to_35) in [(9, 33, 2, 2), (10, 34, 3, 3), (12, 35, 2, 3)] {
        let corner = board(3, 3, [vec![10; 8], vec![slowness]].concat(), &[(0, 0)]);
        assert_eq!(solved(&Grid::new(&corner))[8], time);
        assert_typed(&corner, [3, 3], &[(33, 34, to_34), (33, 35, to_35)]);
    }
}

#[test]
#[rustfmt::skip]
fn without_starts_and_among_walls_the_rounds_are_exactly_k() {
    for slowness in [10, 0] {
        assert_typed(&board(3, 3, vec![slowness; 9], &[]), [3, 3], &[
            (1, 0, 1), (300_000_000, 0, 1), (7, 1, 1), (7, 7, 1), (7, 8, 2), (7, 14, 2), (7, 15, 3), (7, 70, 10),
            (7, 71, 11), (1, 300_000_000, 300_000_000), (299_999_999, 300_000_000, 2), (300_000_000, 300_000_000, 1),
        ]);
    }
}

/// The corridor's last cell is its 32,896th, at 135,705,025. The house has four storeys of 4,112 cells each, and four
/// stairs of one cell: the last is the 16,452nd, at 68,366,845.
#[test]
#[rustfmt::skip]
fn the_largest_boards_and_numbers_take_the_rounds_worked_by_hand() {
    assert_typed(&board(256, 256, vec![4_095; 65_536], &[(0, 1_000_000)]), [256, 256], &[
        (1, 300_000_000, 300_000_000), (2, 300_000_000, 150_000_000), (299_999_999, 300_000_000, 2),
        (300_000_000, 300_000_000, 2), (1, 1_000_000, 1_000_001), (300_000_000, 999_999, 1),
    ]);
    assert_typed(&snake(256, 256, 4_095), [256, 256], &[
        (1, 135_705_024, 135_705_024), (1, 135_705_025, 135_705_026), (1, 135_705_026, 135_705_026),
        (2, 135_705_026, 67_852_514),
    ]);
    assert_typed(&stairs(256, 32, 8, 4_095), [256, 32], &[
        (1, 68_366_844, 68_366_844), (1, 68_366_845, 68_366_846), (1, 68_366_846, 68_366_846),
        (2, 68_366_845, 34_183_424),
    ]);
}

/// The last cell of 256 in a row or a column is reached at 1,044,225.
#[test]
fn tiles_larger_than_the_board_take_the_same_rounds() {
    for tile in [[3, 3], [4, 3], [3, 4], [8, 8], [3, 256], [256, 3], [255, 255], [256, 256]] {
        assert_typed(&three_by_three(), tile, &[(20, 34, 3), (34, 35, 2)]);
    }
    for side in [1, 2, 255, 256] {
        let typed = [(4_095, 1_044_224, 255), (4_095, 1_044_225, 256), (4_095, 1_044_226, 256)];
        assert_typed(&board(256, 1, vec![4_095; 256], &[(0, 0)]), [256, side], &typed);
        assert_typed(&board(1, 256, vec![4_095; 256], &[(0, 0)]), [side, 256], &typed);
    }
}

/// First the rounds with a start at 0 alone, and without. Then a corridor of 501 cells, the last of which is reached at
/// 2,996,000 and the slowness of the second.
#[test]
fn the_tablets_call_takes_the_rounds_worked_by_hand() {
    for tile in [[32, 32], [256, 256]] {
        let typed = [(1, [6_000_000; 2]), (810_815, [8, 8]), (3_000_000, [2, 2]), (5_999_999, [2, 2])];
        let one_stride = [(6_000_000, [2, 1]), (6_000_001, [2, 1]), (300_000_000, [2, 1])];
        for (stride, want) in typed.into_iter().chain(one_stride) {
            let boards = [board(4, 1, vec![10, 0, 10, 10], &[(0, 0)]), board(4, 1, vec![10; 4], &[])];
            assert_eq!(boards.map(|board| tablet_rounds(&board, tile, stride)), want, "stride {}", stride);
        }
        let last_stride = [(3_999, 3_000_000, 2), (4_000, 3_000_000, 2), (4_001, 3_000_000, 3), (4_001, 3_000_001, 2)];
        for (slowness, stride, want) in last_stride.into_iter().chain([(4_000, 2_999_999, 3), (4_001, 1, 6_000_000)]) {
            let mut corridor = snake(32, 32, 4_000);
            corridor.slow[1] = equal(slowness);
            corridor.slow[960..986].fill(0);
            assert_eq!(tablet_rounds(&corridor, tile, stride), want, "slowness {}, stride {}", slowness, stride);
        }
    }
}

/// A time from low to high or one beside it, still from low to high; any number of these where no time is.
fn beside(r: &mut Random, times: &[u32], low: u32, high: u32) -> u32 {
    let among: Vec<u32> = times.iter().copied().filter(|t| (low..=high).contains(t)).collect();
    if among.is_empty() {
        return r.within(low, high);
    }
    (r.pick(&among) + r.below(3)).saturating_sub(1).clamp(low, high)
}

/// K, a stride and a horizon, so that the ends of the span lie at times or one beside them.
fn span(r: &mut Random, times: &[u32]) -> (u32, u32, u32) {
    if r.once_in(3) {
        let earliest = times.iter().copied().min().expect("a cell");
        let horizon = beside(r, &[earliest], 0, LARGEST);
        return (1, r.within(horizon.max(1), LARGEST), horizon);
    }
    let below = beside(r, times, 1, LARGEST - 1);
    let divisors: Vec<u32> = (1..=40).filter(|k| below % k == 0).collect();
    let strides = r.pick(&divisors);
    let stride = below / strides;
    (strides + 1, stride, beside(r, times, below + 1, LARGEST.min(below + stride)))
}

#[test]
fn random_boards_take_k_rounds_or_one_more() {
    let mut seen = [[0; 2]; 3];
    for seed in 90_000_000..90_004_000 {
        let mut r = Random::new(seed);
        let board = generate::board(&mut r, 12);
        let times = solved(&Grid::new(&board));
        let (k, stride, horizon) = span(&mut r, &times);
        let tile = [board.width, board.height].map(|s| if r.once_in(2) { s } else { r.within(s, LONGEST_SIDE) });
        let more = rounds(&board, tile, stride, horizon) - u64::from(k);
        seen[usize::from(k > 1)][more as usize] += 1;
        seen[2][0] += u32::from(k > 1 && more == 0 && times.contains(&((k - 1) * stride)));
        seen[2][1] += u32::from(more == 1 && times.contains(&horizon));
    }
    let enough = seen.iter().flatten().all(|&count| count > 250);
    assert!(enough, "K = 1 and more, each with K rounds and K + 1, then times at the span's ends: {:?}", seen);
}

/// The last stride of a K above 1 begins at 3,000,000 or later: only a long corridor has times there.
#[test]
fn random_files_take_k_rounds_or_one_more() {
    let mut seen = [[0; 2]; 2];
    for seed in 91_000_000..91_001_000 {
        let mut r = Random::new(seed);
        let mut board = generate::board(&mut r, 12);
        let mut stride = r.pick(&[5_999_999, 6_000_000, 6_000_001, LARGEST]);
        if r.once_in(3) {
            board = snake(SHOWN_SIDE, SHOWN_SIDE, 4_095);
            board.slow[1] = equal(r.within(1, 4_095));
            board.begins[0] -= r.below(8_000);
            stride = beside(&mut r, &solved(&Grid::new(&board)), 3_145_000, 3_160_000);
        } else if r.once_in(2) {
            stride = generate::stride(&mut r, board.size(), SHOWN_HORIZON);
        }
        let k = u64::from(up(SHOWN_HORIZON, stride));
        let tile = [SHOWN_SIDE, SHOWN_SIDE].map(|s| r.within(s, LONGEST_SIDE));
        let more = tablet_rounds(&board, tile, stride) - k;
        seen[usize::from(k > 1)][more as usize] += 1;
    }
    let enough = seen.iter().flatten().all(|&count| count > 50);
    assert!(enough, "K = 1 and more, each with K rounds and K + 1: {:?}", seen);
}
