//! Refused marches, rounds and runs: the table's number, and no lent entry touched.

use second_solver::board::Board;
use second_solver::calls::{Call, Kind, Lengths};
use second_solver::compare::{play_both, Engine, Tally};
use second_solver::damage::{first_of, spoil_call, CALL_CAUSES, UNEQUAL};
use second_solver::ffi::engine::play;
use second_solver::ffi::engine_records;
use second_solver::generate::{self, garbage_lists};
use second_solver::march::Front;
use second_solver::random::Random;
use second_solver::rule::{equal, pair};
use second_solver::tiles::tile_count;
use second_solver::typed::SLOWNESSES;
use second_solver::{Cause, Reply, LARGEST, NEVER};

/// Plays a call that is spoilt by the causes, and answers the number that both solvers gave.
fn refused_by(causes: &[u32], seed: u64) -> u32 {
    let mut r = Random::new(seed);
    let board = generate::board(&mut r, 6);
    let size = board.size();
    let mut call = generate::call(&mut r, board);
    let mut lengths = Lengths::of(size).longer(r.below(3));
    for &cause in causes {
        spoil_call(&mut r, &mut call, &mut lengths, cause);
    }
    let (front, work) = garbage_lists(&mut r, lengths);
    play_both(play, &call, &front, &work, seed).0.number
}

#[test]
fn every_cause_is_refused_by_its_number() {
    let mut tally = Tally::default();
    for (i, &cause) in CALL_CAUSES.iter().enumerate() {
        for seed in 0..1_500 {
            tally.note(refused_by(&[cause], 10_000_000 + 10_000 * i as u64 + seed));
        }
    }
    tally.assert_each(&CALL_CAUSES, 700);
}

/// A march has no tiles, and one damage may undo another: the first number is given for most, not for all.
#[test]
fn of_two_causes_the_first_in_order_is_given() {
    let mut seed = 20_000_000;
    for one in CALL_CAUSES {
        for other in CALL_CAUSES {
            let (mut given, first) = (0, first_of(&[one, other]));
            for _ in 0..120 {
                given += u32::from(refused_by(&[one, other], seed) == first);
                seed += 1;
            }
            assert!(given > 60, "{} and {}: {} in {} of 120", one, other, first, given);
        }
    }
}

#[test]
fn of_three_causes_the_first_in_order_is_given() {
    let mut given = 0;
    for seed in 30_000_000..30_008_000 {
        let mut r = Random::new(seed);
        let causes = [r.pick(&CALL_CAUSES), r.pick(&CALL_CAUSES), r.pick(&CALL_CAUSES)];
        given += u32::from(refused_by(&causes, seed) == first_of(&causes));
    }
    assert!(given > 7_000, "the first in {} of 8,000", given);
}

/// Three by two in one storey.
fn good_board() -> Board {
    let slow = vec![equal(10), pair(20, 10), 0, equal(4_095), pair(1, 4_095), pair(4_095, 1)];
    Board { width: 3, height: 2, storeys: 1, slow, cells: vec![0, 4], begins: vec![0, 1_000_000] }
}

fn played(engine: Engine, call: &Call, lengths: Lengths) -> Reply {
    let (front, work) = lengths.filled();
    play_both(engine, call, &front, &work, 0).0
}

fn number(board: Board, kind: Kind, lengths: Lengths) -> u32 {
    played(play, &Call { board, kind }, lengths).number
}

fn march(board: Board) -> u32 {
    number(board, Kind::March { horizon: LARGEST }, Lengths::of(6))
}

#[test]
fn each_limit_passes_and_one_beyond_it_does_not() {
    let good = good_board();
    let with = |change: &dyn Fn(&mut Board)| {
        let mut board = good.clone();
        change(&mut board);
        march(board)
    };
    assert_eq!(march(good.clone()), 0);
    for (slowness, want) in SLOWNESSES {
        assert_eq!(with(&|b| b.slow[3] = slowness), want, "{}", slowness);
    }
    assert_eq!(with(&|b| b.begins[1] = 1_000_001), 8);
    assert_eq!(with(&|b| b.cells[1] = 5), 0);
    assert_eq!(with(&|b| b.cells[1] = 6), 7);
    assert_eq!(with(&|b| b.cells[1] = 0), 18);
    assert_eq!(with(&|b| b.cells.reverse()), 18);
    assert_eq!(with(&|b| b.cells[1] = 2), 9);
    assert_eq!(with(&|b| b.begins.truncate(1)), 4);
    assert_eq!(with(&|b| b.cells.truncate(1)), 4);
    assert_eq!(with(&|b| b.slow.push(equal(1))), 4);
    assert_eq!(with(&|b| b.slow.truncate(5)), 4);
    assert_eq!(number(good.clone(), Kind::March { horizon: LARGEST + 1 }, Lengths::of(6)), 10);
    for (times, work, want) in [(6, 24, 0), (6, 23, 14), (5, 24, 13), (7, 28, 13), (0, 0, 13), (6, 0, 14)] {
        let lengths = Lengths { times, work, ..Lengths::of(6) };
        assert_eq!(number(good.clone(), Kind::March { horizon: 9 }, lengths), want, "{:?}", lengths);
    }
}

/// Card 6: the list of sides is just N bytes long, for each call in both forms, on a board of one storey and in a
/// house. 13 is looked for before it, and both causes of 14, alone and at once, give 14. A call that takes a longer
/// list, or writes a part of it before it refuses, fails here.
#[test]
fn sides_that_are_not_n_long_are_14_and_every_list_stays() {
    let house = Board { storeys: 2, slow: vec![equal(10); 12], ..good_board() };
    for board in [good_board(), house] {
        let (n, tiles) = (board.size(), tile_count(3, 2, 2, 1));
        let order: Vec<u32> = (0..tiles).rev().collect();
        let round = Kind::Round { across: 2, down: 1, bound: 90, order: order.clone() };
        let run = Kind::Run { across: 2, down: 1, stride: 9, horizon: 90, order };
        for kind in [Kind::March { horizon: 90 }, round, run] {
            let call = Call { board: board.clone(), kind };
            for engine in [play, engine_records::play] {
                let number = |times, sides, work| played(engine, &call, Lengths { times, sides, work }).number;
                assert_eq!([number(n, n, 4 * n), number(n, n, 4 * n + 1)], [0, 0], "{:?}", call);
                for sides in [0, 1, n - 1, n + 1, 2 * n, 4 * n, 65_536] {
                    assert_eq!(number(n, sides, 4 * n), 14, "{} sides: {:?}", sides, call);
                    assert_eq!(number(n, sides, 4 * n - 1), 14, "{} sides, short work: {:?}", sides, call);
                    assert_eq!(number(n - 1, sides, 4 * n), 13, "{} sides, short times: {:?}", sides, call);
                    assert_eq!(number(sides, sides, 4 * n), 13, "{} times and sides: {:?}", sides, call);
                }
                assert_eq!([number(n, n, 4 * n - 1), number(n + 1, n, 4 * n - 1)], [14, 13], "{:?}", call);
            }
        }
    }
}

/// Each cause looks at the whole list: a pair that is too slow is 5 whether the half wall stands before it or behind
/// it, and a half wall is 21 whatever the starts are.
#[test]
fn a_pair_that_is_too_slow_beats_half_a_wall_wherever_it_stands_and_both_beat_the_starts() {
    for half in [pair(10, 0), pair(0, 10), pair(4_095, 0), pair(0, 1)] {
        for slow in [pair(4_096, 10), pair(10, 4_096), pair(4_096, 0), pair(0, 4_096), pair(65_535, 65_535)] {
            for (half_at, slow_at) in [(0, 5), (5, 0), (0, 1), (4, 3)] {
                let mut board = good_board();
                board.slow[half_at] = half;
                assert_eq!(march(board.clone()), 21, "{:?}", board);
                board.cells[1] = 6;
                board.begins[0] = 1_000_001;
                assert_eq!(march(board.clone()), 21, "{:?}", board);
                board.slow[slow_at] = slow;
                assert_eq!(march(board.clone()), 5, "{:?}", board);
            }
        }
    }
}

/// The board with so many storeys, all cells of slowness 10 and no starts, and a list of `length`: by march, round and
/// run, over plain lists and records, with times, sides and work that would fit the list.
fn of_storeys([width, height, storeys]: [u32; 3], length: usize) -> u32 {
    let board = Board { width, height, storeys, slow: vec![equal(10); length], cells: vec![], begins: vec![] };
    refused_alike(&board, length)
}

/// What a march, a round and a run answer to the board, in both forms: one number, and nothing is altered but where it
/// is accepted.
fn refused_alike(board: &Board, length: usize) -> u32 {
    let round = Kind::Round { across: 256, down: 256, bound: 9, order: vec![0] };
    let run = Kind::Run { across: 256, down: 256, stride: 9, horizon: 9, order: vec![0] };
    let mut numbers = Vec::new();
    for kind in [Kind::March { horizon: 9 }, round, run] {
        let call = Call { board: board.clone(), kind };
        for engine in [play, engine_records::play] {
            numbers.push(played(engine, &call, Lengths::of(length)).number);
        }
    }
    assert!(numbers.iter().all(|number| *number == numbers[0]), "{:?} of {:?}", numbers, board.sides());
    numbers[0]
}

/// 4 takes N by whatever the storeys are, in 64 bits, and comes before 23: a list that fits is 23, one that does not is
/// 4. No list fits products above what memory has; 256 × 256 × 65,536 is 0 in 32 bits, and others wrap to a small one.
#[test]
fn storeys_that_are_none_or_too_many_are_23_with_a_list_that_fits_and_4_with_another() {
    for (sides, length) in [
        ([1, 1, 0], 0),
        ([3, 2, 0], 0),
        ([256, 256, 0], 0),
        ([1, 1, 9], 9),
        ([3, 2, 9], 54),
        ([2, 1, 300], 600),
        ([256, 1, 9], 2_304),
        ([1, 1, 65_535], 65_535),
        ([1, 1, 65_536], 65_536),
        ([1, 1, 65_537], 65_537),
        ([1, 2, 65_535], 131_070),
        ([256, 256, 2], 131_072),
        ([256, 129, 2], 66_048),
        ([145, 113, 4], 65_540), // the least N above 65,536 that good sides and storeys have
        ([91, 91, 8], 66_248),
        ([256, 33, 8], 67_584),
    ] {
        assert_eq!(of_storeys(sides, length), 23, "{:?}", sides);
        for other in [0, 1, 6, length.saturating_sub(1), length + 1, 65_536].into_iter().filter(|&l| l != length) {
            assert_eq!(of_storeys(sides, other), 4, "{:?} and {} entries", sides, other);
        }
    }
    for sides @ [width, height, storeys] in [
        [1, 1, NEVER],
        [1, 1, 1 << 31],
        [2, 1, 1 << 31],
        [16, 16, 1 << 24],
        [256, 256, 65_536],
        [256, 256, 65_537],
        [256, 256, NEVER],
        [3, 1, 1_431_655_766],
        [5, 1, 858_993_460],
        [255, 255, 66_052],
    ] {
        let wrapped = width.wrapping_mul(height).wrapping_mul(storeys) as usize;
        for length in [wrapped, 0, 1, 2, 6, 65_536].into_iter().filter(|&length| length <= 1 << 20) {
            assert_eq!(of_storeys(sides, length), 4, "{:?} and {} entries", sides, length);
        }
    }
    for (sides, length) in [([1, 1, 8], 8), ([3, 2, 8], 48), ([256, 32, 8], 65_536), ([90, 90, 8], 64_800)] {
        assert_eq!([of_storeys(sides, length), of_storeys(sides, length - 1)], [0, 4], "{:?}", sides);
    }
}

/// An unequal pair anywhere is 23 from two storeys on, and good on one. Walls are equal.
#[test]
fn unequal_pairs_are_for_boards_of_one_storey() {
    for storeys in 1..=8 {
        let size = 6 * storeys as usize;
        let even =
            Board { storeys, slow: [equal(10), 0].repeat(size / 2), cells: vec![], begins: vec![], ..good_board() };
        assert_eq!(refused_alike(&even, size), 0, "{} storeys", storeys);
        for unequal in UNEQUAL {
            for at in [0, size / 2, size - 1] {
                let mut board = even.clone();
                board.slow[at] = unequal;
                let want = if storeys == 1 { 0 } else { 23 };
                assert_eq!(refused_alike(&board, size), want, "{} storeys, {} at {}", storeys, unequal, at);
            }
        }
    }
}

/// Each looks at the whole list before the next does: 5, then 21, then 23, then the starts, wherever they stand. Half a
/// wall is an unequal pair too, and 21 all the same.
#[test]
fn storeys_are_looked_for_after_half_walls_and_before_the_starts() {
    let [slow, half, unequal] = [pair(10, 4_096), pair(10, 0), pair(10, 11)];
    for (storeys, want) in [(2, 23), (0, 23), (9, 23), (1, 7)] {
        let size = 6 * storeys as usize;
        let ten =
            Board { storeys, slow: vec![equal(10); size], cells: vec![NEVER], begins: vec![NEVER], ..good_board() };
        if size == 0 {
            assert_eq!(refused_alike(&ten, size), want);
            continue;
        }
        for (first, second, third) in [(0, size / 2, size - 1), (size - 1, size / 2, 0), (size / 2, 0, size - 1)] {
            let mut board = ten.clone();
            let mut with = |at: usize, s: u32| {
                board.slow[at] = s;
                refused_alike(&board, size)
            };
            assert_eq!([with(first, unequal), with(second, half), with(third, slow)], [want, 21, 5], "{}", storeys);
            let mut board = ten.clone();
            board.slow[first] = half;
            assert_eq!(refused_alike(&board, size), 21, "{} storeys", storeys);
        }
    }
    // .. and 2 and 4 before it
    let board = Board { storeys: 9, slow: vec![equal(10); 54], ..good_board() };
    assert_eq!(refused_alike(&Board { width: 0, ..board.clone() }, 54), 2);
    assert_eq!(refused_alike(&Board { height: 257, ..board.clone() }, 54), 2);
    let unequal_lists = Board { begins: vec![0], ..board };
    assert_eq!(number(unequal_lists, Kind::March { horizon: 9 }, Lengths::of(54)), 4);
}

/// A start's cell may be anywhere in the house, and not behind its last cell.
#[test]
fn starts_stand_on_every_storey() {
    let slow = [vec![equal(10); 23], vec![0]].concat();
    for (cell, want) in [(0, 0), (5, 0), (6, 0), (12, 0), (18, 0), (22, 0), (23, 9), (24, 7), (25, 7), (NEVER, 7)] {
        let board = Board { storeys: 4, slow: slow.clone(), cells: vec![cell], begins: vec![0], ..good_board() };
        assert_eq!(refused_alike(&board, 24), want, "cell {}", cell);
    }
}

/// The lists of a caller who still hands in one number a cell.
#[test]
fn bare_slownesses_are_half_walls() {
    for s in [1, 10, 4_095] {
        assert_eq!(march(Board { slow: vec![s; 6], ..good_board() }), 21, "{}", s);
    }
    assert_eq!(march(Board { slow: vec![0, 0, 0, 0, 0, 10], ..good_board() }), 21);
}

#[test]
fn each_limit_of_tiles_and_strides_passes_and_one_beyond_it_does_not() {
    let good = good_board();
    let run = |across, down, stride, horizon, order: &[u32]| {
        number(good.clone(), Kind::Run { across, down, stride, horizon, order: order.to_vec() }, Lengths::of(6))
    };
    let round = |across, down, bound, order: &[u32]| {
        number(good.clone(), Kind::Round { across, down, bound, order: order.to_vec() }, Lengths::of(6))
    };
    assert_eq!(run(256, 256, LARGEST, LARGEST, &[0]), 0);
    assert_eq!(run(256, 256, 1, 0, &[0]), 0);
    assert_eq!(run(256, 256, 0, 0, &[0]), 10);
    assert_eq!(run(256, 256, LARGEST + 1, 0, &[0]), 10);
    assert_eq!(run(256, 256, 1, LARGEST + 1, &[0]), 10);
    assert_eq!(round(256, 256, LARGEST, &[0]), 0);
    assert_eq!(round(256, 256, LARGEST + 1, &[0]), 10);
    for side in [0, 257, 1 << 31, NEVER] {
        assert_eq!([run(side, 1, 1, 1, &[0]), run(1, side, 1, 1, &[0])], [11, 11], "{}", side);
        assert_eq!([round(side, 1, 1, &[0]), round(1, side, 1, &[0])], [11, 11], "{}", side);
    }
    let wrong: [&[u32]; 9] = [
        &[],
        &[0],
        &[0, 1, 2],
        &[1, 2, 3, 4],
        &[0, 0, 1, 2],
        &[0, 1, 1, 3],
        &[3, 3, 0, 0],
        &[0, 1, 2, NEVER],
        &[0, 1, 2, 3, 0],
    ];
    for order in wrong {
        assert_eq!([run(2, 1, 1, 1, order), round(2, 1, 1, order)], [12, 12], "{:?}", order);
    }
    assert_eq!([run(2, 1, 1, 1, &[3, 1, 0, 2]), round(2, 1, 1, &[2, 3, 1, 0])], [0, 0]);
}

/// All causes at once, on two storeys; each is taken away in turn, 14 in two steps: sides that are too long, then work
/// that is too short. The starts are 4 and 12, then 4 and 2, then 0 and 2, which is a wall, then 0 and 4. Records have
/// no lists of unequal length.
#[test]
fn of_all_causes_the_first_in_order_is_given() {
    type Mend = fn(&mut Call, &mut Lengths);
    let mends: [(Cause, Mend); 15] = [
        (2.into(), |call, _| call.board.width = 3),
        (4.into(), |call, _| call.board.begins.truncate(2)),
        (5.into(), |call, _| call.board.slow[3] = equal(4_095)),
        (21.into(), |call, _| call.board.slow[5] = equal(10)),
        (23.into(), |call, _| call.board.slow[1] = equal(20)),
        (Cause { number: 7, place: 1 }, |call, _| call.board.cells[1] = 2),
        (Cause { number: 18, place: 1 }, |call, _| call.board.cells[0] = 0),
        (8.into(), |call, _| call.board.begins[1] = 1_000_000),
        (9.into(), |call, _| call.board.cells[1] = 4),
        (10.into(), |call, _| match &mut call.kind {
            Kind::March { horizon } | Kind::Run { horizon, .. } => *horizon = LARGEST,
            Kind::Round { bound, .. } => *bound = LARGEST,
        }),
        (11.into(), |call, _| {
            if let Kind::Round { across, .. } | Kind::Run { across, .. } = &mut call.kind {
                *across = 2;
            }
        }),
        (12.into(), |call, _| {
            if let Kind::Round { order, .. } | Kind::Run { order, .. } = &mut call.kind {
                *order = vec![3, 1, 0, 2];
            }
        }),
        (13.into(), |_, lengths| lengths.times = 12),
        (14.into(), |_, lengths| lengths.sides = 12),
        (14.into(), |_, lengths| lengths.work = 48),
    ];
    let slow = vec![equal(10), pair(20, 10), 0, equal(4_096), equal(1), pair(10, 0)];
    let slow = [slow, vec![equal(30); 6]].concat();
    let wrong = Board { width: 257, height: 2, storeys: 2, slow, cells: vec![4, 12], begins: vec![0, 1_000_001, 0] };
    let above = LARGEST + 1;
    let round = Kind::Round { across: 0, down: 1, bound: above, order: vec![] };
    let run = Kind::Run { across: 0, down: 1, stride: 9, horizon: above, order: vec![] };
    for kind in [Kind::March { horizon: above }, round, run] {
        let is_march = matches!(kind, Kind::March { .. });
        let mut call = Call { board: wrong.clone(), kind };
        let mut lengths = Lengths { times: 11, sides: 13, work: 47 };
        for (cause, mend) in mends {
            if is_march && [11, 12].contains(&cause.number) {
                continue;
            }
            let forms: &[Engine] = if cause.number <= 4 { &[play] } else { &[play, engine_records::play] };
            for engine in forms {
                assert_eq!(played(*engine, &call, lengths), Reply::refused(cause), "{:?}", call);
            }
            mend(&mut call, &mut lengths);
        }
        assert_eq!((lengths, played(play, &call, lengths).number), (Lengths::of(12), 0));
    }
}

/// Sides whose product wraps at 32 bits, with lists as long as the wrapped product.
#[test]
fn sides_whose_product_wraps_are_refused_by_2() {
    let sides = [(65_536, 65_536, 0), (1 << 31, 2, 0), (65_537, 65_535, 0), (0, 0, 0), (0, 5, 0), (3, 0, 0)];
    for (width, height, size) in sides.into_iter().chain([(1_431_655_766, 3, 2), (257, 1, 257), (1, 257, 257)]) {
        let board = Board { width, height, storeys: 1, slow: vec![equal(10); size], cells: vec![], begins: vec![] };
        assert_eq!(number(board, Kind::March { horizon: 1 }, Lengths::of(size)), 2, "{} by {}", width, height);
    }
}

/// A long order over the most tiles that there are, wrong in one place.
#[test]
fn an_order_of_65536_tiles_is_judged_to_its_last_entry() {
    let board =
        Board { width: 256, height: 256, storeys: 1, slow: vec![equal(1); 65_536], cells: vec![], begins: vec![] };
    let mut r = Random::new(5);
    let mut order = generate::order(&mut r, 65_536);
    let round = |order: &[u32]| {
        let call =
            Call { board: board.clone(), kind: Kind::Round { across: 1, down: 1, bound: 1, order: order.to_vec() } };
        play_both(play, &call, &Front::holding(vec![NEVER; 65_536]), &vec![1; 4 * 65_536], 5).0
    };
    assert_eq!(round(&order), Reply::accepted(0));
    for (at, value) in [(65_535, order[0]), (0, order[65_535]), (40_000, order[39_999]), (7, 65_536)] {
        let right = std::mem::replace(&mut order[at], value);
        assert_eq!(round(&order), Reply::refused(12), "entry {}", at);
        order[at] = right;
    }
}
