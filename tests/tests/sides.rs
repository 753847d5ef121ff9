//! From which sides the front came: boards whose sides are typed by hand, the traps of card 6, and the engine beside
//! itself. Every call here is made over plain lists and over records; sides hold garbage at first.

use second_solver::board::{Board, Grid, OFF};
use second_solver::calls::{Call, Kind, Lengths};
use second_solver::compare::{engine_alone, play_both, Engine};
use second_solver::ffi::local_rule::local_rule;
use second_solver::ffi::{engine, engine_records};
use second_solver::generate::{self, garbage_lists};
use second_solver::march::Front;
use second_solver::random::Random;
use second_solver::rule::parts;
use second_solver::tiles::tile_count;
use second_solver::typed::{board, row};
use second_solver::{LARGEST, NEVER};

const ENGINES: [Engine; 2] = [engine::play, engine_records::play];

const N: u32 = NEVER;

/// The count of a call, and what it leaves on lists that hold these: in both forms, each beside the second solver.
fn played_on(held: &Front, board: &Board, kind: Kind) -> (u32, Front) {
    let call = Call { board: board.clone(), kind };
    let work = vec![7; 4 * board.size() + 1];
    let [plain, records] = ENGINES.map(|engine| play_both(engine, &call, held, &work, 0));
    assert!(plain == records && plain.0.number == 0, "refused, or not the same in both forms: {:?}", call);
    (plain.0.count, plain.1)
}

fn played(stored: &[u32], board: &Board, kind: Kind) -> (u32, Front) {
    played_on(&Front::holding(stored), board, kind)
}

/// What a call must leave.
fn front(times: &[u32], sides: &[u8]) -> Front {
    Front { times: times.to_vec(), sides: sides.to_vec() }
}

/// March and runs leave this, and so do rounds on these times, which alter none: one tile, some, and one to each cell.
fn assert_left(board: &Board, horizon: u32, times: &[u32], sides: &[u8]) {
    let (want, garbage) = (front(times, sides), vec![LARGEST + 3; board.size()]);
    assert_eq!(played(&garbage, board, Kind::March { horizon }).1, want, "march of {:?}", board);
    for tile in [[1, 1], [1, 2], [2, 1], [2, 2], [256, 256]] {
        for stride in [1, 7, LARGEST] {
            let left = played(&garbage, board, Kind::run(board, tile, stride, horizon)).1;
            assert_eq!(left, want, "run by {} with tiles of {:?}: {:?}", stride, tile, board);
        }
        assert_eq!(played(times, board, Kind::round(board, tile, horizon)), (0, want.clone()), "round of {:?}", tile);
    }
}

/// A front from both ends of a row, a column and a stair: the cell between is reached from both at once. Left, above
/// and over are named; the other end only where it is a tick earlier. Over is the next storey.
#[test]
fn of_two_neighbours_that_are_as_early_left_above_and_over_are_named() {
    for (sides, first_end, second_end, first) in [([3, 1, 1], 0, 2, 1), ([1, 3, 1], 0, 2, 4), ([1, 1, 3], 2, 0, 16)] {
        for (begins, byte) in [([0, 0], first), ([0, 1], first), ([1, 0], 2 * first), ([5, 5], first)] {
            let mut starts = [(first_end, begins[0]), (second_end, begins[1])];
            starts.sort_unstable();
            let middle = begins[0].min(begins[1]) + 10;
            assert_left(&board(sides, &[10; 3], &starts), 1_000, &[starts[0].1, middle, starts[1].1], &[0, byte, 0]);
        }
    }
}

/// The middle of a cube of three by three by three: its six neighbours are starts at 0, all but those in `late`, at 1.
#[test]
fn all_axes_are_named_at_once() {
    // left, right, above, below, over and under of cell 13
    let near = [12, 14, 10, 16, 22, 4];
    for (late, byte) in [
        (&[][..], 1 + 4 + 16),
        (&[12], 2 + 4 + 16),
        (&[10, 22], 1 + 8 + 32),
        (&[12, 10, 22], 2 + 8 + 32),
        (&[14, 16, 4], 1 + 4 + 16),
        (&[12, 14], 1 + 4 + 16),
    ] {
        let mut starts: Vec<(u32, u32)> = near.iter().map(|&c| (c, u32::from(late.contains(&c)))).collect();
        starts.sort_unstable();
        let cube = board([3, 3, 3], &[10; 27], &starts);
        let (_, left) = played(&[LARGEST + 1; 27], &cube, Kind::March { horizon: 1_000 });
        assert_eq!((left.times[13] > 1, left.sides[13]), (true, byte), "late: {:?}", late);
        assert!(near.iter().all(|&c| left.sides[c as usize] == 0), "a start has sides");
    }
}

/// Axes that are not before the answer are not named: the middle of the second row is reached straight from above, at
/// 10; left of it stands a start at that time or a tick before or behind it.
#[test]
fn an_axis_that_is_not_before_the_answer_is_not_named() {
    for (beside, middle, byte) in [(5, 10, 4 + 1), (9, 10, 4 + 1), (10, 10, 4), (11, 10, 4)] {
        let cross = board([2, 2, 1], &[0, 10, 10, 10], &[(1, 0), (2, beside)]);
        assert_left(&cross, 1_000, &[N, 0, beside, middle], &[0, 0, 0, byte]);
    }
}

#[test]
fn the_three_by_three_board_and_the_houses_have_the_sides_worked_by_hand() {
    let times = [0, 10, 20, 10, 18, 26, 20, 26, 34];
    assert_left(&board([3, 3, 1], &[10; 9], &[(0, 0)]), 34, &times, &[0, 1, 1, 4, 5, 5, 4, 5, 5]);
    let back: Vec<u32> = times.iter().rev().copied().collect();
    assert_left(&board([3, 3, 1], &[10; 9], &[(8, 0)]), 34, &back, &[10, 10, 8, 10, 10, 8, 2, 2, 0]);
    // two storeys: the second is reached from under it, 32, the first from over it, 16
    let house = [0, 10, 10, 18, 10, 18, 18, 24];
    assert_left(&board([2, 2, 2], &[10; 8], &[(0, 0)]), 24, &house, &[0, 1, 4, 5, 32, 33, 36, 37]);
    let back: Vec<u32> = house.iter().rev().copied().collect();
    assert_left(&board([2, 2, 2], &[10; 8], &[(7, 0)]), 24, &back, &[26, 24, 18, 16, 10, 8, 2, 0]);
}

/// A start at the very time at which the front comes has no sides, nor has an earlier one; a later one has the front's.
/// What takes a start for the front's where both are as early, or leaves a late one without sides, differs.
#[test]
fn a_start_no_later_than_the_front_has_no_sides() {
    for (begin, time, byte) in [(0, 0, 0), (9, 9, 0), (10, 10, 0), (11, 10, 1), (1_000_000, 10, 1)] {
        assert_left(&row(&[10, 10], &[(0, 0), (1, begin)]), 1_000, &[0, time], &[0, byte]);
    }
    // from two sides, at 18; over it, at 10
    for (begin, time, byte) in [(17, 17, 0), (18, 18, 0), (19, 18, 5)] {
        let square = board([2, 2, 1], &[10; 4], &[(0, 0), (3, begin)]);
        assert_left(&square, 1_000, &[0, 10, 10, time], &[0, 1, 4, byte]);
    }
    for (begin, time, byte) in [(9, 9, 0), (10, 10, 0), (11, 10, 32)] {
        assert_left(&board([1, 1, 2], &[10, 10], &[(0, 0), (1, begin)]), 1_000, &[0, time], &[0, byte]);
    }
}

/// The same where the front comes from a ghost, so that no cell of the tile is beside the start.
#[test]
fn a_start_no_later_than_what_a_ghost_gives_has_no_sides() {
    for (begin, time, byte) in [(4, 4, 0), (14, 14, 0), (15, 15, 0), (16, 15, 1)] {
        let cells = row(&[10, 10], &[(1, begin)]);
        let (_, left) = played(&[5, 0], &cells, Kind::round(&cells, [1, 1], 100));
        assert_eq!(left, front(&[10, time], &[2, byte]), "start at {}", begin);
    }
}

/// Cells past the horizon and past a round's bound have no sides, though a neighbour is reached before them.
#[test]
fn cells_that_are_cut_off_have_no_sides() {
    for (horizon, times, sides) in [
        (30, [0, 10, 20, 30], [0, 1, 1, 1]),
        (29, [0, 10, 20, N], [0, 1, 1, 0]),
        (20, [0, 10, 20, N], [0, 1, 1, 0]),
        (19, [0, 10, N, N], [0, 1, 0, 0]),
        (0, [0, N, N, N], [0, 0, 0, 0]),
    ] {
        assert_left(&row(&[10; 4], &[(0, 0)]), horizon, &times, &sides);
    }
    // a start past the horizon, before and behind what the front would give
    for begin in [25, 40] {
        assert_left(&row(&[10; 4], &[(0, 0), (3, begin)]), 24, &[0, 10, 20, N], &[0, 1, 1, 0]);
    }
    // ghosts at the bound, just below what reaches it, and past it
    let cells = row(&[10; 3], &[]);
    for (stored, times, sides) in [
        ([N, 20, N], [30, N, 30], [2, 0, 1]),
        ([N, 21, N], [N, N, N], [0, 0, 0]),
        ([N, 30, N], [N, N, N], [0, 0, 0]),
        ([40, N, 20], [N, 30, N], [0, 2, 0]),
    ] {
        let (_, left) = played(&stored, &cells, Kind::round(&cells, [1, 1], 30));
        assert_eq!(left, front(&times, &sides), "{:?}", stored);
    }
}

/// The largest bound: what a ghost at it gives is past it, and never.
#[test]
fn answers_past_300000000_have_no_sides() {
    let cells = row(&[10; 3], &[]);
    for (stored, middle, byte) in [
        ([LARGEST, N, N], N, 0),
        ([LARGEST - 9, N, LARGEST], N, 0),
        ([LARGEST - 10, N, LARGEST], LARGEST, 1),
        ([LARGEST, N, LARGEST - 10], LARGEST, 2),
    ] {
        let (_, left) = played(&stored, &cells, Kind::round(&cells, [1, 1], LARGEST));
        assert_eq!((left.times[1], left.sides[1]), (middle, byte), "{:?}", stored);
    }
}

#[test]
fn walls_and_what_no_front_reaches_have_no_sides() {
    let mut slow = [10; 9];
    slow[4] = 0;
    assert_left(
        &board([3, 3, 1], &slow, &[(0, 0)]),
        1_000,
        &[0, 10, 20, 10, N, 30, 20, 30, 38],
        &[0, 1, 1, 4, 0, 4, 4, 1, 5],
    );
    assert_left(&row(&[10, 0, 10], &[(0, 0)]), 1_000, &[0, N, N], &[0, 0, 0]);
    assert_left(&row(&[10, 10, 10], &[]), 1_000, &[N; 3], &[0; 3]);
    assert_left(&board([1, 1, 3], &[10, 0, 10], &[(0, 0)]), 1_000, &[0, N, N], &[0; 3]);
    assert_left(&row(&[0; 3], &[]), 1_000, &[N; 3], &[0; 3]);
}

/// What was in the list does not show: every byte there is, in every cell, for each call. One that is added to, or not
/// written where there is none, would show.
#[test]
fn any_bytes_may_stand_in_the_sides_at_first() {
    let cells = row(&[10, 10, 0, 10, 10], &[(0, 0), (4, 35)]);
    let (times, sides) = ([0, 10, N, N, N], [0, 1, 0, 0, 0]);
    for byte in 0..=255 {
        let held = Front { times: times.to_vec(), sides: vec![byte; 5] };
        for kind in [Kind::March { horizon: 34 }, Kind::round(&cells, [1, 1], 34), Kind::run(&cells, [2, 1], 5, 34)] {
            assert_eq!(played_on(&held, &cells, kind).1, front(&times, &sides), "{}", byte);
        }
    }
}

/// A round's sides come from the times that the tile saw: those of other tiles as they were stored, although the round
/// itself alters them. What works sides out from the times that the round leaves differs in each of these.
#[test]
fn a_round_takes_sides_from_the_ghosts_that_the_tile_saw() {
    let cells = row(&[10; 3], &[(0, 0)]);
    for (stored, middle, byte, last) in [
        ([5, N, 4], 14, 2, N),
        ([5, N, 5], 15, 1, N),
        ([N, N, 4], 14, 2, N),
        ([N, 0, 4], 14, 2, 10),
        ([7, 0, N], 17, 1, 10),
        ([N, 0, N], N, 0, 10),
    ] {
        let (_, left) = played(&stored, &cells, Kind::round(&cells, [1, 1], 100));
        let of_last = u8::from(last != N);
        assert_eq!(left, front(&[0, middle, last], &[0, byte, of_last]), "{:?}", stored);
    }
}

/// Cells of the same tile are seen as the round solves them, whatever was stored there.
#[test]
fn a_round_takes_sides_within_a_tile_from_the_times_that_it_solves() {
    let cells = row(&[10; 4], &[(0, 1)]);
    for (stored, times, sides) in [
        // tiles 0 1 and 2 3: cell 1 sees cell 0 at 1, and cell 2 as stored
        ([90, 90, 2, 0], [1, 11, 100, 110], [0, 1, 1, 1]),
        ([0, 90, 1, 0], [1, 11, 100, 110], [0, 1, 1, 1]),
        ([0, 90, 0, 0], [1, 10, 100, 110], [0, 2, 1, 1]),
        ([0, 3, N, 0], [1, 11, 13, 23], [0, 1, 1, 1]),
    ] {
        let (_, left) = played(&stored, &cells, Kind::round(&cells, [2, 1], 200));
        assert_eq!(left, front(&times, &sides), "{:?}", stored);
    }
}

/// A wall's stored time, and one above 300,000,000, are never for the neighbours: no side of theirs either.
#[test]
fn ghosts_that_count_as_never_are_no_sides() {
    let walled = row(&[0, 10, 10], &[]);
    let (_, left) = played(&[0, N, 4], &walled, Kind::round(&walled, [1, 1], 100));
    assert_eq!(left, front(&[N, 14, N], &[0, 2, 0]));
    let cells = row(&[10; 3], &[]);
    for late in [LARGEST + 1, LARGEST + 5, NEVER - 1] {
        let (_, left) = played(&[late, N, LARGEST - 10], &cells, Kind::round(&cells, [1, 1], LARGEST));
        assert_eq!(left, front(&[N, LARGEST, N], &[0, 2, 0]), "{}", late);
    }
}

/// Rounds on the times that the one before left, from all never, with tiles of one cell: count, times and sides of
/// each.
fn assert_rounds(board: &Board, bound: u32, want: &[(u32, &[u32], &[u8])]) {
    let mut held = Front::holding(vec![N; board.size()]);
    for (k, (count, times, sides)) in (1..).zip(want) {
        let left = played_on(&held, board, Kind::round(board, [1, 1], bound));
        assert_eq!(left, (*count, front(times, sides)), "round {}", k);
        held = left.1;
    }
}

/// Card 6's trap: a round that alters sides and no time. Round 2 brings cell 2 its time from the right, and cell 1 one
/// that is as early; round 3 sees that, and names the left. An engine that keeps sides where times stay, or works them
/// out from the times that a round leaves, fails in one of the two. The run ends with round 3, which counts 0.
#[test]
fn trap_of_four_cells_round_3_turns_a_side_and_alters_no_time() {
    let trap = row(&[1; 4], &[(0, 0), (3, 1)]);
    assert_rounds(
        &trap,
        10,
        &[
            (2, &[0, N, N, 1], &[0, 0, 0, 0]),
            (2, &[0, 1, 2, 1], &[0, 1, 2, 0]),
            (0, &[0, 1, 2, 1], &[0, 1, 1, 0]),
            (0, &[0, 1, 2, 1], &[0, 1, 1, 0]),
        ],
    );
    assert_eq!(played(&[N; 4], &trap, Kind::run(&trap, [1, 1], 10, 10)).0, 3);
    assert_left(&trap, 10, &[0, 1, 2, 1], &[0, 1, 1, 0]);
}

/// The same with cell 6, which both fronts reach at 6: from the right in round 2; the one from the left is beside it in
/// round 6, and named in round 7.
#[test]
fn trap_of_eight_cells_round_7_turns_a_side_and_alters_no_time() {
    let trap = row(&[1; 8], &[(0, 0), (7, 5)]);
    let n = N;
    assert_rounds(
        &trap,
        10,
        &[
            (2, &[0, n, n, n, n, n, n, 5], &[0, 0, 0, 0, 0, 0, 0, 0]),
            (2, &[0, 1, n, n, n, n, 6, 5], &[0, 1, 0, 0, 0, 0, 2, 0]),
            (2, &[0, 1, 2, n, n, 7, 6, 5], &[0, 1, 1, 0, 0, 2, 2, 0]),
            (2, &[0, 1, 2, 3, 8, 7, 6, 5], &[0, 1, 1, 1, 2, 2, 2, 0]),
            (1, &[0, 1, 2, 3, 4, 7, 6, 5], &[0, 1, 1, 1, 1, 2, 2, 0]),
            (1, &[0, 1, 2, 3, 4, 5, 6, 5], &[0, 1, 1, 1, 1, 1, 2, 0]),
            (0, &[0, 1, 2, 3, 4, 5, 6, 5], &[0, 1, 1, 1, 1, 1, 1, 0]),
        ],
    );
    assert_eq!(played(&[n; 8], &trap, Kind::run(&trap, [1, 1], 10, 10)).0, 7);
    assert_left(&trap, 10, &[0, 1, 2, 3, 4, 5, 6, 5], &[0, 1, 1, 1, 1, 1, 1, 0]);
}

/// The traps stood up: down a column, and up the storeys, where the tile spans all and no round turns a side.
#[test]
fn the_trap_stands_along_each_axis() {
    let times: [u32; 4] = [0, 1, 2, 1];
    let column = board([1, 4, 1], &[1; 4], &[(0, 0), (3, 1)]);
    assert_rounds(
        &column,
        10,
        &[(2, &[0, N, N, 1], &[0, 0, 0, 0]), (2, &times, &[0, 4, 8, 0]), (0, &times, &[0, 4, 4, 0])],
    );
    let stair = board([1, 1, 4], &[1; 4], &[(0, 0), (3, 1)]);
    assert_rounds(&stair, 10, &[(4, &times, &[0, 32, 16, 0]), (0, &times, &[0, 32, 16, 0])]);
}

/// The engine beside itself, round after round: two orders of tiles, one in each form, leave the same times and sides.
#[test]
fn two_orders_of_tiles_leave_equal_sides_after_each_round() {
    let (mut rounds, mut sides_alone) = (0, 0);
    for seed in 96_000_000..96_001_500 {
        let mut r = Random::new(seed);
        let sides = [r.within(2, 8), r.within(2, 8), r.within(1, 3)];
        let board = generate::board_of(&mut r, sides);
        let (across, down) = (r.within(1, 3), r.within(1, 3));
        let bound = generate::horizon(&mut r, &board);
        let (first, work) = garbage_lists(&mut r, Lengths::of(board.size()));
        let mut held = Front { times: vec![N; board.size()], ..first };
        for k in 1..12 {
            let left = ENGINES.map(|engine| {
                let order = generate::order(&mut r, tile_count(board.width, board.height, across, down));
                let call = Call { board: board.clone(), kind: Kind::Round { across, down, bound, order } };
                engine_alone(engine, &call, &held, &work)
            });
            assert!(left[0] == left[1] && left[0].0.number == 0, "seed {}, round {}: {:?}", seed, k, board);
            let [(reply, next, _), _] = left;
            rounds += 1;
            sides_alone += u32::from(k > 1 && reply.count == 0 && next.sides != held.sides);
            if next == held {
                break;
            }
            held = next;
        }
    }
    assert!(rounds > 4_000 && sides_alone > 25, "{} rounds, {} of which alter sides alone", rounds, sides_alone);
}

/// The engine beside itself: a run's sides are the march's, whatever tiles and stride.
#[test]
fn the_sides_of_a_run_are_those_of_the_march() {
    for seed in 96_100_000..96_104_000 {
        let mut r = Random::new(seed);
        let board = generate::board(&mut r, 14);
        let horizon = generate::horizon(&mut r, &board);
        let tile = generate::tile(&mut r, &board);
        let stride = generate::stride(&mut r, board.size(), horizon);
        let (front, work) = garbage_lists(&mut r, Lengths::of(board.size()));
        let [marched, ran] = [Kind::March { horizon }, Kind::run(&board, tile, stride, horizon)].map(|kind| {
            let call = Call { board: board.clone(), kind };
            engine_alone(r.pick(&ENGINES), &call, &front, &work).1
        });
        assert_eq!(ran, marched, "seed {}, tiles {:?}, stride {}: {:?}", seed, tile, stride, board);
    }
}

/// The neighbours that a byte names.
fn named(grid: &Grid, c: usize, byte: u8) -> Vec<usize> {
    let of_axis = |axis: usize| match byte >> (2 * axis) & 3 {
        0 => None,
        part => Some(grid.near[c][2 * axis + part as usize - 1]),
    };
    (0..3).filter_map(of_axis).collect()
}

/// The engine's march beside its own local rule, and without either solver's sides: every reached cell has a start of
/// its time and no sides, or sides that are reached strictly earlier. So whoever goes from side to side comes to a
/// start.
#[test]
fn sides_are_the_local_rules_and_lead_back_to_a_start() {
    let mut of_axes = [0; 4];
    for seed in 96_200_000..96_204_000 {
        let mut r = Random::new(seed);
        let board = generate::board(&mut r, 12);
        let horizon = generate::horizon(&mut r, &board);
        let (front, work) = garbage_lists(&mut r, Lengths::of(board.size()));
        let call = Call { board: board.clone(), kind: Kind::March { horizon } };
        let (_, Front { times, sides }, _) = engine_alone(engine::play, &call, &front, &work);
        let grid = Grid::new(&board);
        for c in 0..board.size() {
            let told = || format!("seed {}, cell {}: {} in {:?}", seed, c, sides[c], board);
            let near = grid.near[c].map(|e| if e == OFF { N } else { times[e] });
            let rule = local_rule(parts(board.slow[c]), near);
            let is_by_front = times[c] != N && rule.time < grid.start[c];
            assert_eq!(u32::from(sides[c]), if is_by_front { rule.sides } else { 0 }, "{}", told());
            let from = named(&grid, c, sides[c]);
            assert!(from.iter().all(|&e| e != OFF && times[e] < times[c]), "{}", told());
            assert_eq!(from.is_empty(), times[c] == N || times[c] == grid.start[c] && !is_by_front, "{}", told());
            of_axes[from.len()] += 1;
        }
    }
    assert!(of_axes.iter().all(|&cells| cells > 3_000), "cells by how many sides they have: {:?}", of_axes);
}
