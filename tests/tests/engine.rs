//! Marches, single rounds and tile runs of the engine beside the second solver, on seeded boards, of one storey and of
//! several.

use second_solver::board::{Board, Grid};
use second_solver::calls::{Call, Kind, Lengths, MOST_WORKED};
use second_solver::compare::{engine_alone, play_both, Ledger};
use second_solver::ffi::engine::play;
use second_solver::ffi::engine_records;
use second_solver::generate::{self, board_of};
use second_solver::march::{solved, Front};
use second_solver::random::Random;
use second_solver::tiles::{bound_of, round, tile_count, up, Tiling};
use second_solver::{LARGEST, NEVER};
use std::collections::BTreeSet;

/// Times and sides that hold anything, and a work list that is longer than it must be, by 8 entries at most.
fn lists(r: &mut Random, board: &Board) -> (Front, Vec<u32>) {
    let times = generate::stored(r, board);
    let lengths = Lengths::of(board.size()).longer(r.below(9));
    let (front, work) = generate::garbage_lists(r, lengths);
    (Front { times, ..front }, work)
}

/// Plays a good call.
fn compare(r: &mut Random, call: &Call, seed: u64) -> (u32, Front) {
    let (front, work) = lists(r, &call.board);
    let (reply, after) = play_both(play, call, &front, &work, seed);
    assert_eq!(reply.number, 0, "seed {}: a good call is refused: {:?}", seed, call);
    (reply.count, after)
}

fn random_board(r: &mut Random) -> Board {
    let longest = match r.below(400) {
        0 => 64,
        1..=30 => 32,
        _ => 15,
    };
    generate::board(r, longest)
}

fn tiles(r: &mut Random, board: &Board) -> (u32, u32, Vec<u32>) {
    let (across, down) = (generate::tile_side(r, board.width), generate::tile_side(r, board.height));
    (across, down, generate::order(r, tile_count(board.width, board.height, across, down)))
}

/// Counts boards by their storeys.
fn assert_houses(of_storeys: [u32; 9]) {
    let houses = &of_storeys[2..];
    assert!(houses.iter().sum::<u32>() > 14_000 && houses.iter().all(|&count| count > 1_500), "{:?}", of_storeys);
}

#[test]
fn marches_of_random_boards_are_the_second_solvers() {
    let mut of_storeys = [0; 9];
    for seed in 1_000_000..1_040_000 {
        let mut r = Random::new(seed);
        let board = random_board(&mut r);
        of_storeys[board.storeys as usize] += 1;
        let kind = Kind::March { horizon: generate::horizon(&mut r, &board) };
        compare(&mut r, &Call { board, kind }, seed);
    }
    assert_houses(of_storeys);
}

#[test]
fn rounds_over_random_boards_and_any_stored_times_are_the_second_solvers() {
    let mut of_storeys = [0; 9];
    for seed in 2_000_000..2_040_000 {
        let mut r = Random::new(seed);
        let board = random_board(&mut r);
        of_storeys[board.storeys as usize] += 1;
        let (across, down, order) = tiles(&mut r, &board);
        let kind = Kind::Round { across, down, bound: generate::horizon(&mut r, &board), order };
        compare(&mut r, &Call { board, kind }, seed);
    }
    assert_houses(of_storeys);
}

/// As many rounds as strides to the horizon, rounded up, and at most one more for each cell that is reached.
#[test]
fn tile_runs_of_random_boards_are_the_second_solvers() {
    let (mut long, mut leapt, mut of_storeys) = (0, 0, [0; 9]);
    for seed in 3_000_000..3_030_000 {
        let mut r = Random::new(seed);
        let board = random_board(&mut r);
        of_storeys[board.storeys as usize] += 1;
        let (across, down, order) = tiles(&mut r, &board);
        let horizon = generate::horizon(&mut r, &board);
        let stride = generate::stride(&mut r, board.size(), horizon);
        let (size, kind) = (board.size() as u64, Kind::Run { across, down, stride, horizon, order });
        let (rounds, left) = compare(&mut r, &Call { board, kind }, seed);
        let reached = left.times.iter().filter(|&&t| t != NEVER).count() as u32;
        let least = up(horizon, stride).max(1);
        assert!((least..=least + reached).contains(&rounds), "seed {}: {} rounds", seed, rounds);
        long += u32::from(rounds > 1_000);
        leapt += u32::from(u64::from(rounds) * size > MOST_WORKED);
    }
    assert!(long > 1_000 && leapt > 300, "too few long runs: {} and {}", long, leapt);
    assert_houses(of_storeys);
}

/// Every tile side across and down, on boards as long as the longest tile.
#[test]
fn every_tile_side_cuts_the_board_alike() {
    for code in 0..512 {
        let (seed, side, is_across) = (4_000_000 + u64::from(code), code / 2 + 1, code % 2 == 0);
        let mut r = Random::new(seed);
        let (other, tile_other) = (r.within(1, 3), r.within(1, 4));
        let (width, height) = if is_across { (256, other) } else { (other, 256) };
        let (across, down) = if is_across { (side, tile_other) } else { (tile_other, side) };
        let storeys = r.pick(&[1, 1, 1, 2]);
        let board = board_of(&mut r, [width, height, storeys]);
        let order = generate::order(&mut r, tile_count(width, height, across, down));
        let horizon = generate::horizon(&mut r, &board);
        let round = Kind::Round { across, down, bound: horizon, order: order.clone() };
        let run = Kind::Run { across, down, stride: (horizon / 20).max(1), horizon, order };
        for kind in [round, run] {
            compare(&mut r, &Call { board: board.clone(), kind }, seed);
        }
    }
}

/// Horizons and bounds at each time of a board, and one before and behind it.
#[test]
fn every_time_of_a_board_is_a_horizon() {
    for seed in 5_000_000..5_000_060 {
        let mut r = Random::new(seed);
        let board = generate::board(&mut r, 5);
        let mut times = solved(&Grid::new(&board));
        times.sort_unstable();
        times.dedup();
        for t in times.into_iter().filter(|&t| t != NEVER) {
            for horizon in t.saturating_sub(1)..=t + 1 {
                let (across, down, order) = tiles(&mut r, &board);
                let stride = (horizon / r.within(1, 30)).max(1);
                let round = Kind::Round { across, down, bound: horizon, order: order.clone() };
                let run = Kind::Run { across, down, stride, horizon, order };
                for kind in [Kind::March { horizon }, round, run] {
                    compare(&mut r, &Call { board: board.clone(), kind }, seed);
                }
            }
        }
    }
}

#[test]
fn strides_and_horizons_at_the_ends_of_their_ranges_are_counted() {
    for seed in 6_000_000..6_000_150 {
        let mut r = Random::new(seed);
        let board = generate::board(&mut r, 6);
        for horizon in [0, 1, LARGEST - 1, LARGEST] {
            for stride in [1, 2, 149_999_999, LARGEST - 1, LARGEST] {
                let (across, down, order) = tiles(&mut r, &board);
                let kind = Kind::Run { across, down, stride, horizon, order };
                compare(&mut r, &Call { board: board.clone(), kind }, seed);
            }
        }
    }
}

/// Many rounds with long strides: k × stride passes 32 bits long before the last round.
#[test]
fn rounds_go_on_where_the_stride_times_their_number_passes_32_bits() {
    for seed in 6_500_000..6_500_400 {
        let mut r = Random::new(seed);
        let (length, other) = (r.within(30, 70), r.within(1, 2));
        let (width, height) = if r.once_in(2) { (length, other) } else { (other, length) };
        let storeys = r.within(1, 2);
        let mut board = board_of(&mut r, [width, height, storeys]);
        let apart = storeys == 1 && r.once_in(2);
        board.slow.fill(generate::open(&mut r, apart, |r| r.within(1, 4_095)));
        board.cells = vec![r.below(3)];
        board.begins = vec![r.spread(1_000_000)];
        let (across, down) = (r.within(1, 2), r.within(1, 2));
        let order = generate::order(&mut r, tile_count(width, height, across, down));
        let stride = r.pick(&[LARGEST, LARGEST - 1, 1 << 28, (1 << 28) + 1, 143_165_577, 214_748_365]);
        let kind = Kind::Run { across, down, stride, horizon: LARGEST - r.below(2), order };
        let (rounds, _) = compare(&mut r, &Call { board, kind }, seed);
        assert!(rounds >= 15, "seed {}: {} rounds only", seed, rounds);
    }
}

/// As many single rounds as a run answers, from all never and with its bounds, leave the run's times and sides;
/// the last alters no time, and none at the horizon before it does so. The run is the engine's alone.
#[test]
fn a_tile_run_is_as_many_single_rounds_as_it_answers() {
    for seed in 7_000_000..7_001_500 {
        let mut r = Random::new(seed);
        let board = generate::board(&mut r, 7);
        let (across, down, order) = tiles(&mut r, &board);
        let horizon = generate::horizon(&mut r, &board);
        let stride = (horizon / r.within(1, 40)).max(1);
        let run = Call { board: board.clone(), kind: Kind::Run { across, down, stride, horizon, order } };
        let (front, work) = lists(&mut r, &board);
        let (reply, after, _) = engine_alone(play, &run, &front, &work);
        assert!(reply.number == 0 && reply.count > 0, "seed {}: {:?} of {:?}", seed, reply, run);
        let mut ledger = Ledger::new(&Front::holding(vec![NEVER; board.size()]));
        for k in 1..=u64::from(reply.count) {
            let bound = bound_of(k, stride, horizon);
            let order = generate::order(&mut r, tile_count(board.width, board.height, across, down));
            let call = Call { board: board.clone(), kind: Kind::Round { across, down, bound, order } };
            let altered = ledger.play(play, &call, &work, seed).count;
            if k * u64::from(stride) >= u64::from(horizon) {
                assert_eq!(altered == 0, k == u64::from(reply.count), "seed {}, round {}: {:?}", seed, k, call);
            }
        }
        assert_eq!(ledger.front(), &after, "seed {}: {:?}", seed, run);
    }
}

/// Boards on which a round lowers a cell that a round before it had reached.
#[test]
fn a_reached_cell_is_lowered_again_by_an_earlier_ghost() {
    let mut found = 0;
    for seed in 8_000_000..8_006_000 {
        let mut r = Random::new(seed);
        let board = generate::board(&mut r, 9);
        let (across, down, order) = tiles(&mut r, &board);
        let latest = solved(&Grid::new(&board)).into_iter().filter(|&t| t != NEVER).max().unwrap_or(0);
        let stride = (latest / 3).max(1);
        if !lowers_again(&board, across, down, stride, latest) {
            continue;
        }
        found += 1;
        let kind = Kind::Run { across, down, stride, horizon: latest, order };
        compare(&mut r, &Call { board, kind }, seed);
    }
    assert!(found > 200, "too few such boards: {}", found);
}

fn lowers_again(board: &Board, across: u32, down: u32, stride: u32, horizon: u32) -> bool {
    let grid = Grid::new(board);
    let tiling = Tiling::new(&grid, across, down);
    let mut times = vec![NEVER; board.size()];
    for k in 1..30 {
        let next = round(&grid, &tiling, bound_of(k, stride, horizon), &times).times;
        if times.iter().zip(&next).any(|(&before, &after)| before != NEVER && after < before) {
            return true;
        }
        times = next;
    }
    false
}

/// The order of the tiles shows in nothing that the engine answers or leaves. The engine is compared with
/// itself: the second solver has no use for the order.
#[test]
fn every_order_of_the_tiles_gives_the_same() {
    let mut several = 0;
    for seed in 9_000_000..9_000_400 {
        let mut r = Random::new(seed);
        let sides = [r.within(4, 8), r.within(4, 8), r.within(1, 3)];
        let board = board_of(&mut r, sides);
        let (across, down) = (r.within(1, 3), r.within(1, 3));
        let bound = generate::horizon(&mut r, &board);
        let (front, work) = lists(&mut r, &board);
        let stride = (bound / r.within(1, 40)).max(1);
        let tiles = tile_count(board.width, board.height, across, down);
        let (mut orders, mut seen) = (BTreeSet::new(), Vec::new());
        for _ in 0..4 {
            let order = generate::order(&mut r, tiles);
            let round = Kind::Round { across, down, bound, order: order.clone() };
            let run = Kind::Run { across, down, stride, horizon: bound, order: order.clone() };
            orders.insert(order);
            let [round, run] = [round, run].map(|kind| Call { board: board.clone(), kind });
            for engine in [play, engine_records::play] {
                seen.push([&round, &run].map(|call| engine_alone(engine, call, &front, &work)));
            }
        }
        assert!(seen.iter().flatten().all(|(reply, _, _)| reply.number == 0), "seed {}: refused", seed);
        assert!(seen.windows(2).all(|pair| pair[0] == pair[1]), "seed {}: the order shows", seed);
        several += u32::from(orders.len() > 1);
    }
    assert!(several > 390, "{} boards with several orders only", several);
}
