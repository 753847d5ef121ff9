//! Late ground cannot matter early, card 14: seeded pairs of boards of which the second is retouched late, and pairs
//! typed by hand that break one premise. Every call is compared with the second solver too. Lent lists hold garbage at
//! first, but for the times that a round finds.

use second_solver::board::{Board, Grid};
use second_solver::calls::{Call, Kind, Lengths};
use second_solver::compare::{play_both, Engine, Ledger};
use second_solver::ffi::{engine, engine_records};
use second_solver::generate::{self, garbage, garbage_lists};
use second_solver::late_ground::Premise::{Accepted, Late, LateStored, NoLower, Numbers, Size, Starts, Stored};
use second_solver::late_ground::{broken, differing, failing, is_late, Played, Premise};
use second_solver::march::{march, Front};
use second_solver::random::Random;
use second_solver::rule::{equal, pair, parts};
use second_solver::tiles::{bound_of, ghosts, round, tile_count, up, Tiling};
use second_solver::typed::{board, open_house, row};
use second_solver::{LARGEST, NEVER};
use std::collections::BTreeMap;
use std::ops::Range;

const ENGINES: [Engine; 2] = [engine::play, engine_records::play];

const N: u32 = NEVER;

/// Plays a call; the times hold these at first, sides and work garbage.
fn played(r: &mut Random, engine: Engine, call: Call, found: Vec<u32>, seed: u64) -> Played {
    let lengths = Lengths::of(call.board.size()).longer(r.below(3));
    let (front, work) = garbage_lists(r, lengths);
    let (reply, left) = play_both(engine, &call, &Front { times: found.clone(), ..front }, &work, seed);
    Played { call, found, number: reply.number, left }
}

/// Two boards of which the second is retouched where the first's march to the horizon is late.
struct Pair {
    boards: [Board; 2],
    horizon: u32,
    late_from: u64,
}

/// The pairs. Two thirds are retouched, as a T or a board may leave no cell for it; two fifths have early cells too.
const PAIRS: Range<u64> = 98_000_000..98_052_000;

impl Pair {
    fn drawn(r: &mut Random) -> Pair {
        let first = generate::board(r, 12);
        let horizon = generate::horizon(r, &first);
        let times = march(&Grid::new(&first), horizon).times;
        let late_from = generate::late_from(r, &times, horizon);
        let second = generate::retouched(r, &first, |c| is_late(times[c], late_from));
        Pair { boards: [first, second], horizon, late_from }
    }

    /// Both boards in such a call each, in one of its forms.
    fn played(&self, r: &mut Random, seed: u64, kind: impl Fn(&mut Random, &Board) -> Kind) -> [Played; 2] {
        [&self.boards[0], &self.boards[1]].map(|board| {
            let call = Call { board: board.clone(), kind: kind(r, board) };
            let (engine, found) = (r.pick(&ENGINES), garbage(r, board.size()));
            played(r, engine, call, found, seed)
        })
    }
}

fn order(r: &mut Random, board: &Board, [across, down]: [u32; 2]) -> Vec<u32> {
    generate::order(r, tile_count(board.width, board.height, across, down))
}

/// The premises hold of two calls, and so does the conclusion.
fn assert_promise([first, second]: &[Played; 2], late_from: u64, seed: u64) {
    let told = || format!("seed {}, T {}: {:?}\nand {:?}", seed, late_from, first.call, second.call);
    assert_eq!(broken(first, second, late_from), [], "{}", told());
    assert_eq!(failing(&first.left, &second.left, late_from), [0; 0], "{}", told());
}

/// How often each kind of case was met, and how often it has to be.
#[derive(Default)]
struct Met(BTreeMap<&'static str, (u32, u32)>);

impl Met {
    fn note(&mut self, kind: &'static str, least: u32, is_met: bool) {
        let entry = self.0.entry(kind).or_default();
        *entry = (entry.0 + u32::from(is_met), least);
    }

    fn assert_enough(&self) {
        let enough = !self.0.is_empty() && self.0.values().all(|(met, least)| met >= least);
        assert!(enough, "met, and to be met: {:#?}", self.0);
    }

    /// What a pair has met, with its horizon or bound.
    fn note_pair(&mut self, [first, second]: &[Played; 2], late_from: u64, horizon: u32) {
        let (board, other, before, after) = (&first.call.board, &second.call.board, &first.left, &second.left);
        let retouched = differing(board, other);
        let any = |is_such: &dyn Fn(usize) -> bool| retouched.iter().any(|&c| is_such(c));
        // which numbers of a pair are raised: of a wall neither
        let raised = |c: usize| {
            let ([g, h], [new_g, new_h]) = (parts(board.slow[c]), parts(other.slow[c]));
            [new_g > g, new_h > h]
        };
        let has_early = before.times.iter().any(|&t| !is_late(t, late_from));
        let turned = |c: usize| before.times[c] == after.times[c] && before.sides[c] != after.sides[c];
        self.note("houses", 24_000, board.storeys > 1);
        self.note("unequal numbers", 9_800, board.slow.iter().any(|&s| parts(s)[0] != parts(s)[1]));
        self.note("retouched", 34_000, any(&|_| true));
        self.note("retouched, with early cells", 20_000, any(&|_| has_early));
        self.note("retouched by a wall", 16_500, any(&|c| raised(c) == [false, false]));
        self.note("g alone raised", 6_900, any(&|c| raised(c) == [true, false]));
        self.note("h alone raised", 6_900, any(&|c| raised(c) == [false, true]));
        self.note("both raised", 23_000, any(&|c| raised(c) == [true, true]));
        self.note("a start retouched", 9_000, any(&|c| board.cells.contains(&(c as u32))));
        self.note("what is never retouched", 22_000, any(&|c| before.times[c] == N));
        let moved_at_t = |c: usize| u64::from(before.times[c]) == late_from && after.times[c] != before.times[c];
        self.note("another time at T", 6_500, any(&moved_at_t));
        let is_tick_before = |&t: &u32| t != N && u64::from(t) + 1 == late_from;
        self.note("a time a tick before T", 10_500, before.times.iter().any(is_tick_before));
        self.note("other late times beside early ones", 11_000, has_early && before.times != after.times);
        self.note("other late sides at the same time", 1_300, has_early && (0..board.size()).any(turned));
        self.note("T above the horizon", 13_000, late_from > horizon.into());
        self.note("T above 32 bits", 2_700, late_from > N.into());
        self.note("T is 0", 4_800, late_from == 0);
    }
}

#[test]
fn marches_of_boards_retouched_late_are_the_same_before_t() {
    let mut met = Met::default();
    for seed in PAIRS {
        let mut r = Random::new(seed);
        let pair = Pair::drawn(&mut r);
        let played = pair.played(&mut r, seed, |_, _| Kind::March { horizon: pair.horizon });
        assert_promise(&played, pair.late_from, seed);
        met.note_pair(&played, pair.late_from, pair.horizon);
    }
    met.assert_enough();
}

/// Tiles, stride and order of the two runs are drawn apart, and some stand beside a march.
#[test]
fn tile_runs_of_boards_retouched_late_are_the_same_before_t() {
    let mut met = Met::default();
    for seed in PAIRS {
        let mut r = Random::new(seed);
        let pair = Pair::drawn(&mut r);
        let horizon = pair.horizon;
        let played = pair.played(&mut r, seed, |r, board| {
            if r.once_in(16) {
                return Kind::March { horizon };
            }
            let tile @ [across, down] = generate::tile(r, board);
            let stride = up(horizon, r.within(1, 30)).max(1);
            Kind::Run { across, down, stride, horizon, order: order(r, board, tile) }
        });
        assert_promise(&played, pair.late_from, seed);
        let tiles = |played: &Played| match &played.call.kind {
            Kind::Run { order, .. } => order.len(),
            _ => 1,
        };
        met.note("several tiles on both", 14_500, played.iter().all(|played| tiles(played) > 1));
        let [march, other] = [0, 1].map(|i: usize| matches!(played[i].call.kind, Kind::March { .. }));
        met.note("a march beside a run", 5_500, march != other);
    }
    met.assert_enough();
}

/// Single rounds from all never with the bounds of a tile run: what it holds after each of its rounds. Tiles and stride
/// are the same on both boards, the order is drawn for each round. The pairs are those of the marches, whose test sees
/// that they keep the premises.
#[test]
fn boards_retouched_late_are_the_same_before_t_after_every_round() {
    let mut met = Met::default();
    for seed in PAIRS {
        let mut r = Random::new(seed);
        let Pair { boards, horizon, late_from } = Pair::drawn(&mut r);
        let tile @ [across, down] = generate::tile(&mut r, &boards[0]);
        let stride = up(horizon, r.within(1, 8)).max(1);
        let in_the_end = march(&Grid::new(&boards[0]), horizon).times;
        let mut ledgers = [&boards[0], &boards[1]].map(|board| {
            let (front, _) = garbage_lists(&mut r, Lengths::of(board.size()));
            Ledger::new(&Front { times: vec![N; board.size()], ..front })
        });
        for k in 1.. {
            let bound = bound_of(k, stride, horizon);
            let mut altered = 0;
            for (board, ledger) in boards.iter().zip(&mut ledgers) {
                let kind = Kind::Round { across, down, bound, order: order(&mut r, board, tile) };
                let (engine, work) = (r.pick(&ENGINES), garbage(&mut r, 4 * board.size()));
                let reply = ledger.play(engine, &Call { board: board.clone(), kind }, &work, seed);
                assert_eq!(reply.number, 0, "seed {}: a good round is refused: {:?}", seed, board);
                altered += reply.count;
            }
            let [first, second] = [ledgers[0].front(), ledgers[1].front()];
            let told = || format!("seed {}, round {} of {:?} with T {}", seed, k, boards, late_from);
            assert_eq!(failing(first, second, late_from), [0; 0], "{}", told());
            let is_early = |&t: &u32| !is_late(t, late_from);
            let has_both = first.times.iter().any(is_early) && first.times != second.times;
            let differs_yet = |c: usize| is_early(&in_the_end[c]) && first.times[c] != second.times[c];
            met.note("rounds", 210_000, true);
            met.note("rounds with other late times beside early ones", 52_000, has_both);
            met.note(
                "rounds with other times where it is early in the end",
                600,
                (0..in_the_end.len()).any(differs_yet),
            );
            if altered == 0 && bound == horizon {
                break;
            }
        }
    }
    met.assert_enough();
}

/// Single rounds on stored times that hold anything, the same on both boards.
#[test]
fn single_rounds_on_boards_retouched_late_are_the_same_before_t() {
    let mut met = Met::default();
    for seed in 99_000_000..99_058_000 {
        let mut r = Random::new(seed);
        let first = generate::board(&mut r, 12);
        let (stored, bound) = (generate::stored(&mut r, &first), generate::horizon(&mut r, &first));
        let tile @ [across, down] = generate::tile(&mut r, &first);
        let grid = Grid::new(&first);
        let seen = ghosts(&grid, &stored);
        let left = round(&grid, &Tiling::new(&grid, across, down), bound, &stored).times;
        let among = if r.once_in(3) { &seen } else { &left };
        let late_from = generate::late_from(&mut r, among, bound);
        let is_late_in = |times: &[u32], c: usize| is_late(times[c], late_from);
        let second = generate::retouched(&mut r, &first, |c| is_late_in(&left, c) && is_late_in(&seen, c));
        let retouched = differing(&first, &second);
        let played = [first, second].map(|board| {
            let kind = Kind::Round { across, down, bound, order: order(&mut r, &board, tile) };
            let engine = r.pick(&ENGINES);
            played(&mut r, engine, Call { board, kind }, stored.clone(), seed)
        });
        assert_promise(&played, late_from, seed);
        met.note_pair(&played, late_from, bound);
        let is_walled = |c: usize| played[1].call.board.slow[c] == 0;
        met.note("a stored time walled", 8_500, retouched.iter().any(|&c| seen[c] != N && is_walled(c)));
        let is_at_t = |c: usize| u64::from(seen[c]) == late_from;
        met.note("a stored time at T walled", 2_000, retouched.iter().any(|&c| is_at_t(c) && is_walled(c)));
        let is_past = |&c: &usize| stored[c] > LARGEST && stored[c] != N && u64::from(stored[c]) < late_from;
        met.note("retouched where what is stored counts as never", 420, retouched.iter().any(is_past));
    }
    met.assert_enough();
}

/// The board with another slowness of one cell.
fn with(board: &Board, cell: usize, slowness: u32) -> Board {
    let mut slow = board.slow.clone();
    slow[cell] = slowness;
    Board { slow, ..board.clone() }
}

/// What is typed of two calls: the times that each leaves, the premises that are broken at T, and the cells at which
/// the conclusion fails.
struct Typed<'a> {
    late_from: u64,
    times: [&'a [u32]; 2],
    broken: &'a [Premise],
    failing: &'a [usize],
}

impl Typed<'_> {
    /// Two calls, in both forms, on times that hold these at first.
    fn assert_of(&self, calls: [Call; 2], found: [&[u32]; 2]) {
        for engine in ENGINES {
            let of = |i: usize| played(&mut Random::new(0), engine, calls[i].clone(), found[i].to_vec(), 0);
            let [first, second] = [of(0), of(1)];
            let told = || format!("T {}: {:?}", self.late_from, calls);
            assert_eq!([&first.left.times[..], &second.left.times[..]], self.times, "{}", told());
            assert_eq!(broken(&first, &second, self.late_from), self.broken, "{}", told());
            assert_eq!(failing(&first.left, &second.left, self.late_from), self.failing, "{}", told());
        }
    }

    /// The marches of two boards, each to its horizon, and their runs.
    fn assert_fronts(&self, boards: [&Board; 2], horizons: [u32; 2]) {
        let found = garbage(&mut Random::new(1), boards[0].size());
        let found = [&found[..]; 2];
        let calls = |kind: &dyn Fn(&Board, u32) -> Kind| {
            [0, 1].map(|i: usize| Call { board: boards[i].clone(), kind: kind(boards[i], horizons[i]) })
        };
        self.assert_of(calls(&|_, horizon| Kind::March { horizon }), found);
        for tile in [[1, 1], [2, 1], [1, 2], [256, 256]] {
            for stride in [1, 7, LARGEST] {
                self.assert_of(calls(&|board, horizon| Kind::run(board, tile, stride, horizon)), found);
            }
        }
    }

    /// Rounds of two boards with these tiles and bounds, on these stored times.
    fn assert_rounds(&self, boards: [&Board; 2], tiles: [[u32; 2]; 2], bounds: [u32; 2], stored: [&[u32]; 2]) {
        let call = |i: usize| Call { board: boards[i].clone(), kind: Kind::round(boards[i], tiles[i], bounds[i]) };
        self.assert_of([call(0), call(1)], stored);
    }
}

/// A board, then one cell of it retouched: T, the cell and its slowness, the times, the premises that are broken and
/// the cells at which the conclusion fails.
type Retouch<'a> = (u64, usize, u32, &'a [u32], &'a [Premise], &'a [usize]);

fn assert_retouches(first: &Board, first_times: &[u32], retouches: &[Retouch]) {
    for &(late_from, cell, slowness, times, broken, failing) in retouches {
        let typed = Typed { late_from, times: [first_times, times], broken, failing };
        typed.assert_fronts([first, &with(first, cell, slowness)], [5_000; 2]);
    }
}

/// The three ways in which cells stand in line.
fn lines(length: u32) -> [[u32; 3]; 3] {
    [[length, 1, 1], [1, length, 1], [1, 1, length]]
}

/// A slowness that is lower by one brings its cell before T; one that is lower still brings the cell behind it too, and
/// through it the front comes sooner to a cell that was earlier than T.
#[test]
fn no_slowness_may_be_lower() {
    for sides in lines(4) {
        let even = board(sides, &[10; 4], &[(0, 0)]);
        assert_retouches(
            &even,
            &[0, 10, 20, 30],
            &[
                (20, 2, equal(11), &[0, 10, 21, 31], &[], &[]),
                (20, 2, equal(9), &[0, 10, 19, 29], &[NoLower], &[2]),
                (30, 3, equal(11), &[0, 10, 20, 31], &[], &[]),
                (30, 3, equal(9), &[0, 10, 20, 29], &[NoLower], &[3]),
            ],
        );
    }
    for sides in lines(3) {
        let slow_middle = board(sides, &[10, 20, 10], &[(0, 0)]);
        assert_retouches(
            &slow_middle,
            &[0, 20, 30],
            &[
                (20, 1, equal(21), &[0, 21, 31], &[], &[]),
                (20, 1, equal(19), &[0, 19, 29], &[NoLower], &[1]),
                (20, 1, equal(9), &[0, 9, 19], &[NoLower], &[1, 2]),
            ],
        );
        let two_starts = board(sides, &[10, 30, 10], &[(0, 0), (2, 25)]);
        assert_retouches(
            &two_starts,
            &[0, 30, 25],
            &[(26, 1, equal(31), &[0, 31, 25], &[], &[]), (26, 1, equal(10), &[0, 10, 20], &[NoLower], &[1, 2])],
        );
    }
}

/// One number that is lower is enough, however high the other is. The corner sees both.
#[test]
fn neither_number_of_a_pair_may_be_lower() {
    let pairs = |sides: [u32; 3], slow: &[u32]| Board { slow: slow.to_vec(), ..board(sides, &[], &[(0, 0)]) };
    assert_retouches(
        &pairs([3, 1, 1], &[pair(10, 20); 3]),
        &[0, 10, 20],
        &[
            (10, 1, pair(11, 20), &[0, 11, 21], &[], &[]),
            (10, 1, pair(9, 20), &[0, 9, 19], &[NoLower], &[1]),
            (10, 1, pair(9, 4_095), &[0, 9, 19], &[NoLower], &[1]),
        ],
    );
    assert_retouches(
        &pairs([1, 3, 1], &[pair(10, 20); 3]),
        &[0, 20, 40],
        &[
            (20, 1, pair(10, 21), &[0, 21, 41], &[], &[]),
            (20, 1, pair(10, 19), &[0, 19, 39], &[NoLower], &[1]),
            (20, 1, pair(4_095, 19), &[0, 19, 39], &[NoLower], &[1]),
        ],
    );
    assert_retouches(
        &pairs([2, 2, 1], &[pair(10, 20), pair(10, 20), pair(10, 20), pair(10, 24)]),
        &[0, 10, 20, 28],
        &[
            (28, 3, pair(11, 24), &[0, 10, 20, 28], &[], &[]),
            (28, 3, pair(10, 4_095), &[0, 10, 20, 30], &[], &[]),
            (28, 3, pair(9, 24), &[0, 10, 20, 27], &[NoLower], &[3]),
            (28, 3, pair(10, 23), &[0, 10, 20, 27], &[NoLower], &[3]),
            (28, 3, pair(9, 25), &[0, 10, 20, 27], &[NoLower], &[3]),
        ],
    );
}

/// A wall that is opened, were it by the slowest cell there is, lets the front in before T.
#[test]
fn a_wall_is_highest_of_all() {
    for sides in lines(3) {
        assert_retouches(
            &board(sides, &[10, 0, 10], &[(0, 0)]),
            &[0, N, N],
            &[
                (15, 1, equal(10), &[0, 10, 20], &[NoLower], &[1]),
                (4_096, 1, equal(4_095), &[0, 4_095, 4_105], &[NoLower], &[1]),
                (4_106, 1, equal(4_095), &[0, 4_095, 4_105], &[NoLower], &[1, 2]),
                (4_106, 2, equal(4_095), &[0, N, N], &[], &[]),
                (4_106, 2, 0, &[0, N, N], &[], &[]),
            ],
        );
    }
}

/// A cell that differs a tick before T has another time itself, and with a later T so have those behind it. At T and
/// later it may have: the conclusion says nothing of cells at T.
#[test]
fn what_differs_must_be_late() {
    for sides in lines(3) {
        assert_retouches(
            &board(sides, &[10; 3], &[(0, 0)]),
            &[0, 10, 20],
            &[
                (10, 1, equal(11), &[0, 11, 21], &[], &[]),
                (11, 1, equal(11), &[0, 11, 21], &[Late], &[1]),
                (20, 1, equal(11), &[0, 11, 21], &[Late], &[1]),
                (21, 1, equal(11), &[0, 11, 21], &[Late], &[1, 2]),
                (10, 1, 0, &[0, N, N], &[], &[]),
                (11, 1, 0, &[0, N, N], &[Late], &[1]),
                (21, 1, 0, &[0, N, N], &[Late], &[1, 2]),
                (20, 2, 0, &[0, 10, N], &[], &[]),
                (21, 2, 0, &[0, 10, N], &[Late], &[2]),
                // T above 32 bits: every cell that is reached is earlier
                (1 << 32, 2, equal(11), &[0, 10, 21], &[Late], &[2]),
            ],
        );
    }
    // the last cell is reached on three axes at once, and without two of them from under it
    assert_retouches(
        &open_house(),
        &[0, 10, 10, 18, 10, 18, 18, 24],
        &[
            (18, 5, 0, &[0, 10, 10, 18, 10, N, 18, 26], &[], &[]),
            (19, 5, 0, &[0, 10, 10, 18, 10, N, 18, 26], &[Late], &[5]),
            (25, 5, 0, &[0, 10, 10, 18, 10, N, 18, 26], &[Late], &[5, 7]),
            (24, 7, equal(4_095), &[0, 10, 10, 18, 10, 18, 18, 2_383], &[], &[]),
            (24, 7, equal(8), &[0, 10, 10, 18, 10, 18, 18, 23], &[NoLower], &[7]),
        ],
    );
}

/// A wall under a late start: the second call is refused by 9 and leaves what it found. A wall beside the start is not.
#[test]
fn both_calls_must_be_accepted() {
    let first = row(&[10; 3], &[(0, 0), (2, 15)]);
    let march = |board: Board| Call { board, kind: Kind::March { horizon: 5_000 } };
    let typed = Typed { late_from: 15, times: [&[0, 10, 15], &[7, 8, 9]], broken: &[Accepted], failing: &[0, 1, 2] };
    typed.assert_of([march(first.clone()), march(with(&first, 2, 0))], [&[7, 8, 9]; 2]);
    let longer = row(&[10; 4], &[(0, 0), (2, 15)]);
    assert_retouches(&longer, &[0, 10, 15, 25], &[(25, 3, 0, &[0, 10, 15, N], &[], &[])]);
}

/// A start that is later, new, gone or earlier; and one that is gone at the time of the front, which turns sides alone.
/// One at T may stand on ground that differs.
#[test]
fn starts_must_be_the_same() {
    for sides in lines(3) {
        let with_starts = |starts: &[(u32, u32)]| board(sides, &[10; 3], starts);
        for (starts, other_starts, late_from, times, other_times, failing) in [
            (&[(0, 0)][..], &[(0, 1)][..], 5, [0, 10, 20], [1, 11, 21], 0),
            (&[(0, 0)], &[(0, 0), (2, 5)], 20, [0, 10, 20], [0, 10, 5], 2),
            (&[(0, 0), (2, 5)], &[(0, 0)], 6, [0, 10, 5], [0, 10, 20], 2),
            (&[(0, 0), (2, 15)], &[(0, 0), (2, 14)], 15, [0, 10, 15], [0, 10, 14], 2),
            (&[(0, 0), (1, 10)], &[(0, 0)], 11, [0, 10, 20], [0, 10, 20], 1),
        ] {
            let typed = Typed { late_from, times: [&times, &other_times], broken: &[Starts], failing: &[failing] };
            typed.assert_fronts([&with_starts(starts), &with_starts(other_starts)], [5_000; 2]);
        }
        let late_start = with_starts(&[(0, 0), (2, 15)]);
        assert_retouches(&late_start, &[0, 10, 15], &[(15, 2, equal(4_095), &[0, 10, 15], &[], &[])]);
    }
}

/// Boards that are the same, with horizons beside the last cell's time. A T up to the lower horizon leaves it out.
#[test]
fn horizons_must_be_the_same() {
    let cells = row(&[10; 3], &[(0, 0)]);
    for (horizons, late_from, times, other_times, broken, failing) in [
        ([20, 19], 21, [0, 10, 20], [0, 10, N], &[Numbers][..], &[2][..]),
        ([19, 20], 21, [0, 10, N], [0, 10, 20], &[Numbers], &[2]),
        ([19, 20], 20, [0, 10, N], [0, 10, 20], &[Numbers], &[]),
        ([20, 20], 21, [0, 10, 20], [0, 10, 20], &[], &[]),
        ([19, 19], 21, [0, 10, N], [0, 10, N], &[], &[]),
    ] {
        let typed = Typed { late_from, times: [&times, &other_times], broken, failing };
        typed.assert_fronts([&cells, &cells], horizons);
    }
}

/// Four cells of the same slownesses laid out otherwise; in another line the sides alone are others.
#[test]
fn sizes_must_be_the_same() {
    let first = row(&[10; 4], &[(0, 0)]);
    for (sides, times, broken, failing) in [
        ([2, 2, 1], [0, 10, 10, 18], &[Size][..], &[2][..]),
        ([2, 1, 2], [0, 10, 10, 18], &[Size], &[2]),
        ([1, 4, 1], [0, 10, 20, 30], &[Size], &[1]),
        ([1, 1, 4], [0, 10, 20, 30], &[Size], &[1]),
        ([4, 1, 1], [0, 10, 20, 30], &[], &[]),
    ] {
        let typed = Typed { late_from: 15, times: [&[0, 10, 20, 30], &times], broken, failing };
        typed.assert_fronts([&first, &board(sides, &[10; 4], &[(0, 0)])], [5_000; 2]);
    }
}

/// A ghost becomes a wall, tiles being of one cell: where it is early as stored, its neighbour had an early time from
/// it. What is stored above 300,000,000 counts as never, so it is late for every T.
#[test]
fn in_a_round_what_differs_must_be_late_as_stored() {
    let (cells, walled) = (row(&[10; 2], &[]), row(&[0, 10], &[]));
    for (stored, late_from, times, broken, failing) in [
        (5, 5, [N, 15], &[][..], &[][..]),
        (5, 15, [N, 15], &[LateStored], &[]),
        (5, 16, [N, 15], &[LateStored], &[1]),
        (LARGEST - 10, u64::from(LARGEST - 10), [N, LARGEST], &[], &[]),
        (LARGEST - 10, u64::from(LARGEST) + 1, [N, LARGEST], &[LateStored], &[1]),
        (LARGEST + 1, u64::from(LARGEST) + 2, [N, N], &[], &[]),
        (LARGEST + 1, 1 << 40, [N, N], &[], &[]),
        (N, 1 << 40, [N, N], &[], &[]),
    ] {
        let typed = Typed { late_from, times: [&times, &[N, N]], broken, failing };
        typed.assert_rounds([&cells, &walled], [[1, 1]; 2], [LARGEST; 2], [&[stored, N]; 2]);
    }
}

/// A cell that is late as stored may be early in the round itself.
#[test]
fn in_a_round_what_differs_must_be_late_as_solved() {
    let cells = row(&[10; 2], &[(0, 0)]);
    for (late_from, slowness, other_times, broken, failing) in [
        (10, equal(11), [0, 11], &[][..], &[][..]),
        (11, equal(11), [0, 11], &[Late], &[1]),
        (10, 0, [0, N], &[], &[]),
        (11, 0, [0, N], &[Late], &[1]),
    ] {
        let typed = Typed { late_from, times: [&[0, 10], &other_times], broken, failing };
        typed.assert_rounds([&cells, &with(&cells, 1, slowness)], [[2, 1]; 2], [100; 2], [&[N, N]; 2]);
    }
}

/// Rounds on boards that are the same: other times are stored, or tiles or bounds are others.
#[test]
fn rounds_must_share_stored_times_tiles_and_bounds() {
    let cells = row(&[10; 3], &[(0, 0)]);
    for (tiles, bounds, stored, late_from, times, broken, failing) in [
        ([1, 1], [100, 100], [5, 5], 16, [[0, 15, 15], [0, 15, 15]], &[][..], &[][..]),
        ([1, 1], [100, 100], [5, 6], 16, [[0, 15, 15], [0, 16, 16]], &[Stored], &[1, 2]),
        ([1, 1], [100, 100], [5, N], 16, [[0, 15, 15], [0, N, N]], &[Stored], &[1, 2]),
        ([1, 1], [100, 100], [6, 5], 16, [[0, 16, 16], [0, 15, 15]], &[Stored], &[1, 2]),
        ([1, 3], [100, 100], [5, 5], 11, [[0, 15, 15], [0, 10, 20]], &[Numbers], &[1]),
        ([3, 1], [100, 100], [5, 5], 11, [[0, 10, 20], [0, 15, 15]], &[Numbers], &[1]),
        ([3, 3], [20, 19], [5, 5], 21, [[0, 10, 20], [0, 10, N]], &[Numbers], &[2]),
        ([3, 3], [20, 20], [5, 5], 21, [[0, 10, 20], [0, 10, 20]], &[], &[]),
    ] {
        let typed = Typed { late_from, times: [&times[0], &times[1]], broken, failing };
        // cell 1 sees what is stored left of it, and cell 2 the same
        let stored = stored.map(|time| [time, time, N]);
        typed.assert_rounds([&cells, &cells], tiles.map(|across| [across, 1]), bounds, [&stored[0], &stored[1]]);
    }
}

/// Both fronts reach the middle at 20: its left is named until that one comes later. At T itself sides stay where times
/// do, since sides name cells earlier than the cell.
#[test]
fn a_cell_later_than_t_may_have_other_sides_at_the_same_time() {
    let first = row(&[10; 5], &[(0, 0), (4, 0)]);
    let second = with(&first, 1, equal(11));
    assert_retouches(&first, &[0, 10, 20, 10, 0], &[(10, 1, equal(11), &[0, 11, 20, 10, 0], &[], &[])]);
    for (board, sides) in [(first, [0, 1, 1, 2, 0]), (second, [0, 1, 2, 2, 0])] {
        let march = Call { board, kind: Kind::March { horizon: 5_000 } };
        assert_eq!(played(&mut Random::new(2), ENGINES[0], march, vec![N; 5], 0).left.sides, sides);
    }
}

/// Cell 3 is early in the end. The late ground beside it shows there after round 3, when it is late on both boards.
#[test]
fn on_its_way_a_run_may_hold_other_times_where_it_comes_early_in_the_end() {
    let first = row(&[1, 1, 1, 1, 30, 30], &[(0, 0), (5, 20)]);
    let boards = [first.clone(), with(&first, 4, equal(40))];
    // the least T and the largest: cell 3 is early in the end, cell 4 is late
    for late_from in [4, 33] {
        let times: [&[u32]; 2] = [&[0, 1, 2, 3, 33, 20], &[0, 1, 2, 3, 43, 20]];
        let typed = Typed { late_from, times, broken: &[], failing: &[] };
        typed.assert_fronts([&boards[0], &boards[1]], [100; 2]);
    }
    let mut held = [vec![N; 6], vec![N; 6]];
    for (k, times) in (1..).zip([
        [[0, N, N, N, N, 20], [0, N, N, N, N, 20]],
        [[0, 1, N, N, 50, 20], [0, 1, N, N, 60, 20]],
        [[0, 1, 2, 51, 50, 20], [0, 1, 2, 61, 60, 20]],
        [[0, 1, 2, 3, 50, 20], [0, 1, 2, 3, 60, 20]],
        [[0, 1, 2, 3, 33, 20], [0, 1, 2, 3, 43, 20]],
    ]) {
        let [first, second] = [0, 1].map(|i: usize| {
            let call = Call { board: boards[i].clone(), kind: Kind::round(&boards[i], [1, 1], 100) };
            played(&mut Random::new(3), ENGINES[i], call, held[i].clone(), 0).left
        });
        for late_from in [4, 33] {
            assert_eq!(failing(&first, &second, late_from), [0; 0], "round {}", k);
        }
        held = [first.times, second.times];
        assert_eq!(held, times, "round {}", k);
    }
}
