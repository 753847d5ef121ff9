//! The tablet's call beside the second solver, on seeded files, damaged ones among them.

use second_solver::board::Board;
use second_solver::compare::{tablet_both, Tally};
use second_solver::drafts::{spoil_byte, Draft};
use second_solver::ffi::tablet::tablet_run;
use second_solver::generate;
use second_solver::random::Random;
use second_solver::rule::{equal, pair};
use second_solver::scenario::{file_of, Held};
use second_solver::shown::{SHOWN_CELLS, SHOWN_FILE, SHOWN_HORIZON, SHOWN_SIDE};
use second_solver::typed::{HOUSE, HOUSE_TIMES};
use second_solver::{LARGEST, NEVER};

/// What is handed to the tablet's call.
struct Handed {
    file: Vec<u8>,
    stride: u32,
    across: u32,
    down: u32,
    out: Vec<u8>,
}

impl Handed {
    /// Plays it on the library and on the second solver; answers what both answer.
    fn play(&self, seed: u64) -> u64 {
        tablet_both(tablet_run, &self.file, self.stride, [self.across, self.down], &self.out, seed).0
    }
}

/// The numbers that the call can be refused by, in the order in which they are looked for.
const CAUSES: [u32; 15] = [1, 2, 15, 3, 5, 21, 23, 6, 7, 18, 8, 9, 10, 11, 14];

/// A good file and good numbers, with all of these causes where it can have them.
fn handed(r: &mut Random, longest: u32, causes: &[u32]) -> Handed {
    let board = generate::board_within(r, longest, SHOWN_CELLS);
    let (width, height, size) = (board.width, board.height, board.size());
    let mut draft = Draft::of(&generate::scenario(r, board));
    let mut stride = generate::stride(r, size, SHOWN_HORIZON);
    let (mut across, mut down) = (generate::tile_side(r, width), generate::tile_side(r, height));
    let mut out = 4 * size + r.below(9) as usize;
    for &cause in causes {
        match cause {
            10 => stride = r.pick(&[0, LARGEST + 1, NEVER]),
            11 if r.once_in(2) => across = r.pick(&[0, 257, NEVER]),
            11 => down = r.pick(&[0, 257, 1 << 31]),
            14 => out = r.pick(&[0, 1, 4 * size - 4, 4 * size - 1]),
            _ => draft.spoil(r, cause),
        }
    }
    let out = (0..out).map(|_| r.any() as u8).collect();
    Handed { file: draft.bytes(), stride, across, down, out }
}

#[test]
fn good_files_are_run_as_the_second_solver_runs_them() {
    for seed in 60_000_000..60_004_000 {
        let mut r = Random::new(seed);
        let longest = if r.once_in(8) { SHOWN_SIDE } else { 12 };
        let answer = handed(&mut r, longest, &[]).play(seed);
        assert!(answer >= 256 && answer % 256 == 0, "seed {}: {}", seed, answer);
    }
}

#[test]
fn every_cause_is_refused_by_its_number() {
    let mut tally = Tally::default();
    for seed in 61_000_000..61_009_000 {
        let mut r = Random::new(seed);
        // every sixteenth is good
        let cause = CAUSES.get(seed as usize % 16);
        let answer = handed(&mut r, 8, cause.map_or(&[], std::slice::from_ref)).play(seed);
        tally.note(if answer < 256 { answer as u32 } else { 0 });
    }
    tally.assert_each(&CAUSES, 200);
}

/// Not every file takes every damage, and one may undo another: the first number is given for many, not for all.
#[test]
fn of_several_causes_the_first_in_order_is_given() {
    let mut seed = 62_000_000;
    for (i, first) in CAUSES.into_iter().enumerate() {
        for later in &CAUSES[i + 1..] {
            let mut given = 0;
            for _ in 0..80 {
                let mut r = Random::new(seed);
                let mut causes = vec![first, *later, r.pick(&CAUSES[i + 1..])];
                causes.truncate(r.within(2, 3) as usize);
                r.shuffle(&mut causes);
                given += u32::from(handed(&mut r, 8, &causes).play(seed) == u64::from(first));
                seed += 1;
            }
            assert!(given > 20, "{} and {}: the first in {} of 80", first, later, given);
        }
    }
}

#[test]
fn any_byte_may_be_damaged() {
    let mut refused = 0;
    for seed in 63_000_000..63_005_000 {
        let mut r = Random::new(seed);
        let mut handed = handed(&mut r, 8, &[]);
        for _ in 0..r.within(1, 3) {
            spoil_byte(&mut r, &mut handed.file);
        }
        refused += u32::from(handed.play(seed) < 256);
    }
    assert!(refused > 1_000, "{} refused", refused);
}

fn even_house(width: u32, height: u32, storeys: u32) -> Held {
    let slow = vec![equal(10); (width * height * storeys) as usize];
    let board = Board { width, height, storeys, slow, cells: vec![0], begins: vec![0] };
    Held { ticks: 10, ground: equal(10), board }
}

fn even(width: u32, height: u32) -> Held {
    even_house(width, height, 1)
}

fn bytes(held: &Held) -> Vec<u8> {
    file_of(&held.board, held.ticks, held.ground)
}

fn answer(file: Vec<u8>, out: usize) -> u64 {
    Handed { file, stride: 65_536, across: 8, down: 8, out: vec![0xEE; out] }.play(0)
}

fn times_in(out: &[u8]) -> Vec<u32> {
    out.chunks(4).map(|four| u32::from_le_bytes([four[0], four[1], four[2], four[3]])).collect()
}

#[test]
fn the_three_by_three_board_is_answered_in_bytes() {
    let mut out = [0xEE; 40];
    assert_eq!(tablet_run(&bytes(&even(3, 3)), 65_536, 8, 8, &mut out), 92 * 256);
    assert_eq!(times_in(&out), [0, 10, 20, 10, 18, 26, 20, 26, 34, 0xEEEE_EEEE]);
}

/// Storey by storey, whatever the tiles, which span them.
#[test]
fn a_house_is_answered_in_bytes() {
    for side in [1, 2, 8] {
        let mut out = [0xEE; 36];
        assert_eq!(tablet_run(&HOUSE, 65_536, side, side, &mut out), 92 * 256);
        assert_eq!(times_in(&out), [&HOUSE_TIMES[..], &[0xEEEE_EEEE]].concat());
    }
}

/// Furrows along the rows; the times are worked by hand.
#[test]
fn a_ploughed_board_is_answered_in_bytes() {
    let (mut held, mut out) = (even(3, 3), [0xEE; 36]);
    held.board.slow.fill(pair(10, 20));
    assert_eq!(tablet_run(&bytes(&held), 65_536, 8, 8, &mut out), 92 * 256);
    assert_eq!(times_in(&out), [0, 10, 20, 20, 26, 34, 40, 45, 51]);
}

/// 5 beats 21 wherever they stand, and 21 beats 7.
#[test]
fn a_pair_at_fault_is_refused_by_its_number() {
    let number = |changes: &[(usize, u32)], ground: u32| {
        let mut held = even(3, 3);
        held.board.cells[0] = 9;
        held.ground = ground;
        changes.iter().for_each(|&(at, slowness)| held.board.slow[at] = slowness);
        answer(bytes(&held), 36)
    };
    for half in [pair(10, 0), pair(0, 10)] {
        assert_eq!([number(&[(8, half)], equal(10)), number(&[], half)], [21; 2]);
        for slow in [pair(4_096, 10), pair(10, 4_096), pair(4_096, 0), pair(0, 65_535)] {
            let both_ways = [number(&[(0, half), (8, slow)], equal(10)), number(&[(0, slow), (8, half)], equal(10))];
            assert_eq!(both_ways, [5; 2], "{} and {}", half, slow);
            assert_eq!([number(&[(8, slow)], half), number(&[(8, half)], slow)], [5; 2], "{} and {}", half, slow);
        }
    }
}

#[test]
fn sides_of_32_pass_and_15_comes_directly_after_2() {
    for (width, height, want) in [(32, 32, 92), (1, 32, 92), (32, 1, 92), (33, 1, 15), (1, 33, 15), (256, 256, 15)] {
        let given = answer(bytes(&even(width, height)), 4_096);
        assert_eq!(if given < 256 { given } else { given / 256 }, want, "{} by {}", width, height);
    }
    let mut wide = even(33, 2);
    wide.ticks = 0;
    assert_eq!(answer(bytes(&wide), 0), 15);
    let mut file = bytes(&wide);
    file[2] = 0;
    assert_eq!(answer(file.clone(), 0), 2);
    file.push(0);
    assert_eq!(answer(file, 0), 1);
}

/// What the call answers to an even house with these storeys in its file: rounds, or a number.
fn of_storeys(width: u32, height: u32, storeys: u16) -> u64 {
    let mut file = bytes(&even(width, height));
    file[4..6].copy_from_slice(&storeys.to_le_bytes());
    let given = answer(file, 4_096);
    if given < 256 {
        given
    } else {
        given / 256
    }
}

/// N is worked out with the storeys that the file states, good or not, and 15 for it comes directly after 2.
#[test]
fn houses_of_1024_cells_pass_and_15_is_judged_before_the_storeys_are() {
    for (width, height, storeys) in
        [(32, 32, 1), (16, 16, 4), (8, 16, 8), (16, 8, 8), (32, 16, 2), (32, 4, 8), (1, 1, 8)]
    {
        assert_eq!(of_storeys(width, height, storeys), 92, "{} × {} × {}", width, height, storeys);
    }
    for (width, height, storeys) in [(32, 32, 2), (16, 16, 5), (8, 16, 9), (32, 33, 1), (13, 13, 7), (32, 32, 9)] {
        assert_eq!(of_storeys(width, height, storeys), 15, "{} × {} × {}", width, height, storeys);
    }
    for (width, height, storeys) in [(32, 32, 65_535), (1, 1, 1_025), (1, 1, 65_535), (1, 4, 257), (33, 1, 0)] {
        assert_eq!(of_storeys(width, height, storeys), 15, "{} × {} × {}", width, height, storeys);
    }
    for (width, height, storeys) in
        [(3, 3, 9), (3, 3, 0), (32, 32, 0), (1, 1, 9), (1, 1, 1_024), (4, 4, 64), (10, 11, 9)]
    {
        assert_eq!(of_storeys(width, height, storeys), 23, "{} × {} × {}", width, height, storeys);
    }
    for (width, height, storeys) in [(0, 32, 65_535), (257, 1, 9), (32, 0, 0)] {
        assert_eq!(of_storeys(width, height, storeys), 2, "{} × {} × {}", width, height, storeys);
    }
}

/// 3, 5 and 21 are looked for before 23, and 6 and 7 after it; 15 for the storeys before all of them.
#[test]
fn storeys_at_fault_are_refused_by_23_between_21_and_6() {
    let slow = [10, 20, 10, 10, 10, 10, 10, 10].map(equal).to_vec();
    let mut held = even_house(2, 2, 2);
    held.board = Board { slow, cells: vec![8], ..held.board };
    let good = bytes(&held);
    // the run's length at 24, its pair at 28
    for (storeys, own) in [(2, 7), (0, 23), (9, 23)] {
        let with = |changes: &[(usize, u8)]| {
            let mut file = good.clone();
            file[4] = storeys;
            changes.iter().for_each(|&(at, byte)| file[at] = byte);
            answer(file, 36)
        };
        assert_eq!(with(&[]), own, "{} storeys", storeys);
        assert_eq!([with(&[(6, 0)]), with(&[(9, 0x10)]), with(&[(28, 0)])], [3, 5, 21], "{} storeys", storeys);
        assert_eq!([with(&[(28, 21)]), with(&[(24, 0), (10, 11)])], [23; 2], "{} storeys", storeys);
        assert_eq!([with(&[(5, 2), (6, 0)]), with(&[(5, 2), (28, 21)])], [15; 2], "{} storeys", storeys);
    }
}

/// A file longer than `rings` takes has no cause of its own here: what is wrong with it is said.
#[test]
fn a_long_file_is_refused_for_what_is_wrong_with_it() {
    let mut held = even(32, 32);
    held.board.cells = vec![0; 5_000];
    held.board.begins = vec![0; 5_000];
    assert_eq!(answer(bytes(&held), 4_096), 18);
    // 7 beats 18, though its start comes last
    held.board.cells[4_999] = 1_024;
    assert_eq!(answer(bytes(&held), 4_096), 7);
}

/// The bare number below 256: a place beside it, as the other calls answer it, would make it a count of rounds.
#[test]
fn a_start_at_fault_is_refused_by_the_number_alone() {
    for (cells, want) in [(vec![0, 9], 7), (vec![8, 0], 18), (vec![3, 3, 9], 7), (vec![0, 1, 2, 2, 5], 18)] {
        let mut held = even(3, 3);
        held.board.begins = vec![0; cells.len()];
        held.board.cells = cells;
        assert_eq!(answer(bytes(&held), 36), want, "{:?}", held.board.cells);
    }
}

/// The most rounds that there are, and the largest files that are accepted.
#[test]
fn a_stride_of_1_and_the_largest_files_are_run() {
    for mut held in [even(32, 32), even_house(16, 8, 8)] {
        let is_flat = held.board.storeys == 1;
        held.board.slow =
            (0..1_024).map(|c| pair(4_094 + c % 2, if is_flat { 4_095 } else { 4_094 + c % 2 })).collect();
        held.board.cells = (0..1_024).collect();
        held.board.begins = (0..1_024).map(|c| c * 977 % 1_000_001).collect();
        let file = bytes(&held);
        assert_eq!(file.len(), SHOWN_FILE);
        for side in [1, 8, 256] {
            let handed = Handed { file: file.clone(), stride: 1, across: side, down: side, out: vec![0xEE; 4_097] };
            assert!(handed.play(0) >= 256 * 6_000_000);
        }
    }
}
