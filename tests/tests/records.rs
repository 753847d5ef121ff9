//! The calls over start records beside those over plain lists: the same answers, and the same in every lent list.

use second_solver::board::Board;
use second_solver::calls::{Call, Kind, Lengths};
use second_solver::compare::{assert_same, engine_alone, play_both, Tally};
use second_solver::damage::{spoil_call, CALL_CAUSES, WRITER_CAUSES};
use second_solver::drafts::{spoil_byte, Draft, FILE_CAUSES};
use second_solver::ffi::{engine, engine_records, scenario, scenario_records};
use second_solver::generate::{self, garbage, garbage_bytes, garbage_lists};
use second_solver::lent::Lent;
use second_solver::march::Front;
use second_solver::random::Random;
use second_solver::rule::{equal, pair};
use second_solver::scenario::{Held, Scenario};
use second_solver::tiles::tile_count;
use second_solver::{Reply, Start, LARGEST};

/// Plays the call in both forms and answers what both answer.
fn play_in_both_forms(call: &Call, front: &Front, work: &[u32], seed: u64) -> Reply {
    let plain = engine_alone(engine::play, call, front, work);
    let records = engine_alone(engine_records::play, call, front, work);
    let told = || format!("seed {}: {:?}", seed, call);
    assert_eq!(records.0, plain.0, "the answer, {}", told());
    assert_same("times", &records.1.times, &plain.1.times, told);
    assert_same("sides", &records.1.sides, &plain.1.sides, told);
    assert_same("work", &records.2, &plain.2, told);
    plain.0
}

/// A call, good or spoilt; none where its start lists are not as long as each other, which records cannot be.
fn random_call(seed: u64, longest: u32, causes: u32) -> Option<(Call, Front, Vec<u32>)> {
    let mut r = Random::new(seed);
    let board = generate::board(&mut r, longest);
    let mut lengths = Lengths::of(board.size()).longer(r.below(5));
    let mut call = generate::call(&mut r, board);
    for _ in 0..causes {
        let cause = r.pick(&CALL_CAUSES);
        spoil_call(&mut r, &mut call, &mut lengths, cause);
    }
    let (front, work) = garbage_lists(&mut r, lengths);
    Some((call, front, work)).filter(|(call, _, _)| call.board.cells.len() == call.board.begins.len())
}

#[test]
fn good_calls_give_the_same_in_both_forms() {
    for seed in 50_000_000..50_008_000 {
        let (call, front, work) = random_call(seed, 16, 0).expect("a good call");
        assert_eq!(play_in_both_forms(&call, &front, &work, seed).number, 0, "seed {}", seed);
    }
}

#[test]
fn spoilt_calls_give_the_same_in_both_forms() {
    let mut tally = Tally::default();
    for seed in 51_000_000..51_012_000 {
        if let Some((call, front, work)) = random_call(seed, 8, 1 + seed as u32 % 3) {
            tally.note(play_in_both_forms(&call, &front, &work, seed).number);
        }
    }
    tally.assert_each(&CALL_CAUSES, 100);
}

#[test]
fn calls_over_records_are_the_second_solvers() {
    let mut played = 0;
    for seed in 52_000_000..52_003_000 {
        if let Some((call, front, work)) = random_call(seed, 12, seed as u32 % 3) {
            play_both(engine_records::play, &call, &front, &work, seed);
            played += 1;
        }
    }
    assert!(played > 2_000, "{} calls only", played);
}

/// Counts of starts on both sides of the powers of two at which a list of records may be cut.
const COUNTS: [usize; 16] = [0, 1, 2, 63, 64, 65, 127, 128, 129, 255, 256, 257, 511, 512, 513, 1_024];

/// An open board of 32 by 32, or of 16 by 16 in four storeys, with so many starts, anywhere.
fn crowded(r: &mut Random, count: usize) -> Board {
    let (is_flat, apart) = (r.once_in(2), r.once_in(2));
    let (side, storeys, apart) = if is_flat { (32, 1, apart) } else { (16, 4, false) };
    let slow: Vec<u32> = (0..1_024).map(|_| generate::open(r, apart, |r| r.within(1, 400))).collect();
    let mut cells: Vec<u32> = (0..1_024).collect();
    r.shuffle(&mut cells);
    cells.truncate(count);
    cells.sort_unstable();
    let begins = cells.iter().map(|_| r.within(0, 20_000)).collect();
    Board { width: side, height: side, storeys, slow, cells, begins }
}

/// Spoils one start, or two neighbours; a board without starts stays good.
fn spoil_start(r: &mut Random, board: &mut Board) {
    let count = board.cells.len();
    if count == 0 {
        return;
    }
    // the places at which a list may be cut, more often than others
    let at = if r.once_in(2) { COUNTS[r.below(16) as usize].min(count - 1) } else { r.below(count as u32) as usize };
    match r.below(6) {
        0 => board.begins[at] = 1_000_001,
        1 => board.slow[board.cells[at] as usize] = 0,
        2 => board.cells[at] = 1_024,
        3 if at > 0 => board.cells[at] = board.cells[at - 1],
        4 if at > 0 => board.cells.swap(at - 1, at),
        _ => board.cells.swap(0, at),
    }
}

#[test]
fn every_start_of_a_long_list_is_judged_and_used() {
    let (mut refused, mut accepted) = (0, 0);
    for seed in 53_000_000..53_003_200 {
        let mut r = Random::new(seed);
        let mut board = crowded(&mut r, COUNTS[seed as usize % 16]);
        if r.once_in(2) {
            spoil_start(&mut r, &mut board);
        }
        let side = board.width;
        let (across, down) = (generate::tile_side(&mut r, side), generate::tile_side(&mut r, side));
        let order = generate::order(&mut r, tile_count(side, side, across, down));
        let kind = match seed / 16 % 3 {
            0 => Kind::March { horizon: LARGEST },
            1 => Kind::Round { across, down, bound: 30_000, order },
            _ => Kind::Run { across, down, stride: 500, horizon: 30_000, order },
        };
        let (front, work) = garbage_lists(&mut r, Lengths::of(1_024).longer(4));
        let number = play_in_both_forms(&Call { board, kind }, &front, &work, seed).number;
        refused += u32::from(number != 0);
        accepted += u32::from(number == 0);
    }
    assert!(refused > 1_000 && accepted > 1_000, "{} refused, {} accepted", refused, accepted);
}

/// As many starts as there are cells on the largest boards.
#[test]
fn a_start_in_every_cell_of_the_largest_boards_gives_the_same() {
    for (width, height, storeys) in [(256, 256, 1), (128, 64, 8)] {
        let cells: Vec<u32> = (0..65_536).collect();
        let begins = cells.iter().map(|c| c * 40_503 % 1_000_001).collect();
        let board = Board { width, height, storeys, slow: vec![equal(10); 65_536], cells, begins };
        let order = (0..tile_count(width, height, 8, 8)).collect();
        let run = Kind::Run { across: 8, down: 8, stride: 65_536, horizon: LARGEST, order };
        let mut late = board.clone();
        late.begins[65_535] = 1_000_001;
        for (board, want) in [(board, 0), (late, 8)] {
            for kind in [Kind::March { horizon: LARGEST }, run.clone()] {
                let call = Call { board: board.clone(), kind };
                let (front, work) = Lengths::of(65_536).filled();
                assert_eq!(play_in_both_forms(&call, &front, &work, 0).number, want);
            }
        }
    }
}

/// Reads the file in both forms into lists of these lengths, and answers what both answer.
fn read_in_both_forms(file: &[u8], slow_len: usize, starts_len: usize, seed: u64) -> Scenario {
    let mut r = Random::new(seed ^ 1);
    let (slow, cells, begins) = (garbage(&mut r, slow_len), garbage(&mut r, starts_len), garbage(&mut r, starts_len));
    let starts: Vec<Start> = cells.iter().zip(&begins).map(|(&cell, &time)| Start { cell, time }).collect();
    let (mut plain_slow, mut record_slow) = (Lent::new(&slow), Lent::new(&slow));
    let (mut lent_cells, mut lent_begins, mut lent_starts) =
        (Lent::new(&cells), Lent::new(&begins), Lent::new(&starts));
    let plain = scenario::read(file, plain_slow.lend(), lent_cells.lend(), lent_begins.lend());
    let records = scenario_records::read(file, record_slow.lend(), lent_starts.lend());
    let told = || format!("seed {}: {:?}", seed, file);
    assert_eq!(records, plain, "the answer, {}", told());
    assert_same("slow", record_slow.back(), plain_slow.back(), told);
    let plain_starts: Vec<Start> =
        lent_cells.back().iter().zip(lent_begins.back()).map(|(&cell, &time)| Start { cell, time }).collect();
    assert_same("starts", lent_starts.back(), &plain_starts, told);
    plain
}

/// A scenario on a board with few starts or many.
fn random_scenario(r: &mut Random) -> Held {
    let board = if r.once_in(3) {
        let count = r.pick(&COUNTS);
        crowded(r, count)
    } else {
        generate::board(r, 16)
    };
    generate::scenario(r, board)
}

/// What a list needs, one less, and a few more.
fn about(r: &mut Random, need: usize) -> usize {
    match r.below(8) {
        0 => need.saturating_sub(1),
        1 => r.below(need as u32 + 1) as usize,
        _ => need + r.below(4) as usize,
    }
}

#[test]
fn files_are_read_the_same_in_both_forms() {
    let mut tally = Tally::default();
    for seed in 54_000_000..54_012_000 {
        let mut r = Random::new(seed);
        let held = random_scenario(&mut r);
        let (size, starts) = (held.board.size(), held.board.cells.len());
        let mut draft = Draft::of(&held);
        for _ in 0..r.below(3) {
            let cause = r.pick(&FILE_CAUSES);
            draft.spoil(&mut r, cause);
        }
        let mut file = draft.bytes();
        if r.once_in(6) {
            spoil_byte(&mut r, &mut file);
        }
        let (slow_len, starts_len) = (about(&mut r, size), about(&mut r, starts));
        tally.note(read_in_both_forms(&file, slow_len, starts_len, seed).number);
    }
    tally.assert_each(&[&FILE_CAUSES[..], &[14]].concat(), 100);
}

#[test]
fn files_are_written_the_same_in_both_forms() {
    let mut tally = Tally::default();
    for seed in 55_000_000..55_008_000 {
        let mut r = Random::new(seed);
        let Held { mut ticks, mut ground, mut board } = random_scenario(&mut r);
        let need = second_solver::scenario::file_of(&board, ticks, ground).len();
        match r.below(16) {
            0 => ticks = r.pick(&[0, 65_536]),
            1 => ground = r.pick(&[pair(4_096, 1), pair(1, 4_096)]),
            2 => board.width = r.pick(&[0, 257]),
            3 => board.slow.push(equal(1)),
            4 => board.slow[0] = r.pick(&[pair(4_096, 1), pair(1, 4_096)]),
            9 => ground = r.pick(&[pair(1, 0), pair(0, 1)]),
            10 => board.slow[0] = r.pick(&[pair(1, 0), pair(0, 1)]),
            11 if board.storeys > 1 => board.slow[0] = pair(1, 2),
            12 if board.storeys > 1 => ground = pair(2, 1),
            11 | 12 => {
                board.slow = board.slow.repeat(9);
                board.storeys = 9;
            }
            5 => {
                board.cells.push(board.slow.len() as u32);
                board.begins.push(0);
            }
            6 if !board.cells.is_empty() => board.begins[0] = 1_000_001,
            7 if !board.cells.is_empty() => board.slow[board.cells[0] as usize] = 0,
            8 if !board.cells.is_empty() => {
                board.cells.push(board.cells[0]);
                board.begins.push(0);
            }
            _ => {}
        }
        let length = about(&mut r, need);
        let out = garbage_bytes(&mut r, length);
        let (mut plain, mut records) = (Lent::new(&out), Lent::new(&out));
        let want = scenario::write(&board, ticks, ground, plain.lend());
        let got = scenario_records::write(&board, ticks, ground, records.lend());
        let told = || format!("seed {}: {:?}", seed, board);
        assert_eq!(got, want, "the answer, {}", told());
        assert_same("out", records.back(), plain.back(), told);
        tally.note(want.number);
    }
    tally.assert_each(&WRITER_CAUSES, 100);
}
