//! The writer of scenario files beside the second solver's: seeded boards of every shape, whole and
//! damaged in every way that the table names, and a file typed by hand.

use second_solver::board::Board;
use second_solver::compare::{read_both, write_both, Lists, Tally};
use second_solver::damage::{spoil_writing, UNEQUAL, WRITER_CAUSES};
use second_solver::ffi::scenario::{read, write};
use second_solver::generate::{self, scenarios_of_extreme_sides};
use second_solver::random::Random;
use second_solver::rule::{equal, pair, parts};
use second_solver::scenario::{file_of, Held, Scenario};
use second_solver::typed::{self, FILE, HOUSE};
use second_solver::{Cause, Reply, NEVER};

fn bytes(r: &mut Random, length: usize) -> Vec<u8> {
    (0..length).map(|_| r.any() as u8).collect()
}

/// Writes the scenario and reads its file: the same board.
fn write_and_read(r: &mut Random, held: &Held, out: usize, seed: u64) -> Reply {
    let (reply, file) = write_both(write, held, &bytes(r, out), seed);
    if reply.number == 0 {
        let board = &held.board;
        let starts = board.cells.len();
        let lists = Lists { slow: vec![1; board.size()], cells: vec![2; starts], begins: vec![3; starts] };
        let (answer, after) = read_both(read, &file[..reply.count as usize], &lists, seed);
        let ([width, height, storeys], starts) = (board.sides(), starts as u32);
        let (ticks, ground) = (held.ticks, held.ground);
        let want = Scenario { number: 0, width, height, storeys, ticks, ground, starts, place: 0 };
        assert_eq!(answer, want, "seed {}", seed);
        let same = after.slow == board.slow && after.cells == board.cells && after.begins == board.begins;
        assert!(same, "seed {}: the board that is read is another", seed);
    }
    reply
}

/// The scenario as it is, into lists that are too short, just long enough and longer, and with each
/// cause and each pair of the seed's cause with another.
fn try_whole_and_damaged(r: &mut Random, held: &Held, tally: &mut Tally, seed: u64) {
    let length = file_of(&held.board, held.ticks, held.ground).len();
    let longer = length + r.within(1, 20) as usize;
    for (out, want) in [(length - 1, 14), (length, 0), (longer, 0)] {
        let reply = write_and_read(r, held, out, seed);
        assert_eq!(reply.number, want, "seed {}: {} bytes lent for {}", seed, out, length);
        tally.note(reply.number);
    }
    let of_seed = WRITER_CAUSES[seed as usize % WRITER_CAUSES.len()];
    let alone = WRITER_CAUSES.map(|cause| vec![cause]);
    let pairs = WRITER_CAUSES.map(|cause| vec![of_seed, cause]);
    for causes in alone.into_iter().chain(pairs) {
        let (mut damaged, mut out) = (held.clone(), r.pick(&[length, longer]));
        for cause in causes {
            spoil_writing(r, &mut damaged, &mut out, cause);
        }
        tally.note(write_and_read(r, &damaged, out, seed).number);
    }
}

#[test]
fn seeded_boards_are_written_as_the_second_solver_writes_them() {
    let mut tally = Tally::default();
    for seed in 80_000_000..80_008_000 {
        let mut r = Random::new(seed);
        let held = generate::small_scenario(&mut r);
        try_whole_and_damaged(&mut r, &held, &mut tally, seed);
    }
    assert!(tally.calls() >= 150_000, "{} calls only", tally.calls());
    tally.assert_each(&WRITER_CAUSES, 5_000);
}

#[test]
fn the_shortest_and_the_longest_sides_are_written_in_every_lay() {
    let mut tally = Tally::default();
    scenarios_of_extreme_sides(81_000_000, |r, held, seed| try_whole_and_damaged(r, held, &mut tally, seed));
    tally.assert_each(&WRITER_CAUSES, 100);
}

/// Whole, and wrong in its last entries.
#[test]
fn the_longest_file_is_written_to_its_end() {
    let number = |change: &dyn Fn(&mut Board), out: usize| {
        let mut held = generate::longest_scenario();
        change(&mut held.board);
        write_and_read(&mut Random::new(82_000_000), &held, out, 0).number
    };
    let length = 20 + 20 * 65_536;
    assert_eq!(number(&|b| b.slow[65_535] = pair(4_096, 1), length), 5);
    assert_eq!(number(&|b| b.slow[65_535] = pair(1, 4_096), length), 5);
    assert_eq!(number(&|b| b.slow[65_535] = pair(1, 0), length), 21);
    assert_eq!(number(&|b| b.slow[65_535] = pair(0, 1), length), 21);
    assert_eq!(number(&|b| b.storeys = 2, length), 4);
    let as_a_house = |b: &mut Board| {
        (b.width, b.height, b.storeys) = (128, 64, 8);
        b.slow.iter_mut().for_each(|s| *s = equal(parts(*s)[0]));
    };
    assert_eq!(number(&|b| as_a_house(b), length), 0);
    let with_one_unequal = |b: &mut Board| {
        as_a_house(b);
        b.slow[65_535] = pair(1, 2);
    };
    assert_eq!(number(&|b| with_one_unequal(b), length), 23);
    assert_eq!(number(&|b| b.cells[65_535] = 65_536, length), 7);
    assert_eq!(number(&|b| b.cells[65_535] = 65_534, length), 18);
    assert_eq!(number(&|b| b.begins[65_535] = 1_000_001, length), 8);
    assert_eq!(number(&|b| b.slow[65_535] = 0, length), 9);
    assert_eq!([number(&|_| (), length - 1), number(&|_| (), length)], [14, 0]);
}

#[test]
fn the_files_typed_by_hand_are_written() {
    let (reply, out) = write_both(write, &typed::held(), &[0xEE; 68], 0);
    assert_eq!((reply, &out[..60], &out[60..]), (Reply::accepted(60), &FILE[..], &[0xEE; 8][..]));
    let mut late = typed::held();
    late.board.begins[1] = 1_000_001;
    assert_eq!(write_both(write, &late, &[0xEE; 68], 0), (Reply::refused(8), vec![0xEE; 68]));
    let (reply, out) = write_both(write, &typed::house(), &[0xEE; 50], 0);
    assert_eq!((reply, &out[..48], &out[48..]), (Reply::accepted(48), &HOUSE[..], &[0xEE; 2][..]));
}

#[test]
fn a_list_of_every_length_is_written_or_refused_by_14() {
    for length in 0..=68 {
        let want = if length < 60 { Reply::refused(14) } else { Reply::accepted(60) };
        assert_eq!(write_both(write, &typed::held(), &vec![0xEE; length], 0).0, want, "{} bytes", length);
    }
}

/// All causes at once; each is taken away in turn.
#[test]
fn of_all_causes_the_first_in_order_is_given() {
    let good = typed::held();
    let board = Board { width: 257, storeys: 2, ..good.board.clone() };
    let mut held = Held { ticks: 65_536, ground: equal(4_096), board };
    held.board.cells = vec![5, 12];
    held.board.begins[1] = 1_000_001;
    let (off, not_rising) = (Cause { number: 7, place: 1 }, Cause { number: 18, place: 1 });
    type Repair = fn(&mut Held, &Held);
    let repairs: [(Cause, Repair); 11] = [
        (2.into(), |held, good| held.board.width = good.board.width),
        (3.into(), |held, good| held.ticks = good.ticks),
        (4.into(), |held, good| held.board.slow = [&good.board.slow[..5], &[pair(10, 0); 7]].concat()),
        (5.into(), |held, good| held.ground = good.ground),
        (21.into(), |held, good| held.board.slow = good.board.slow.repeat(2)),
        // the ground is unequal, and two cells are
        (23.into(), |held, _| held.board.slow.iter_mut().for_each(|s| *s = equal(parts(*s)[1]))),
        (23.into(), |held, _| held.ground = equal(20)),
        (off, |held, _| held.board.cells[1] = 2), // a wall
        (not_rising, |held, good| held.board.cells[0] = good.board.cells[0]),
        (8.into(), |held, good| held.board.begins[1] = good.board.begins[1]),
        (9.into(), |held, good| held.board.cells[1] = good.board.cells[1]),
    ];
    for (cause, repair) in repairs {
        assert_eq!(write_both(write, &held, &[0; 83], 0).0, Reply::refused(cause));
        repair(&mut held, &good);
    }
    // walls and a cell of slowness 1, in each of two storeys
    assert_eq!(write_both(write, &held, &[0; 83], 0).0, Reply::refused(14));
    assert_eq!(write_both(write, &held, &[0; 84], 0).0, Reply::accepted(84));
}

/// 23 looks at the ground too, also where no cell has its pair, and at the list after 21 has; 4 comes before it.
#[test]
fn a_house_is_written_with_equal_pairs_alone() {
    let number = |change: &dyn Fn(&mut Held)| {
        let mut held = typed::house();
        change(&mut held);
        write_both(write, &held, &[0; 200], 0).0.number
    };
    assert_eq!(number(&|_| ()), 0);
    for unequal in UNEQUAL {
        assert_eq!(number(&|held| held.ground = unequal), 23, "ground {}", unequal);
        for at in [0, 3, 4, 7] {
            assert_eq!(number(&|held| held.board.slow[at] = unequal), 23, "{} at {}", unequal, at);
        }
        let with_more = |half: u32, cell: u32| {
            number(&|held| {
                held.ground = unequal;
                held.board.slow[7] = half;
                held.board.cells[1] = cell;
            })
        };
        assert_eq!([with_more(pair(10, 0), 8), with_more(equal(10), 8), with_more(pair(0, 4_096), 8)], [21, 23, 5]);
        // the same board as one storey
        let flat = |held: &mut Held| {
            held.board.storeys = 1;
            held.board.height = 4;
            held.ground = unequal;
        };
        assert_eq!(number(&|held| flat(held)), 0, "ground {}", unequal);
    }
    for (storeys, length, want) in [(0, 0, 23), (0, 8, 4), (1, 8, 4), (1, 4, 7), (9, 36, 23), (9, 8, 4), (NEVER, 8, 4)]
    {
        let of_storeys = |held: &mut Held| {
            held.board.storeys = storeys;
            held.board.slow = vec![equal(10); length];
        };
        assert_eq!(number(&|held| of_storeys(held)), want, "{} storeys, {} entries", storeys, length);
    }
    for (width, height, storeys) in [(145, 113, 4), (256, 129, 2), (256, 256, 2)] {
        let large = |held: &mut Held| {
            (held.board.width, held.board.height, held.board.storeys) = (width, height, storeys);
            held.board.slow = vec![equal(10); held.board.size()];
        };
        assert_eq!(number(&|held| large(held)), 23, "{} × {} × {}", width, height, storeys);
    }
}

/// 5 looks at the ground and at the whole list before 21 looks at either, and 21 is looked for before 7.
#[test]
fn in_ground_and_list_5_is_looked_for_before_21() {
    for half in [pair(10, 0), pair(0, 10)] {
        for slow in [pair(4_096, 10), pair(10, 4_096), pair(4_096, 0), pair(0, 4_096), NEVER] {
            // the ground's place, and three of the list
            for (half_at, slow_at) in
                [(None, Some(0)), (None, Some(5)), (Some(0), None), (Some(0), Some(5)), (Some(5), Some(0))]
            {
                let mut held = typed::held();
                held.board.cells[1] = 6;
                let mut put = |at: Option<usize>, s: u32| {
                    *at.map_or(&mut held.ground, |at| &mut held.board.slow[at]) = s;
                    write_both(write, &held, &[0; 90], 0).0.number
                };
                assert_eq!([put(half_at, half), put(slow_at, slow)], [21, 5], "{:?} {:?}", half_at, slow_at);
            }
        }
    }
}

#[test]
fn each_limit_passes_and_one_beyond_it_does_not() {
    let number = |change: &dyn Fn(&mut Held)| {
        let mut held = typed::held();
        change(&mut held);
        write_both(write, &held, &[0; 90], 0).0.number
    };
    for (ticks, want) in [(0, 3), (1, 0), (65_535, 0), (65_536, 3), (65_546, 3), (NEVER, 3)] {
        assert_eq!(number(&|held| held.ticks = ticks), want, "{} ticks", ticks);
    }
    for (slowness, want) in typed::SLOWNESSES {
        assert_eq!(number(&|held| held.ground = slowness), want, "ground {}", slowness);
        assert_eq!(number(&|held| held.board.slow[4] = slowness), want, "slowness {}", slowness);
    }
    for (cell, want) in [(0, 18), (2, 9), (3, 0), (5, 0), (6, 7), (65_541, 7), (NEVER, 7)] {
        assert_eq!(number(&|held| held.board.cells[1] = cell), want, "start cell {}", cell);
    }
    for (side, want) in [(3, 0), (0, 2), (257, 2), (65_539, 2), (NEVER, 2)] {
        assert_eq!(number(&|held| held.board.width = side), want, "width {}", side);
    }
    assert_eq!(number(&|held| held.board.cells.truncate(1)), 4);
    assert_eq!(number(&|held| held.board.begins.push(0)), 4);
    assert_eq!(number(&|held| held.board.slow.push(equal(10))), 4);
}
