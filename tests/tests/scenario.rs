//! The reader of scenario files beside the second solver's: seeded files of every shape, whole and
//! damaged in every way that the table names, and files typed by hand.

use second_solver::board::{size_of, Board};
use second_solver::compare::{read_both, write_both, Lists, Tally};
use second_solver::drafts::{spoil_byte, Draft, FILE_CAUSES};
use second_solver::ffi::scenario::{read, write};
use second_solver::generate::{self, garbage, scenarios_of_extreme_sides};
use second_solver::random::Random;
use second_solver::rule::{equal, pair};
use second_solver::scenario::{Held, Scenario};
use second_solver::typed::{self, FILE, HOUSE};
use second_solver::{Cause, NEVER};

/// What the reader can refuse by.
const READER_CAUSES: [u32; 12] = [1, 2, 3, 5, 21, 23, 6, 7, 18, 8, 9, 14];

/// Lists that hold anything, long enough for the scenario and some longer.
fn roomy(r: &mut Random, held: &Held) -> Lists {
    let mut list = |least: usize| {
        let longer = r.pick(&[0, 0, 1, 5]);
        garbage(r, least + longer)
    };
    let board = &held.board;
    Lists { slow: list(board.size()), cells: list(board.cells.len()), begins: list(board.begins.len()) }
}

/// Lists of which one is an entry too short.
fn cramped(r: &mut Random, held: &Held) -> Lists {
    let mut lists = roomy(r, held);
    match r.below(3) {
        1 if !held.board.cells.is_empty() => lists.cells.truncate(held.board.cells.len() - 1),
        2 if !held.board.begins.is_empty() => lists.begins.truncate(held.board.begins.len() - 1),
        _ => lists.slow.truncate(held.board.size() - 1),
    }
    lists
}

/// What a file holds by a reader's answer and the lists that it left.
fn held_by(answer: &Scenario, lists: &Lists) -> Held {
    let sides = [answer.width, answer.height, answer.storeys];
    let (size, starts) = (size_of(sides) as usize, answer.starts as usize);
    let board = Board {
        width: answer.width,
        height: answer.height,
        storeys: answer.storeys,
        slow: lists.slow[..size].to_vec(),
        cells: lists.cells[..starts].to_vec(),
        begins: lists.begins[..starts].to_vec(),
    };
    Held { ticks: answer.ticks, ground: answer.ground, board }
}

/// Reads a file, and answers what it holds. One that is accepted is written again, and must have the
/// same bytes.
fn read_and_write_again(file: &[u8], lists: &Lists, tally: &mut Tally, seed: u64) -> Option<Held> {
    let (answer, after) = read_both(read, file, lists, seed);
    tally.note(answer.number);
    if answer.number != 0 {
        return None;
    }
    let held = held_by(&answer, &after);
    let (_, again) = write_both(write, &held, &vec![0xEE; file.len()], seed);
    assert!(again == file, "seed {}: the file that is written again is another", seed);
    Some(held)
}

/// The scenario's file as it is, and damaged in each way; two damages are those of the seed.
fn try_whole_and_damaged(r: &mut Random, held: &Held, tally: &mut Tally, seed: u64) {
    let draft = Draft::of(held);
    let whole = draft.bytes();
    let read_back = read_and_write_again(&whole, &roomy(r, held), tally, seed);
    assert!(read_back.as_ref() == Some(held), "seed {}: a good file is not read as what it holds", seed);
    read_and_write_again(&whole, &cramped(r, held), tally, seed);
    let of_seed = |seed: u64| FILE_CAUSES[seed as usize % FILE_CAUSES.len()];
    let (first, second) = (of_seed(seed / FILE_CAUSES.len() as u64), of_seed(seed));
    for causes in FILE_CAUSES.map(|cause| vec![cause]).into_iter().chain([vec![first, second]]) {
        let mut damaged = draft.clone();
        for cause in causes {
            damaged.spoil(r, cause);
        }
        let lists = if r.once_in(4) { cramped(r, held) } else { roomy(r, held) };
        read_and_write_again(&damaged.bytes(), &lists, tally, seed);
    }
    let mut other = whole;
    spoil_byte(r, &mut other);
    read_and_write_again(&other, &roomy(r, held), tally, seed);
}

#[test]
fn seeded_files_are_read_as_the_second_solver_reads_them() {
    let mut tally = Tally::default();
    for seed in 70_000_000..70_030_000 {
        let mut r = Random::new(seed);
        let held = generate::small_scenario(&mut r);
        try_whole_and_damaged(&mut r, &held, &mut tally, seed);
    }
    assert!(tally.calls() >= 300_000, "{} files only", tally.calls());
    tally.assert_each(&READER_CAUSES, 10_000);
}

#[test]
fn the_shortest_and_the_longest_sides_are_read_in_every_lay() {
    let mut tally = Tally::default();
    scenarios_of_extreme_sides(71_000_000, |r, held, seed| try_whole_and_damaged(r, held, &mut tally, seed));
    tally.assert_each(&READER_CAUSES, 50);
}

/// Whole, and wrong in its last entries.
#[test]
fn the_longest_file_is_read_to_its_end() {
    let held = generate::longest_scenario();
    let file = Draft::of(&held).bytes();
    let (runs_end, end) = (20 + 12 * 65_536, 20 + 20 * 65_536);
    assert_eq!(file.len(), end);
    let lists = marked(65_536, 65_536);
    assert!(read_and_write_again(&file, &lists, &mut Tally::default(), 0) == Some(held));
    let at_the_last = |number: u32| Cause { number, place: 65_535 };
    let changes: [(usize, &[u8], Cause); 10] = [
        (4, &[2], 23.into()),                    // twice as many cells as there may be
        (runs_end - 3, &[0x10], 5.into()),       // the last run's g, 4,096 and more
        (runs_end - 1, &[0x10], 5.into()),       // .. its h
        (runs_end - 4, &[0, 0], 21.into()),      // no g alone
        (runs_end - 2, &[0, 0], 21.into()),      // no h alone
        (runs_end - 8, &[2], 6.into()),          // its length 2
        (end - 6, &[1], at_the_last(7)),         // the last start's cell is 131,071
        (end - 8, &[0xFE], at_the_last(18)),     // .. that of the start before
        (end - 4, &[0x41], 8.into()),            // its time 1,000,001
        (runs_end - 4, &[0, 0, 0, 0], 9.into()), // a wall under it
    ];
    for (at, bytes, cause) in changes {
        let mut damaged = file.clone();
        damaged[at..at + bytes.len()].copy_from_slice(bytes);
        assert_eq!(read_both(read, &damaged, &lists, at as u64).0, Scenario::refused(cause), "byte {}", at);
    }
}

fn marked(slow: usize, starts: usize) -> Lists {
    Lists { slow: vec![77; slow], cells: vec![88; starts], begins: vec![99; starts] }
}

#[test]
fn a_file_typed_by_hand_is_read() {
    let (answer, after) = read_both(read, &FILE, &marked(7, 3), 0);
    let ground = pair(10, 20);
    let want = Scenario { number: 0, width: 3, height: 2, storeys: 1, ticks: 10, ground, starts: 2, place: 0 };
    assert_eq!(answer, want);
    assert_eq!(held_by(&answer, &after), typed::held());
    assert_eq!((after.slow[6], after.cells[2], after.begins[2]), (77, 88, 99));
    let mut late = FILE;
    late[56] = 0x41;
    let (answer, after) = read_both(read, &late, &marked(7, 3), 0);
    assert_eq!((answer, after), (Scenario::refused(8), marked(7, 3)));
}

#[test]
fn a_house_typed_by_hand_is_read() {
    let (answer, after) = read_both(read, &HOUSE, &marked(9, 3), 0);
    let ground = equal(10);
    let want = Scenario { number: 0, width: 2, height: 2, storeys: 2, ticks: 10, ground, starts: 2, place: 0 };
    assert_eq!(answer, want);
    assert_eq!(held_by(&answer, &after), typed::house());
    assert_eq!((after.slow[8], after.cells[2], after.begins[2]), (77, 88, 99));
    assert_eq!(read_both(read, &HOUSE, &marked(7, 3), 0), (Scenario::refused(14), marked(7, 3)));
}

/// The typed file with these bytes in it.
fn changed(changes: &[(usize, &[u8])]) -> Vec<u8> {
    changed_in(&FILE, changes)
}

fn changed_in(file: &[u8], changes: &[(usize, &[u8])]) -> Vec<u8> {
    let mut file = file.to_vec();
    for (at, bytes) in changes {
        file[*at..at + bytes.len()].copy_from_slice(bytes);
    }
    file
}

/// A byte of the typed file changed, and the number that document 01 or a card has for it.
#[test]
fn each_rule_of_the_file_has_its_number() {
    let changes: [(usize, u8, u32); 36] = [
        (0, 0, 2),     // no width
        (3, 2, 2),     // height 514
        (4, 0, 23),    // no storeys
        (4, 2, 23),    // two, with unequal pairs
        (4, 9, 23),    // nine
        (5, 1, 23),    // 257
        (6, 0, 3),     // no ticks
        (7, 255, 0),   // many ticks
        (9, 0x10, 5),  // the ground's g 4,106
        (11, 0x10, 5), // the ground's h 4,116
        (11, 0xFF, 5), // .. 65,300
        (8, 0, 21),    // the ground's g 0
        (10, 0, 21),   // the ground's h 0
        (12, 3, 1),    // a run more than there is
        (16, 1, 1),    // a start less than there is
        (19, 0x20, 1), // 2^29 starts more
        (20, 0, 9),    // walls 0 and 1
        (20, 2, 6),    // the first run runs into the second
        (24, 0, 6),    // the first run is empty
        (24, 1, 0),    // cell 2 is ground
        (24, 3, 6),    // the first run runs into the second
        (27, 0x80, 6), // the first run ends far beyond the board
        (29, 0x10, 5), // a run's g 4,096, its h 0
        (31, 0x10, 5), // a run's h 4,096, its g 0
        (28, 1, 21),   // a run's g 1, its h 0
        (30, 1, 21),   // a run's h 1, its g 0
        (32, 0, 6),    // the second run begins before the first
        (32, 6, 6),    // the second run lies beyond the board
        (36, 4, 6),    // the second run ends beyond the board
        (36, 3, 0),    // the second run ends with the board
        (40, 10, 0),   // its g 3,850
        (42, 0, 21),   // its h 0
        (43, 0x10, 5), // its h 4,097
        (44, 5, 18),   // the same cell twice
        (52, 6, 7),    // a start beyond the board
        (52, 2, 9),    // a start on a wall
    ];
    for (at, byte, number) in changes {
        let file = changed(&[(at, &[byte])]);
        assert_eq!(read_both(read, &file, &marked(6, 2), 0).0.number, number, "byte {} is {}", at, byte);
    }
}

/// The same for the house of two storeys, which has eight cells; as one storey it would have four, as nine 36.
#[test]
fn each_rule_of_a_house_has_its_number() {
    let changes: [(usize, &[u8], u32); 23] = [
        (4, &[0, 0], 23),
        (4, &[1, 0], 6), // the run goes past four cells
        (4, &[3, 0], 0), // the third storey is ground
        (4, &[8, 0], 0), // .. as are all to the eighth
        (4, &[9, 0], 23),
        (4, &[0, 1], 23), // 256
        (4, &[1, 1], 23), // 257
        (4, &[255, 255], 23),
        (4, &[9, 0, 0, 0], 3),   // no ticks either
        (0, &[0, 1, 0, 1], 23),  // 256 by 256
        (0, &[0, 1, 128, 0], 0), // 256 by 128: just 65,536 cells
        (0, &[0, 1, 129, 0], 23),
        (0, &[145, 0, 113, 0, 4, 0], 23), // 65,540
        (0, &[1, 1], 2),
        (8, &[11], 23),          // the ground's g 11
        (10, &[0, 1], 23),       // its h 256
        (8, &[0], 21),           // its g 0
        (28, &[7, 0, 7, 0], 0),  // no walls
        (28, &[7, 0, 8, 0], 23), // a run of unequal pairs
        (28, &[7, 0, 0, 0], 21),
        (24, &[6], 6), // the run goes past eight cells
        (40, &[8], 7),
        (40, &[4], 9), // a start on a wall of the second storey
    ];
    for (at, bytes, number) in changes {
        let file = changed_in(&HOUSE, &[(at, bytes)]);
        assert_eq!(read_both(read, &file, &marked(65_536, 2), 0).0.number, number, "{:?} at {}", bytes, at);
    }
}

/// Runs and ground are the same if both numbers are: one that is another makes them differ.
#[test]
fn runs_differ_from_the_ground_and_from_each_other_if_either_number_does() {
    type Change<'a> = (usize, &'a [u8]);
    let wall = [0, 0, 0, 0];
    let cases: [(&[Change], u32); 9] = [
        (&[(8, &wall)], 6),                               // the ground is walls, as the first run
        (&[(40, &[10, 0, 20, 0])], 6),                    // the second run is ground
        (&[(40, &[10, 0, 21, 0])], 0),                    // .. but for its h
        (&[(40, &[11, 0, 20, 0])], 0),                    // .. but for its g
        (&[(40, &[20, 0, 10, 0])], 0),                    // .. with g and h in each other's place
        (&[(40, &wall)], 6),                              // two runs that touch, both of walls
        (&[(28, &[7, 0, 8, 0]), (40, &[7, 0, 8, 0])], 6), // .. both of one pair
        (&[(28, &[7, 0, 8, 0]), (40, &[7, 0, 9, 0])], 0), // .. with another h
        (&[(28, &[7, 0, 8, 0]), (40, &[6, 0, 8, 0])], 0), // .. with another g
    ];
    for (changes, number) in cases {
        assert_eq!(read_both(read, &changed(changes), &marked(6, 2), 0).0.number, number, "{:?}", changes);
    }
}

/// 5 looks at both numbers of the ground and of every run before 21 looks at any, 21 at all before 23, which has two
/// causes here, an unequal pair and the storeys, and 23 before 6 does.
#[test]
fn in_ground_and_runs_5_is_looked_for_before_21_and_21_before_23_and_6_and_7() {
    let (ground, first, second) = (8, 28, 40);
    let half_walls = [[10, 0, 0, 0], [0, 0, 10, 0], [0xFF, 0x0F, 0, 0], [0, 0, 1, 0]];
    let too_slow = [[0, 0x10, 10, 0], [10, 0, 0, 0x10], [0, 0x10, 0, 0], [0, 0, 0, 0x10], [0xFF; 4]];
    let number = |changes: &[(usize, &[u8])]| read_both(read, &changed(changes), &marked(6, 2), 0).0.number;
    for storeys in [2, 0, 9] {
        assert_eq!(number(&[(4, &[storeys]), (24, &[0]), (52, &[6])]), 23, "{} storeys", storeys);
        for at in [ground, first, second] {
            let changes: [(usize, &[u8]); 2] = [(4, &[storeys]), (at, &half_walls[0])];
            assert_eq!(number(&changes), 21, "{:?}", changes);
            let changes: [(usize, &[u8]); 2] = [(4, &[storeys]), (at, &too_slow[0])];
            assert_eq!(number(&changes), 5, "{:?}", changes);
        }
    }
    for half_at in [ground, first, second] {
        for half in &half_walls {
            assert_eq!(number(&[(half_at, half)]), 21, "{:?} at {}", half, half_at);
            // an empty run, a start beyond the board
            assert_eq!(number(&[(half_at, half), (24, &[0]), (52, &[6])]), 21, "{:?} at {}", half, half_at);
            for slow_at in [ground, first, second].into_iter().filter(|at| *at != half_at) {
                for slow in &too_slow {
                    let changes: [(usize, &[u8]); 3] = [(half_at, half), (slow_at, slow), (24, &[0])];
                    assert_eq!(number(&changes), 5, "{:?}", changes);
                }
            }
        }
    }
}

/// All causes at once; each is taken away in turn.
#[test]
fn of_all_causes_the_first_in_order_is_given() {
    // starts 5 and 6, the second too late
    let all = [(0, 0), (4, 9), (6, 0), (9, 0x10), (42, 0), (36, 0), (44, 5), (52, 6), (56, 0x41)];
    let mut file = FILE.to_vec();
    for (at, byte) in all {
        file[at] = byte;
    }
    let answer = |file: &[u8], slow: usize| read_both(read, file, &marked(slow, 2), 0).0;
    assert_eq!(answer(&file[..59], 5), Scenario::refused(1));
    // .. then 5 and 2, then 0 and 2, which is a wall, then 0 and 5
    let (off, not_rising) = (Cause { number: 7, place: 1 }, Cause { number: 18, place: 1 });
    let mends = [
        (2.into(), 0, FILE[0]),
        (3.into(), 6, FILE[6]),
        (5.into(), 9, FILE[9]),
        (21.into(), 42, FILE[42]),
        (23.into(), 4, FILE[4]),
        (6.into(), 36, FILE[36]),
        (off, 52, 2),
        (not_rising, 44, FILE[44]),
        (8.into(), 56, FILE[56]),
        (9.into(), 52, FILE[52]),
    ];
    for (cause, at, byte) in mends {
        assert_eq!(answer(&file, 5), Scenario::refused(cause));
        file[at] = byte;
    }
    assert_eq!([answer(&file, 5).number, answer(&file, 6).number], [14, 0]);
}

/// Every truncation; the bytes that are cut off still lie behind the file.
#[test]
fn a_file_that_is_cut_short_or_goes_on_is_refused_by_1() {
    let mut longer = FILE.to_vec();
    longer.extend_from_slice(&FILE);
    for length in 0..=longer.len() {
        let number = if length == FILE.len() { 0 } else { 1 };
        assert_eq!(read_both(read, &longer[..length], &marked(6, 2), 0).0.number, number, "{} bytes", length);
    }
}

#[test]
fn every_change_of_a_single_byte_is_judged_alike() {
    for typed in [&FILE[..], &HOUSE] {
        let mut tally = Tally::default();
        for at in 0..typed.len() {
            for byte in 0..=255 {
                read_and_write_again(&changed_in(typed, &[(at, &[byte])]), &marked(300, 2), &mut tally, at as u64);
            }
        }
        assert_eq!(tally.calls(), typed.len() as u32 * 256);
        tally.assert_each(&READER_CAUSES, 1);
    }
}

/// Counts whose file length wraps at 32 bits to that of the file at hand, and others close to them.
#[test]
fn counts_that_wrap_do_not_fit() {
    let powers = [28, 29, 30, 31].map(|bits| 1u32 << bits);
    let counts: Vec<u32> =
        (0..4).chain(powers.iter().flat_map(|p| [p - 1, *p, p + 1])).chain(NEVER - 2..=NEVER).collect();
    let mut wrapped = 0;
    let mut tally = Tally::default();
    for &runs in &counts {
        for &starts in &counts {
            let low = (20 + 12 * u64::from(runs) + 8 * u64::from(starts)) as u32 as usize;
            let fits_wrapped = (20..2_000).contains(&low) && runs.max(starts) > 3;
            wrapped += u32::from(fits_wrapped);
            for length in (20..=82).chain(Some(low).filter(|_| fits_wrapped)) {
                let mut file = FILE.to_vec();
                file.resize(length, 0);
                file[12..16].copy_from_slice(&runs.to_le_bytes());
                file[16..20].copy_from_slice(&starts.to_le_bytes());
                let number = read_both(read, &file, &marked(6, 4), 0).0.number;
                assert!(number == 1 || runs.max(starts) <= 3, "{} runs, {} starts: {}", runs, starts, number);
                tally.note(number);
            }
        }
    }
    assert!(wrapped >= 20 && tally.calls() > 10_000, "{} that wrap, {} in all", wrapped, tally.calls());
}

/// Lists of every length around what the file needs.
#[test]
fn lists_that_are_too_short_are_refused_by_14() {
    for slow in 0..=8 {
        for cells in 0..=4 {
            for begins in 0..=4 {
                let lists = Lists { slow: vec![7; slow], cells: vec![8; cells], begins: vec![9; begins] };
                let number = if slow >= 6 && cells >= 2 && begins >= 2 { 0 } else { 14 };
                assert_eq!(read_both(read, &FILE, &lists, 0).0.number, number, "{} {} {}", slow, cells, begins);
            }
        }
    }
}
