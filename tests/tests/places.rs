//! Which start is at fault: the number and the place that every call which judges starts answers, over records and over
//! plain lists, on boards of one storey and of several, on lists with many faults and on those that a library which
//! judges in parts may get wrong.

use second_solver::board::Board;
use second_solver::calls::{Call, Kind, Lengths};
use second_solver::compare::{play_both, read_both, write_both, Engine, Lists, Reader, Tally, Writer};
use second_solver::damage::{spoil_call, spoil_writing, CALL_CAUSES, WRITER_CAUSES};
use second_solver::drafts::{Draft, FILE_CAUSES};
use second_solver::ffi::{engine, engine_records, scenario, scenario_records};
use second_solver::generate;
use second_solver::lent::Lent;
use second_solver::random::Random;
use second_solver::rule::equal;
use second_solver::scenario::{file_of, Held, Scenario};
use second_solver::tiles::tile_count;
use second_solver::{Cause, Start, LATEST_START, MOST_STOREYS, NEVER};

const ENGINES: [Engine; 2] = [engine::play, engine_records::play];
const WRITERS: [Writer; 2] = [scenario::write, scenario_records::write];
const READERS: [Reader; 2] = [scenario::read, read_records];

/// The reader over records, which are lent between marks, as one over plain lists.
fn read_records(file: &[u8], slow: &mut [u32], cells: &mut [u32], begins: &mut [u32]) -> Scenario {
    let starts: Vec<Start> = cells.iter().zip(&*begins).map(|(&cell, &time)| Start { cell, time }).collect();
    let mut lent = Lent::new(&starts);
    let answer = scenario_records::read(file, slow, lent.lend());
    for (i, start) in lent.back().iter().enumerate() {
        (cells[i], begins[i]) = (start.cell, start.time);
    }
    answer
}

/// What the calls say of a board that has nothing wrong but its starts: march, round, run, writer and reader, each in
/// both forms. They give one number and one place, and answer and leave what the second solver does.
fn judged(board: &Board, seed: u64) -> Cause {
    let size = board.size();
    let order: Vec<u32> = (0..tile_count(board.width, board.height, 5, 4)).collect();
    let round = Kind::Round { across: 5, down: 4, bound: 900, order: order.clone() };
    let run = Kind::Run { across: 5, down: 4, stride: 400, horizon: 900, order };
    let mut causes = Vec::new();
    for kind in [Kind::March { horizon: 900 }, round, run] {
        let call = Call { board: board.clone(), kind };
        for engine in ENGINES {
            let (front, work) = Lengths::of(size).longer(1).filled();
            let reply = play_both(engine, &call, &front, &work, seed).0;
            causes.push(Cause { number: reply.number, place: reply.place });
        }
    }
    let (held, file) = (Held { ticks: 10, ground: equal(10), board: board.clone() }, file_of(board, 10, equal(10)));
    for writer in WRITERS {
        let reply = write_both(writer, &held, &vec![0xEE; file.len()], seed).0;
        causes.push(Cause { number: reply.number, place: reply.place });
    }
    let starts = board.cells.len();
    let lists = Lists { slow: vec![7; size], cells: vec![8; starts], begins: vec![9; starts] };
    for reader in READERS {
        let answer = read_both(reader, &file, &lists, seed).0;
        causes.push(Cause { number: answer.number, place: answer.place });
    }
    assert!(causes.iter().all(|cause| *cause == causes[0]), "seed {}: {:?} of {:?}", seed, causes, board.cells);
    causes[0]
}

/// An open board with starts in these cells.
fn open([width, height, storeys]: [u32; 3], cells: Vec<u32>) -> Board {
    let begins = vec![0; cells.len()];
    let slow = vec![equal(10); (width * height * storeys) as usize];
    Board { width, height, storeys, slow, cells, begins }
}

/// Boards of 1,024 cells and of 65,536, each flat and as a house; one of nine.
const MEDIUM: [[u32; 3]; 2] = [[32, 32, 1], [8, 16, 8]];
const LARGE: [[u32; 3]; 2] = [[256, 256, 1], [128, 64, 8]];
const SMALL: [[u32; 3]; 2] = [[3, 3, 1], [1, 3, 3]];

fn off(place: usize) -> Cause {
    Cause { number: 7, place }
}

fn not_rising(place: usize) -> Cause {
    Cause { number: 18, place }
}

const ACCEPTED: Cause = Cause { number: 0, place: 0 };

/// A board with many starts: a small one mostly, at times one whose list goes over several parts of 256.
fn crowded(r: &mut Random) -> Board {
    let longest = if r.once_in(10) { 32 } else { 8 };
    let (width, height) = (r.within(1, longest), r.within(1, longest));
    let storeys = if r.once_in(2) { 1 } else { r.within(1, MOST_STOREYS).min(1_024 / (width * height)) };
    let slow = generate::slownesses(r, [width, height, storeys]);
    let rare = r.within(2, 10);
    let open = (0..slow.len() as u32).filter(|&c| slow[c as usize] > 0);
    let cells: Vec<u32> = open.filter(|_| !r.once_in(rare)).collect();
    let begins = cells.iter().map(|_| r.within(0, 400)).collect();
    Board { width, height, storeys, slow, cells, begins }
}

/// One fault anywhere; a cell off the board only where that is asked for, since it beats the others.
fn put_fault(r: &mut Random, board: &mut Board, is_off: bool) {
    let (size, count) = (board.slow.len() as u32, board.cells.len() as u32);
    // in a long list mostly beside a seam of two parts
    let at = if count > 257 && !r.once_in(3) { 256 * r.within(1, count / 256) - r.below(2) } else { r.below(count) };
    let at = at.min(count - 1) as usize;
    match r.below(7) {
        0 | 1 if is_off => board.cells[at] = r.pick(&[size, size + 1, 65_536, 1 << 31, NEVER]),
        2 if at > 0 => board.cells[at] = board.cells[at - 1],
        3 if at > 0 => board.cells.swap(at - 1, at),
        4 => board.cells[at] = r.below(size),
        5 => board.slow[r.below(size) as usize] = 0,
        _ => board.begins[at] = r.pick(&[LATEST_START + 1, NEVER]),
    }
}

/// How many starts have something wrong.
fn at_fault(board: &Board) -> usize {
    let bad = |i: usize| {
        let cell = board.cells[i];
        let slow = board.slow.get(cell as usize).copied().unwrap_or(0);
        slow == 0 || i > 0 && cell <= board.cells[i - 1] || board.begins[i] > LATEST_START
    };
    (0..board.cells.len()).filter(|&i| bad(i)).count()
}

/// 7 beats 18 also where 18's start comes first, and the place is then 7's own; of several starts the first is named.
#[test]
fn seeded_lists_with_several_faults_are_judged_as_the_second_solver_judges_them() {
    let [mut on_flat_boards, mut in_houses] = [(); 2].map(|()| Tally::default());
    let (mut past_a_fall, mut of_its_kind, mut several, mut past_a_part) = (0, 0, 0, 0);
    for seed in 90_000_000..90_130_000 {
        let mut r = Random::new(seed);
        let mut board = crowded(&mut r);
        let is_off = r.once_in(2);
        for _ in 0..r.within(1, 6) * u32::from(!board.cells.is_empty() && !r.once_in(20)) {
            put_fault(&mut r, &mut board, is_off);
        }
        let cause = judged(&board, seed);
        let tally = if board.storeys == 1 { &mut on_flat_boards } else { &mut in_houses };
        tally.note(cause.number);
        let size = board.size() as u32;
        let past = board.cells.iter().enumerate().skip(cause.place + 1);
        let later = past.filter(|&(i, &c)| if cause.number == 7 { c >= size } else { c <= board.cells[i - 1] }).count();
        of_its_kind += u32::from(cause.place > 0 && later > 0);
        several += u32::from(at_fault(&board) > 1);
        past_a_part += u32::from(cause.place > 255);
        let before = &board.cells[..cause.place];
        past_a_fall += u32::from(cause.number == 7 && before.windows(2).any(|pair| pair[1] <= pair[0]));
    }
    [on_flat_boards, in_houses].iter().for_each(|tally| tally.assert_each(&[7, 18, 8, 9], 1_000));
    assert!(past_a_fall > 1_000 && of_its_kind > 3_000, "{} past a fall, {} of several", past_a_fall, of_its_kind);
    assert!(several > 20_000 && past_a_part > 400, "{} with several faults, {} past a part", several, past_a_part);
}

/// Places on both sides of where parts of 256 meet, and the last that a board can have: nothing wrong before them, and
/// behind them nothing, good starts, starts that are at fault by the same cause, and by the other one.
#[test]
fn faults_beside_the_seams_of_parts_are_found_at_their_places() {
    let medium = MEDIUM.into_iter().flat_map(|sides| [255, 256, 257, 511, 512, 513].map(|place| (sides, place)));
    for (sides, place) in medium.chain(LARGE.map(|sides| (sides, 65_535))) {
        let (size, last) = (sides.iter().product(), place as u32);
        let with = |fault: u32, behind: &[u32]| {
            let cells = (0..last).chain([fault]).chain(behind.iter().copied()).collect();
            judged(&open(sides, cells), u64::from(last))
        };
        for fault in [size, NEVER] {
            for behind in [&[][..], &[0, 5], &[0, 0, 7, 3], &[size + 1, 3, size]] {
                assert_eq!(with(fault, behind), off(place), "{} and {:?}", fault, behind);
            }
        }
        for fault in [0, last - 2, last - 1] {
            for behind in [&[][..], &[last], &[last, 4, 9, 9], &[0, 0]] {
                assert_eq!(with(fault, behind), not_rising(place), "{} and {:?}", fault, behind);
            }
            assert_eq!(with(fault, &[size]), off(place + 1), "{}", fault);
            assert_eq!(with(fault, &[9, 9, NEVER, size]), off(place + 3), "{}", fault);
        }
        assert_eq!(with(last, &[last]), not_rising(place + 1));
    }
}

/// Every part of 256 rises by itself: only the pair that straddles two of them does not.
#[test]
fn a_pair_that_straddles_two_parts_is_looked_at() {
    for sides in MEDIUM {
        let of = |ranges: &[std::ops::Range<u32>]| judged(&open(sides, ranges.iter().cloned().flatten().collect()), 0);
        assert_eq!(of(&[0..256, 256..512, 512..768]), ACCEPTED);
        assert_eq!(of(&[0..256, 255..511]), not_rising(256));
        assert_eq!(of(&[300..556, 0..256]), not_rising(256));
        assert_eq!(of(&[0..256, 256..512, 511..767]), not_rising(512));
        assert_eq!(of(&[0..256, 600..856, 0..256]), not_rising(512));
        assert_eq!(of(&[512..768, 256..512, 0..256]), not_rising(256));
        assert_eq!(of(&[0..256, 256..512, 0..256, 1_023..1_025]), off(769));
    }
}

#[test]
fn a_rising_list_longer_than_the_board_is_off_it_at_the_first_start_too_many() {
    let flat = [([1, 1, 1], 2), ([1, 1, 1], 300), ([16, 16, 1], 257), ([32, 32, 1], 5_000), ([256, 256, 1], 65_537)];
    let houses = [([1, 1, 8], 9), ([2, 3, 4], 300), ([8, 16, 8], 5_000), ([128, 64, 8], 65_537), ([90, 90, 8], 65_537)];
    for (sides, count) in flat.into_iter().chain(houses) {
        let size = sides.iter().product::<u32>() as usize;
        assert_eq!(judged(&open(sides, (0..count).collect()), 0), off(size), "{} starts on {:?}", count, sides);
    }
}

/// A cell that is off one storey is on the next one, to the last: N counts, and not width × height.
#[test]
fn cells_of_every_storey_are_on_the_board() {
    for storeys in 1..=8 {
        let sides = [3, 2, storeys];
        let (first_of_each, size) = ((0..storeys).map(|storey| 6 * storey), 6 * storeys);
        let with = |more: &[u32]| judged(&open(sides, first_of_each.clone().chain(more.iter().copied()).collect()), 0);
        let place = storeys as usize;
        assert_eq!([with(&[]), with(&[size - 1])], [ACCEPTED; 2], "{} storeys", storeys);
        assert_eq!([with(&[size]), with(&[size - 6, size])], [off(place), off(place + 1)], "{} storeys", storeys);
        assert_eq!([with(&[size - 6]), with(&[0])], [not_rising(place); 2], "{} storeys", storeys);
    }
}

/// A list with no place that is good is at fault from its second start on.
#[test]
fn equal_and_falling_lists_are_at_fault_at_their_second_start() {
    for sides in MEDIUM {
        for count in [2, 255, 256, 257, 1_024, 70_000] {
            assert_eq!(judged(&open(sides, vec![1_023; count]), 0), not_rising(1), "{} times the last cell", count);
            assert_eq!(judged(&open(sides, vec![0; count]), 0), not_rising(1), "{} times the first cell", count);
            assert_eq!(judged(&open(sides, vec![1_024; count]), 0), off(0), "{} times a cell off the board", count);
        }
    }
    for sides in LARGE {
        for count in [2, 256, 257, 65_536] {
            assert_eq!(judged(&open(sides, (0..count).rev().collect()), 0), not_rising(1), "{} falling", count);
        }
    }
    for sides in SMALL {
        assert_eq!(judged(&open(sides, vec![8, 0, 1, 2]), 0), not_rising(1), "a high cell first, then a fall");
        assert_eq!(judged(&open(sides, vec![9, 0, 1, 2]), 0), off(0), "a first cell off the board, then a fall");
    }
}

/// 7 beats 18, however many starts before it fall, and its place is its own.
#[test]
fn one_start_off_the_board_behind_a_long_falling_list_is_found() {
    for sides in LARGE {
        for (count, cell) in [(255, 65_536), (256, 65_536), (257, NEVER), (65_536, 65_536), (65_536, 1 << 31)] {
            let cells = (0..count).rev().chain([cell, 0, NEVER]).collect();
            assert_eq!(judged(&open(sides, cells), 0), off(count as usize), "{} falling, then {}", count, cell);
        }
    }
}

/// Cells that are on the board where they are cut to 8, 16, 24 or 31 bits, and the largest numbers there are.
#[test]
fn the_largest_numbers_are_no_cells_and_no_times() {
    for sides in SMALL {
        for cell in [9, 1 << 8, 1 << 16, (1 << 16) + 4, 1 << 24, 1 << 29, 1 << 31, (1 << 31) + 4, NEVER - 1, NEVER] {
            assert_eq!(judged(&open(sides, vec![0, 3, cell]), 0), off(2), "{}", cell);
            assert_eq!(judged(&open(sides, vec![cell, cell]), 0), off(0), "{} twice", cell);
            assert_eq!(judged(&open(sides, vec![8, 8, cell, 0]), 0), off(2), "{} behind two that do not rise", cell);
        }
        let timed = |cells: Vec<u32>| judged(&Board { begins: vec![NEVER; cells.len()], ..open(sides, cells) }, 0);
        assert_eq!(timed(vec![0, 3, 8]), 8.into());
        assert_eq!(timed(vec![0, 3, NEVER]), off(2));
        assert_eq!(timed(vec![0, 3, 3]), not_rising(2));
        assert_eq!(timed(vec![NEVER; 300]), off(0));
    }
}

#[test]
fn an_empty_list_and_one_that_rises_have_no_place() {
    for sides in SMALL {
        assert_eq!(judged(&open(sides, vec![]), 0), ACCEPTED);
        assert_eq!(judged(&open(sides, vec![8]), 0), ACCEPTED);
        assert_eq!(judged(&open(sides, (0..9).collect()), 0), ACCEPTED);
    }
    for sides in MEDIUM {
        assert_eq!(judged(&open(sides, (0..1_024).collect()), 0), ACCEPTED);
    }
}

/// No cause, one, or one and a start at fault beside it.
fn some_of(r: &mut Random, causes: &[u32]) -> Vec<u32> {
    let mut some = vec![r.pick(causes), r.pick(&[7, 18])];
    some.truncate(r.below(3) as usize);
    some
}

/// What came of calls that were spoilt by some causes.
#[derive(Default)]
struct Seen {
    numbers: Tally,
    /// Calls with a start at fault that were refused by another cause.
    hidden: u32,
}

impl Seen {
    fn note(&mut self, causes: &[u32], number: u32, place: usize) {
        let is_placed = [7, 18].contains(&number);
        assert!(is_placed || place == 0, "{} at {}, for {:?}", number, place, causes);
        self.numbers.note(number);
        self.hidden += u32::from(causes.len() == 2 && !is_placed);
    }

    fn assert_each(&self, causes: &[u32]) {
        self.numbers.assert_each(causes, 50);
        assert!(self.hidden > 300, "{} with a start at fault", self.hidden);
    }
}

/// Plain lists or records by the seed; plain ones where they are not of one length, which no records are.
fn form_for(board: &Board, seed: u64) -> usize {
    usize::from(seed % 2 == 1 && board.cells.len() == board.begins.len())
}

#[test]
fn every_other_number_has_the_place_0_though_a_start_is_at_fault() {
    let [mut calls, mut writers, mut readers] = [(); 3].map(|()| Seen::default());
    for seed in 91_000_000..91_006_000 {
        let mut r = Random::new(seed);
        let board = generate::board(&mut r, 5);
        let (size, held) = (board.size(), generate::scenario(&mut r, board.clone()));

        let causes = some_of(&mut r, &CALL_CAUSES);
        let (mut call, mut lengths) = (generate::call(&mut r, board), Lengths::of(size));
        causes.iter().for_each(|&cause| spoil_call(&mut r, &mut call, &mut lengths, cause));
        let (form, (front, work)) = (form_for(&call.board, seed), lengths.filled());
        let reply = play_both(ENGINES[form], &call, &front, &work, seed).0;
        calls.note(&causes, reply.number, reply.place);

        let causes = some_of(&mut r, &FILE_CAUSES);
        let mut draft = Draft::of(&held);
        causes.iter().for_each(|&cause| draft.spoil(&mut r, cause));
        let slow = vec![7; size - usize::from(r.once_in(8))];
        let lists = Lists { slow, cells: vec![8; 40], begins: vec![9; 40] };
        let answer = read_both(READERS[seed as usize % 2], &draft.bytes(), &lists, seed).0;
        readers.note(&causes, answer.number, answer.place);

        let causes = some_of(&mut r, &WRITER_CAUSES);
        let mut out = file_of(&held.board, held.ticks, held.ground).len();
        let mut held = held;
        causes.iter().for_each(|&cause| spoil_writing(&mut r, &mut held, &mut out, cause));
        let form = form_for(&held.board, seed);
        let reply = write_both(WRITERS[form], &held, &vec![0xEE; out], seed).0;
        writers.note(&causes, reply.number, reply.place);
    }
    calls.assert_each(&CALL_CAUSES);
    writers.assert_each(&WRITER_CAUSES);
    readers.assert_each(&[&FILE_CAUSES[..], &[14]].concat());
}
