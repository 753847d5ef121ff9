//! Every call on the largest boards and files that there are, on threads with small stacks: no call may
//! take more than 64 KiB. A proof says nothing of the stack, so it is measured here.

use second_solver::board::Board;
use second_solver::calls::{Call, Kind};
use second_solver::declared::header;
use second_solver::ffi::local_rule::{diagonal, local_rule};
use second_solver::ffi::tablet::tablet_run;
use second_solver::ffi::turn::turn;
use second_solver::ffi::{engine, engine_records, scenario, scenario_records};
use second_solver::random::Random;
use second_solver::rule::{equal, pair, parts};
use second_solver::scenario::{file_of, Scenario};
use second_solver::shown::SHOWN_FILE;
use second_solver::stacks::{on_a_stack_of, stack_of};
use second_solver::tiles::tile_count;
use second_solver::{LocalReply, Reply, Start, LARGEST, NEVER};
use std::collections::BTreeSet;

/// The most that a call may take.
const MOST: usize = 64 << 10;
/// What a thread takes for itself.
const THREAD: usize = 16 << 10;

/// A call with its lists made ready, so that nothing but the call runs on the small stack.
struct Case {
    name: &'static str,
    told: String,
    call: Box<dyn FnMut() -> u64 + Send>,
}

impl Case {
    fn new(name: &'static str, told: String, call: impl FnMut() -> u64 + Send + 'static) -> Case {
        Case { name, told, call: Box::new(call) }
    }
}

/// The answer as one number: where the call is refused it is a large one.
fn one(reply: Reply) -> u64 {
    u64::from(reply.number) << 32 | u64::from(reply.count)
}

fn large_board(seed: u64, starts: u32) -> Board {
    let mut r = Random::new(seed);
    let slow = (0..65_536).map(|_| pair(r.within(1, 4_095), r.within(1, 4_095))).collect();
    let cells: Vec<u32> = (0..starts).collect();
    let begins = cells.iter().map(|c| c * 40_503 % 1_000_001).collect();
    Board { width: 256, height: 256, storeys: 1, slow, cells, begins }
}

/// As many cells in eight storeys, of equal pairs.
fn large_house(seed: u64, starts: u32) -> Board {
    let mut house = Board { width: 128, height: 64, storeys: 8, ..large_board(seed, starts) };
    house.slow.iter_mut().for_each(|s| *s = equal(parts(*s)[0]));
    house
}

const GROUND: u32 = equal(1);

/// Each cell a run and a start of its own: 1,310,740 bytes.
fn largest_file() -> (Board, Vec<u8>) {
    let mut board = large_board(3, 65_536);
    for (c, s) in board.slow.iter_mut().enumerate() {
        *s = pair(4_094 + (c % 2) as u32, 4_095);
    }
    let file = file_of(&board, 65_535, GROUND);
    assert_eq!(file.len(), 20 + 20 * 65_536);
    (board, file)
}

fn engine_names(kind: &Kind) -> [&'static str; 2] {
    match kind {
        Kind::March { .. } => ["murgolab_march_plain", "murgolab_march"],
        Kind::Round { .. } => ["murgolab_one_round_plain", "murgolab_one_round"],
        Kind::Run { .. } => ["murgolab_tile_run_plain", "murgolab_tile_run"],
    }
}

fn engine_kinds(board: &Board) -> Vec<Kind> {
    let mut kinds = vec![Kind::March { horizon: LARGEST }];
    for side in [1, 8, 256] {
        let order: Vec<u32> = (0..tile_count(board.width, board.height, side, side)).rev().collect();
        kinds.push(Kind::Round { across: side, down: side, bound: LARGEST, order: order.clone() });
        kinds.push(Kind::Run { across: side, down: side, stride: 65_536, horizon: LARGEST, order });
    }
    kinds
}

/// The calls over plain start lists and over records.
fn engine_cases() -> Vec<Case> {
    let mut cases = Vec::new();
    for board in [1, 65_536].into_iter().flat_map(|starts| [large_board(2, starts), large_house(2, starts)]) {
        for kind in engine_kinds(&board) {
            let told = format!("{} storeys, {} starts", board.storeys, board.cells.len());
            let told = match kind {
                Kind::March { .. } => told,
                Kind::Round { across, .. } | Kind::Run { across, .. } => format!("{}, tiles of {}", told, across),
            };
            for (name, play) in engine_names(&kind).into_iter().zip([engine::play, engine_records::play]) {
                let call = Call { board: board.clone(), kind: kind.clone() };
                let (mut times, mut sides, mut work) = (vec![NEVER; 65_536], vec![0; 65_536], vec![1; 4 * 65_536]);
                cases.push(Case::new(name, told.clone(), move || {
                    times.fill(NEVER);
                    one(play(&call, &mut times, &mut sides, &mut work))
                }));
            }
        }
    }
    cases
}

/// The reader's answer, which must be that of the largest file.
fn as_reply(answer: Scenario) -> Reply {
    let Scenario { number, width, height, storeys, ticks, ground, starts, place } = answer;
    assert_eq!([width, height, storeys, ticks, ground], [256, 256, 1, 65_535, GROUND]);
    Reply { number, count: starts, place }
}

fn scenario_cases() -> Vec<Case> {
    let (board, file) = largest_file();
    let told = format!("{} bytes", file.len());
    let (same_board, same_file) = (board.clone(), file.clone());
    let (mut out, mut same_out) = (vec![0; file.len()], vec![0; file.len()]);
    let (mut slow, mut cells, mut begins) = (vec![0; 65_536], vec![0; 65_536], vec![0; 65_536]);
    let (mut same_slow, mut starts) = (vec![0; 65_536], vec![Start { cell: 0, time: 0 }; 65_536]);
    let read_plain = move || one(as_reply(scenario::read(&file, &mut slow, &mut cells, &mut begins)));
    let read = move || one(as_reply(scenario_records::read(&same_file, &mut same_slow, &mut starts)));
    let write_plain = move || one(scenario::write(&board, 65_535, GROUND, &mut out));
    let write = move || one(scenario_records::write(&same_board, 65_535, GROUND, &mut same_out));
    vec![
        Case::new("murgolab_read_scenario_plain", told.clone(), read_plain),
        Case::new("murgolab_read_scenario", told.clone(), read),
        Case::new("murgolab_write_scenario_plain", told.clone(), write_plain),
        Case::new("murgolab_write_scenario", told, write),
    ]
}

/// The largest files that the tablet takes, each cell a run and a start of its own, with two sizes of tiles.
fn tablet_cases() -> Vec<Case> {
    let mut cases = Vec::new();
    let flat = (0..1_024).map(|c| pair(4_094 + c % 2, 4_095)).collect();
    let house = (0..1_024).map(|c| equal(4_094 + c % 2)).collect();
    let flat = Board { width: 32, height: 32, slow: flat, ..large_board(4, 1_024) };
    let house = Board { width: 16, height: 8, slow: house, ..large_house(4, 1_024) };
    for (board, side) in [&flat, &house].into_iter().flat_map(|board| [(board, 1), (board, 8)]) {
        let file = file_of(board, 65_535, GROUND);
        assert_eq!(file.len(), SHOWN_FILE);
        let told = format!("{} storeys, tiles of {}", board.storeys, side);
        let mut out = vec![0; 4_096];
        cases.push(Case::new("murgolab_tablet_run", told, move || {
            let answer = tablet_run(&file, 65_536, side, side, &mut out);
            // a bare number below 256 is a refusal
            if answer < 256 {
                answer << 32
            } else {
                answer
            }
        }));
    }
    cases
}

/// A local rule's.
fn one_local(reply: LocalReply) -> u64 {
    one(Reply { number: reply.number, count: reply.time ^ reply.sides, place: 0 })
}

fn number_cases() -> Vec<Case> {
    vec![
        Case::new("murgolab_local_rule", "an equal pair".to_string(), || {
            one_local(local_rule([4_095, 4_095], [LARGEST, NEVER, LARGEST - 7, NEVER, NEVER, NEVER]))
        }),
        Case::new("murgolab_local_rule", "three axes".to_string(), || {
            one_local(local_rule([4_095, 4_095], [LARGEST, NEVER, LARGEST - 7, NEVER, LARGEST - 11, NEVER]))
        }),
        Case::new("murgolab_local_rule", "an unequal pair".to_string(), || {
            one_local(local_rule([4_095, 4_094], [LARGEST, NEVER, LARGEST - 7, NEVER, NEVER, NEVER]))
        }),
        Case::new("murgolab_diagonal", "kept".to_string(), || one(diagonal(255))),
        Case::new("murgolab_diagonal", "worked out".to_string(), || one(diagonal(4_095))),
        Case::new("murgolab_turn", String::new(), || {
            let reply = turn(LARGEST, 7);
            one(Reply { number: reply.number, count: reply.turn, place: 0 })
        }),
    ]
}

fn cases() -> Vec<Case> {
    let families = [engine_cases(), scenario_cases(), tablet_cases(), number_cases()];
    let cases: Vec<Case> = families.into_iter().flatten().collect();
    let named: BTreeSet<String> = cases.iter().map(|case| case.name.to_string()).collect();
    let calls: BTreeSet<String> = header().functions.into_keys().collect();
    assert_eq!(named, calls, "every call of the header is tried, and no other");
    cases
}

#[test]
fn every_call_does_on_a_stack_of_128_kib() {
    for mut case in cases() {
        let want = (case.call)();
        assert!(want >> 32 == 0, "{} is refused by {}, {}", case.name, want >> 32, case.told);
        assert_eq!(on_a_stack_of(128 << 10, &mut case.call), want, "{}, {}", case.name, case.told);
    }
}

#[test]
fn every_call_does_on_a_stack_of_64_kib_and_what_a_thread_takes() {
    for mut case in cases() {
        let want = (case.call)();
        assert_eq!(on_a_stack_of(MOST + THREAD, &mut case.call), want, "{}, {}", case.name, case.told);
    }
}

#[test]
fn no_call_writes_further_than_64_kib_down_its_stack() {
    for mut case in cases() {
        let mut answer = None;
        let used = stack_of(&mut || answer = Some((case.call)()));
        assert!(answer.is_some());
        println!("{:>6} bytes of stack: {} {}", used, case.name, case.told);
        assert!(used <= MOST, "{}, {}: {} bytes of stack", case.name, case.told, used);
    }
}

#[inline(never)]
fn with_an_array<const N: usize>() -> usize {
    let mut array = [0; N];
    for entry in &mut array {
        // SAFETY: an entry that is borrowed; the compiler may not leave this write out
        unsafe { std::ptr::write_volatile(entry, 1u8) };
    }
    array.len()
}

/// The measure is no good if it misses an array.
#[test]
fn an_array_on_the_stack_is_measured() {
    let mut filled = 0;
    let small = stack_of(&mut || filled += with_an_array::<20_000>());
    let large = stack_of(&mut || filled += with_an_array::<{ MOST + 1 }>());
    assert_eq!(filled, 20_000 + MOST + 1);
    assert!((20_000..30_000).contains(&small), "{} bytes", small);
    assert!((MOST + 1..MOST + 10_000).contains(&large), "{} bytes", large);
}
