//! Lists of calls on one list of times and one of sides: marches, rounds and runs, over plain start lists and over
//! records as it comes, refused ones among them. After each call the times, the sides and the answer are the ledger's.

use second_solver::board::Board;
use second_solver::calls::{Call, Kind, Lengths};
use second_solver::compare::{Engine, Ledger, Tally};
use second_solver::damage::{spoil_call, too_short, CALL_CAUSES};
use second_solver::ffi::{engine, engine_records};
use second_solver::generate::{self, garbage, garbage_lists};
use second_solver::random::Random;
use second_solver::{LONGEST_SIDE, MOST_STOREYS};
use std::collections::BTreeMap;

/// How starts are handed over.
#[derive(Clone, Copy, Debug, PartialEq, Eq, PartialOrd, Ord)]
enum Form {
    Plain,
    Records,
}

const FORMS: [Form; 2] = [Form::Plain, Form::Records];

impl Form {
    fn engine(self) -> Engine {
        match self {
            Form::Plain => engine::play,
            Form::Records => engine_records::play,
        }
    }
}

/// What the lists were made of.
#[derive(Default)]
struct Seen {
    /// Calls by form, kind and whether they were accepted.
    calls: BTreeMap<(Form, &'static str, bool), u32>,
    /// Numbers by form.
    numbers: BTreeMap<Form, Tally>,
    /// Calls with plain start lists that are not as long as each other.
    unequal: u32,
    /// Accepted calls that alter the times, the accepted one before them being of the other form.
    turns: u32,
    /// Accepted calls behind an accepted one that alter sides and no time.
    sides_alone: u32,
}

impl Seen {
    fn note(&mut self, form: Form, call: &Call, number: u32) {
        let kind = match call.kind {
            Kind::March { .. } => "march",
            Kind::Round { .. } => "round",
            Kind::Run { .. } => "run",
        };
        *self.calls.entry((form, kind, number == 0)).or_default() += 1;
        self.numbers.entry(form).or_default().note(number);
        self.unequal += u32::from(are_unequal(&call.board));
    }
}

fn are_unequal(board: &Board) -> bool {
    board.cells.len() != board.begins.len()
}

/// Another board of the same size, seldom one of another.
fn board_for(r: &mut Random, size: u32) -> Board {
    if r.once_in(12) {
        return generate::board(r, 8);
    }
    let divisors = |of: u32, most: u32| (1..=most).filter(|d| of % d == 0).collect::<Vec<u32>>();
    let storeys = if r.once_in(2) { 1 } else { r.pick(&divisors(size, MOST_STOREYS)) };
    let width = r.pick(&divisors(size / storeys, LONGEST_SIDE));
    generate::board_of(r, [width, size / storeys / width, storeys])
}

/// A call on the board of the one before it, mostly, so that rounds build on each other.
fn next_call(r: &mut Random, before: Option<&Call>, size: u32) -> Call {
    match before {
        Some(call) if !r.once_in(4) && call.board.judge().is_ok() => {
            let next = generate::call(r, call.board.clone());
            if r.once_in(2) {
                next
            } else {
                call.clone()
            }
        }
        _ => {
            let board = board_for(r, size);
            generate::call(r, board)
        }
    }
}

/// Plays one list. Times and sides stay as long as they are all along, so 13 is not put in: it comes with boards of
/// another size. 14 is put in by the work list alone.
fn play_list(seed: u64, seen: &mut Seen) {
    let mut r = Random::new(seed);
    let size = r.pick(&[1, 6, 12, 16, 20, 24, 30, 36, 36, 48, 60, 100]);
    let held = Lengths::of(size as usize);
    let mut ledger = Ledger::new(&garbage_lists(&mut r, held).0);
    let (mut before, mut last) = (None, None);
    for _ in 0..r.within(5, 30) {
        let mut call = next_call(&mut r, before.as_ref(), size);
        let good = call.clone();
        let mut lengths = Lengths { work: 4 * call.board.size(), ..held }.longer(r.below(5));
        if r.once_in(4) {
            match r.pick(&CALL_CAUSES) {
                13 => {}
                14 => lengths.work = too_short(&mut r, lengths.work),
                cause => spoil_call(&mut r, &mut call, &mut lengths, cause),
            }
        }
        // records have no lists of unequal length
        let form = if are_unequal(&call.board) { Form::Plain } else { r.pick(&FORMS) };
        let (front, work) = (ledger.front().clone(), garbage(&mut r, lengths.work));
        let number = ledger.play(form.engine(), &call, &work, seed).number;
        seen.note(form, &call, number);
        if number == 0 {
            let (other, now) = (last.map_or(false, |last| last != form), ledger.front());
            seen.turns += u32::from(other && now.times != front.times);
            seen.sides_alone += u32::from(last.is_some() && now.times == front.times && now.sides != front.sides);
            last = Some(form);
        }
        before = Some(good);
    }
}

#[test]
fn lists_that_mix_records_and_plain_calls_keep_the_ledger() {
    let mut seen = Seen::default();
    for seed in 40_000_000..40_004_000 {
        play_list(seed, &mut seen);
    }
    // three kinds in two forms, accepted and refused
    assert!(seen.calls.len() == 12 && seen.calls.values().all(|&calls| calls > 1_200), "{:?}", seen.calls);
    for form in FORMS {
        seen.numbers[&form].assert_each(&CALL_CAUSES, 300);
    }
    assert!(seen.unequal > 500 && seen.turns > 10_000, "{} unequal, {} turns", seen.unequal, seen.turns);
    assert!(seen.sides_alone > 20, "sides alone altered by {} calls", seen.sides_alone);
}
