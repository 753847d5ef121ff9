//! One call played twice, on the engine and on the second solver, and compared in all that it answers
//! and leaves.

use crate::board::Board;
use crate::calls::Call;
use crate::lent::{difference, Lent};
use crate::march::Front;
use crate::scenario::{self, Held, Scenario};
use crate::shown;
use crate::Reply;
use std::collections::BTreeMap;
use std::fmt::Debug;

/// The engine's way to play a call: one of `ffi`.
pub type Engine = fn(&Call, &mut [u32], &mut [u8], &mut [u32]) -> Reply;

/// Answer, times and sides, and work of the engine alone, for a call on lists that hold these.
pub fn engine_alone(engine: Engine, call: &Call, front: &Front, work: &[u32]) -> (Reply, Front, Vec<u32>) {
    let (mut times, mut sides, mut work) = (Lent::new(&front.times), Lent::new(&front.sides), Lent::new(work));
    let reply = engine(call, times.lend(), sides.lend(), work.lend());
    let left = Front { times: times.back().to_vec(), sides: sides.back().to_vec() };
    (reply, left, work.back().to_vec())
}

/// One list of times and one of sides, held twice: the engine is lent its own from call to call, the second solver
/// keeps its own. Neither is ever set to what the other holds.
pub struct Ledger {
    lent_times: Lent<u32>,
    lent_sides: Lent<u8>,
    kept: Front,
}

impl Ledger {
    pub fn new(front: &Front) -> Ledger {
        Ledger { lent_times: Lent::new(&front.times), lent_sides: Lent::new(&front.sides), kept: front.clone() }
    }

    pub fn front(&self) -> &Front {
        &self.kept
    }

    /// Plays the next call on both, with work lists that hold `work`; answers what both answer.
    pub fn play(&mut self, engine: Engine, call: &Call, work: &[u32], seed: u64) -> Reply {
        let (before, mut want_work) = (self.kept.clone(), work.to_vec());
        let want = call.play(&mut self.kept, &mut want_work);
        let mut lent_work = Lent::new(work);
        let got = engine(call, self.lent_times.lend(), self.lent_sides.lend(), lent_work.lend());
        let told = || format!("seed {}: {:?}\nwith {:?}\nand {} work entries", seed, call, before, work.len());
        assert_eq!(got, want, "the answer, {}", told());
        assert_same("times", self.lent_times.back(), &self.kept.times, told);
        assert_same("sides", self.lent_sides.back(), &self.kept.sides, told);
        assert_same("work", lent_work.back(), &want_work, told);
        want
    }
}

/// Plays the call on lists that hold `front` and `work`; answers what both answer, and the times and sides that both
/// leave.
pub fn play_both(engine: Engine, call: &Call, front: &Front, work: &[u32], seed: u64) -> (Reply, Front) {
    let mut ledger = Ledger::new(front);
    let reply = ledger.play(engine, call, work, seed);
    (reply, ledger.kept)
}

/// The engine's way to read a file: one of `ffi`.
pub type Reader = fn(&[u8], &mut [u32], &mut [u32], &mut [u32]) -> Scenario;

/// The lists that a reader is lent.
#[derive(Clone, Debug, PartialEq, Eq)]
pub struct Lists {
    pub slow: Vec<u32>,
    pub cells: Vec<u32>,
    pub begins: Vec<u32>,
}

/// Reads a file into lists that hold `lists`; answers what both answer, and what both leave.
pub fn read_both(reader: Reader, file: &[u8], lists: &Lists, seed: u64) -> (Scenario, Lists) {
    let mut want_lists = lists.clone();
    let want = scenario::read(file, &mut want_lists.slow, &mut want_lists.cells, &mut want_lists.begins);
    let (mut slow, mut cells, mut begins) = (Lent::new(&lists.slow), Lent::new(&lists.cells), Lent::new(&lists.begins));
    let got = reader(file, slow.lend(), cells.lend(), begins.lend());
    let told = || {
        let lengths = [lists.slow.len(), lists.cells.len(), lists.begins.len()];
        format!("seed {}: lists of {:?}, a file of {} bytes, {:?}..", seed, lengths, file.len(), start_of(file))
    };
    assert_eq!(got, want, "the answer, {}", told());
    assert_same("slownesses", slow.back(), &want_lists.slow, told);
    assert_same("start cells", cells.back(), &want_lists.cells, told);
    assert_same("start times", begins.back(), &want_lists.begins, told);
    (want, want_lists)
}

/// The engine's way to write a file: one of `ffi`.
pub type Writer = fn(&Board, u32, u32, &mut [u8]) -> Reply;

/// Writes a file into a list that holds `out`; answers what both answer, and the bytes that both leave.
pub fn write_both(writer: Writer, held: &Held, out: &[u8], seed: u64) -> (Reply, Vec<u8>) {
    let mut want_out = out.to_vec();
    let want = scenario::write(&held.board, held.ticks, held.ground, &mut want_out);
    let mut lent = Lent::new(out);
    let got = writer(&held.board, held.ticks, held.ground, lent.lend());
    let told = || format!("seed {}: {} bytes lent for {:?}", seed, out.len(), held);
    assert_eq!(got, want, "the answer, {}", told());
    assert_same("bytes", lent.back(), &want_out, told);
    (want, want_out)
}

/// The library's way to play the tablet's call: that of `ffi`.
pub type Tablet = fn(&[u8], u32, u32, u32, &mut [u8]) -> u64;

/// Plays the tablet's call on a list that holds `out`; answers what both answer, and the bytes that both leave.
pub fn tablet_both(tablet: Tablet, file: &[u8], stride: u32, tile: [u32; 2], out: &[u8], seed: u64) -> (u64, Vec<u8>) {
    let mut want_out = out.to_vec();
    let want = shown::tablet(file, stride, tile[0], tile[1], &mut want_out);
    let mut lent = Lent::new(out);
    let got = tablet(file, stride, tile[0], tile[1], lent.lend());
    let told = || {
        let (lent, begin) = (out.len(), start_of(file));
        format!("seed {}: stride {}, tiles {:?}, {} bytes lent, a file {:?}..", seed, stride, tile, lent, begin)
    };
    assert_eq!(got, want, "the answer, {}", told());
    assert_same("out", lent.back(), &want_out, told);
    (want, want_out)
}

/// As much of a file as a message has room for.
fn start_of(file: &[u8]) -> &[u8] {
    &file[..file.len().min(200)]
}

/// How often each number was answered, 0 for accepted.
#[derive(Default)]
pub struct Tally(BTreeMap<u32, u32>);

impl Tally {
    pub fn note(&mut self, number: u32) {
        *self.0.entry(number).or_default() += 1;
    }

    pub fn calls(&self) -> u32 {
        self.0.values().sum()
    }

    /// Acceptance and each of the causes came at least so often, and no other number did.
    pub fn assert_each(&self, causes: &[u32], least: u32) {
        for number in causes.iter().chain([&0]) {
            let given = self.0.get(number).copied().unwrap_or(0);
            assert!(given >= least, "{} was given {} times only", number, given);
        }
        for (number, given) in &self.0 {
            assert!(*number == 0 || causes.contains(number), "{} was given {} times", number, given);
        }
    }
}

pub fn assert_same<T: PartialEq + Debug>(what: &str, got: &[T], want: &[T], told: impl Fn() -> String) {
    if let Some(at) = difference(got, want) {
        panic!("{}: {}, {}", what, at, told());
    }
}
