//! Card 14, late ground cannot matter early: its premises and its conclusion, of two calls that were played.

use crate::board::{Board, Grid};
use crate::calls::{Call, Kind};
use crate::march::Front;
use crate::rule::parts;
use crate::tiles::ghosts;
use crate::NEVER;

/// T or later, or never. T may lie above every time, and above 32 bits.
pub fn is_late(time: u32, late_from: u64) -> bool {
    time == NEVER || u64::from(time) >= late_from
}

/// Neither number of the second pair is lower; a wall is highest of all.
pub fn is_no_lower(first: u32, second: u32) -> bool {
    let ([g, h], [second_g, second_h]) = (parts(first), parts(second));
    second == 0 || first != 0 && g <= second_g && h <= second_h
}

/// The cells whose ground differs.
pub fn differing(first: &Board, second: &Board) -> Vec<usize> {
    (0..first.slow.len()).filter(|&c| first.slow[c] != second.slow[c]).collect()
}

/// A call with the times that it found, the number that it answered and what it left.
pub struct Played {
    pub call: Call,
    pub found: Vec<u32>,
    pub number: u32,
    pub left: Front,
}

#[derive(Clone, Copy, Debug, PartialEq, Eq)]
pub enum Premise {
    /// Neither call is refused.
    Accepted,
    /// The same width, height and storeys.
    Size,
    Starts,
    /// The same horizon, for rounds the same bound and tiles. Runs end at the march's times whatever their tiles.
    Numbers,
    /// Rounds find the same stored times.
    Stored,
    /// No slowness of the second board is lower.
    NoLower,
    /// Every cell that differs is late in what the first call left.
    Late,
    /// For rounds, it is late too as the first board's tiles see it stored.
    LateStored,
}

/// The premises that do not hold of two rounds, or of two calls each of which is a march or a run, on boards of as many
/// cells.
pub fn broken(first: &Played, second: &Played, late_from: u64) -> Vec<Premise> {
    let (board, other) = (&first.call.board, &second.call.board);
    let is_round = matches!(first.call.kind, Kind::Round { .. });
    let seen = ghosts(&Grid::new(board), &first.found);
    let differing = differing(board, other);
    let all_late = |times: &[u32]| differing.iter().all(|&c| is_late(times[c], late_from));
    let premises = [
        (Premise::Accepted, first.number == 0 && second.number == 0),
        (Premise::Size, board.sides() == other.sides()),
        (Premise::Starts, board.starts() == other.starts()),
        (Premise::Numbers, shared(&first.call.kind) == shared(&second.call.kind)),
        (Premise::Stored, !is_round || first.found == second.found),
        (Premise::NoLower, board.slow.iter().zip(&other.slow).all(|(&s, &r)| is_no_lower(s, r))),
        (Premise::Late, all_late(&first.left.times)),
        (Premise::LateStored, !is_round || all_late(&seen)),
    ];
    premises.into_iter().filter(|(_, holds)| !holds).map(|(premise, _)| premise).collect()
}

/// What two calls have to share of their numbers: a horizon, or a bound and tiles.
fn shared(kind: &Kind) -> (u32, Option<[u32; 2]>) {
    match *kind {
        Kind::March { horizon } | Kind::Run { horizon, .. } => (horizon, None),
        Kind::Round { across, down, bound, .. } => (bound, Some([across, down])),
    }
}

/// The cells at which the conclusion fails: one earlier than T has another time or other sides, or one that was not
/// comes before T.
pub fn failing(first: &Front, second: &Front, late_from: u64) -> Vec<usize> {
    let fails = |c: &usize| {
        if is_late(first.times[*c], late_from) {
            !is_late(second.times[*c], late_from)
        } else {
            (first.times[*c], first.sides[*c]) != (second.times[*c], second.sides[*c])
        }
    };
    (0..first.times.len()).filter(fails).collect()
}
