//! Turn numbers and ticks to go beside the second solver, beside a clock that goes tick by tick, and typed by hand.

use second_solver::ffi::turn::turn;
use second_solver::random::Random;
use second_solver::rule;
use second_solver::{TurnReply, LARGEST, NEVER};

/// What the call answers is what the second solver does; and turn × ticks is the time and the ticks to go, which are
/// fewer than a turn has.
fn check(time: u32, ticks: u32) -> TurnReply {
    let got = turn(time, ticks);
    assert_eq!(got, rule::turn(time, ticks), "time {}, ticks {}", time, ticks);
    if got.number == 0 && time <= LARGEST {
        let closes = u64::from(got.turn) * u64::from(ticks);
        assert_eq!(closes, u64::from(time) + u64::from(got.to_go), "time {}, ticks {}", time, ticks);
        assert!(got.to_go < ticks, "time {}, ticks {}: {:?}", time, ticks, got);
    }
    got
}

/// The times of the three-by-three board, the first and the last of a turn, and the ends of what is a time.
#[test]
fn turns_typed_by_hand() {
    let typed =
        [(0, 0, 0), (10, 1, 0), (20, 2, 0), (18, 2, 2), (26, 3, 4), (34, 4, 6), (1, 1, 9), (9, 1, 1), (11, 2, 9)];
    for (time, number, to_go) in typed {
        assert_eq!(turn(time, 10), TurnReply::accepted(number, to_go), "time {}", time);
    }
    assert_eq!(turn(300_000_000, 65_535), TurnReply::accepted(4_578, 19_230));
    assert_eq!(turn(300_000_000, 1), TurnReply::accepted(300_000_000, 0));
    assert_eq!([turn(300_000_001, 1), turn(300_000_001, 65_535), turn(NEVER, 10)], [TurnReply::accepted(NEVER, 0); 3]);
    assert_eq!([turn(10, 0), turn(10, 65_536), turn(NEVER, 0)], [TurnReply::refused(3); 3]);
}

/// Every time from 0 to 200,000. The clock knows no division: a tick later there is a tick less to go, and where
/// there was none the next turn has just begun.
#[test]
fn every_time_of_a_long_game_has_the_turn_of_a_clock() {
    for ticks in [1, 2, 9, 10, 65_535] {
        let mut clock = TurnReply::accepted(0, 0);
        for time in 0..=200_000 {
            assert_eq!(check(time, ticks), clock, "time {}, ticks {}", time, ticks);
            clock = match clock.to_go {
                0 => TurnReply::accepted(clock.turn + 1, ticks - 1),
                to_go => TurnReply::accepted(clock.turn, to_go - 1),
            };
        }
    }
}

#[test]
fn times_and_ticks_around_every_limit_have_their_turns() {
    let around = |mid: u32| mid.saturating_sub(2)..=mid.saturating_add(2);
    for ticks in [0, 10, 255, 256, 65_535, 65_536, 1 << 31, NEVER].into_iter().flat_map(around) {
        for time in [0, 10, 65_535, 65_536, 1_000_000, LARGEST, 1 << 31, NEVER].into_iter().flat_map(around) {
            check(time, ticks);
        }
    }
}

/// Every number of ticks that passes, at both ends of a turn.
#[test]
fn the_first_and_the_last_time_of_a_turn_are_its() {
    let mut r = Random::new(60_000_000);
    for ticks in 1..=65_535 {
        let number = r.within(1, LARGEST / ticks);
        for to_go in [ticks - 1, 0] {
            let time = number * ticks - to_go;
            assert_eq!(turn(time, ticks), TurnReply::accepted(number, to_go), "time {}, ticks {}", time, ticks);
        }
    }
}

/// To the largest time and beyond, and ticks that are refused among them.
#[test]
fn random_times_have_their_turns() {
    let mut r = Random::new(61_000_000);
    let mut seen = [0; 3];
    for _ in 0..1_000_000 {
        let time = if r.once_in(2) { r.any() } else { r.spread(LARGEST) };
        let ticks = if r.once_in(20) { r.any() } else { r.spread(65_535) };
        let got = check(time, ticks);
        seen[if got.number != 0 { 0 } else { 1 + usize::from(got.turn == NEVER) }] += 1;
    }
    assert!(seen.iter().all(|count| *count > 10_000), "refused, in time, never: {:?}", seen);
}
