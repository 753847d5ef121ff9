//! The engine's local rule, its sides and D beside a search.

use second_solver::ffi::local_rule::{diagonal, local_rule};
use second_solver::random::Random;
use second_solver::rule::{self, axes, counted, local_by_search, pair, passes, sides};
use second_solver::{LocalReply, Reply, LARGEST, NEVER, SLOWEST};
use std::collections::BTreeSet;

/// Six times of which the earlier of the first two is a, of the next two b and of the last two z; the others are later
/// or never.
fn placed([a, b, z]: [u32; 3], way: u32) -> [u32; 6] {
    let later = |t: u32| if way & 4 == 0 { NEVER } else { t.saturating_add(way) };
    let two = |t: u32, swapped: bool| if swapped { [later(t), t] } else { [t, later(t)] };
    let ([left, right], [above, below], [over, under]) =
        (two(a, way & 1 > 0), two(b, way & 2 > 0), two(z, way & 8 > 0));
    [left, right, above, below, over, under]
}

/// The same without neighbours over and under.
fn flat(a: u32, b: u32, way: u32) -> [u32; 6] {
    placed([a, b, NEVER], way)
}

/// The answer must be this time, with the sides that the times as they count give it, or this refusal.
fn check(slowness: [u32; 2], times: [u32; 6], want: Result<u32, u32>) {
    let want = match want {
        Ok(time) => LocalReply::accepted(time, sides(times.map(counted), time)),
        Err(number) => LocalReply::refused(number),
    };
    compare(slowness, times, want);
}

fn compare(slowness: [u32; 2], times: [u32; 6], want: LocalReply) {
    let got = local_rule(slowness, times);
    assert_eq!(got, want, "g and h {:?}, left right above below over under {:?}", slowness, times);
}

/// Every order of three.
fn orders([a, b, z]: [u32; 3]) -> [[u32; 3]; 6] {
    [[a, b, z], [a, z, b], [b, a, z], [b, z, a], [z, a, b], [z, b, a]]
}

/// The rule of document 01, for one slowness: whether p² + q² is at least s².
fn passes_of_old(s: u32, a: u32, b: u32, t: u32) -> bool {
    let (p, q) = (t.saturating_sub(a), t.saturating_sub(b));
    p * p + q * q >= s * s
}

/// Every slowness with every difference of a and b that matters, both ways round, early and late.
#[test]
fn equal_pairs_give_the_least_time_of_the_old_rule_for_every_slowness_and_difference() {
    let mut way = 0;
    for s in 1..=SLOWEST {
        // the step grows with the difference, so the search goes on from where it stood
        let mut step = 0;
        for difference in 0..=s + 2 {
            while !passes_of_old(s, 0, difference, step) {
                step += 1;
            }
            assert!(step == 0 || !passes_of_old(s, 0, difference, step - 1), "the search went past a time that passes");
            let latest = LARGEST - difference;
            for first in [0, (s * 73_244 + difference * 31) % latest, latest] {
                let want = Ok(first + step);
                check([s, s], flat(first, first + difference, way), want);
                check([s, s], flat(first + difference, first, way + 1), want);
                way = (way + 1) % 8;
            }
        }
    }
}

/// Unequal pairs of every order of magnitude, with every difference of a and b that matters: the later of the two is
/// passed, or not, by the earlier one's own step.
#[test]
fn unequal_pairs_give_the_least_time_that_passes_for_every_difference() {
    let ends = [[1, SLOWEST], [SLOWEST, 1], [SLOWEST, SLOWEST - 1], [SLOWEST - 1, SLOWEST], [2, 1], [1, 2], [10, 20]];
    let mut r = Random::new(3);
    let others = (0..400).map(|_| [r.spread(SLOWEST).max(1), r.spread(SLOWEST).max(1)]);
    for (i, [g, h]) in ends.into_iter().chain(others).enumerate() {
        for (of_earlier, is_row) in [(g, true), (h, false)] {
            let [mut step, way] = [0, i as u32 % 8];
            for difference in 0..=of_earlier + 2 {
                let [a, b] = if is_row { [0, difference] } else { [difference, 0] };
                while !passes([g, h], [a, b, NEVER], step) {
                    step += 1;
                }
                let first = (g * 73_244 + h * 977 + difference * 31) % (LARGEST - difference);
                check([g, h], flat(first + a, first + b, way), Ok(first + step));
            }
        }
    }
}

/// The same by trying every time from the earlier of the two on.
#[test]
fn local_rule_is_what_a_search_from_the_earlier_time_finds() {
    for g in (0..=20).chain([1_000, 2_047, 2_048, 4_094, 4_095]) {
        for h in (0..=20).chain([g, g + 1, 4_095]).filter(|&h| h <= SLOWEST && (g == 0) == (h == 0)) {
            for difference in (0..=g.max(h) + 2).step_by(1 + g.max(h) as usize / 50) {
                for [a, b] in [[17, 17 + difference], [17 + difference, 17]] {
                    let times = flat(a, b, difference % 8);
                    check([g, h], times, Ok(local_by_search(pair(g, h), times)));
                }
            }
        }
    }
}

/// The rule of card 12 for an equal pair, worked out in whole numbers from the earliest time on: the least t with p² +
/// q² + r² at least s².
fn by_three_squares(s: u32, times: [u32; 3]) -> u32 {
    let first = times.into_iter().min().expect("three times");
    if s == 0 || first == NEVER {
        return NEVER;
    }
    let squares = |t: u32| times.into_iter().filter(|&time| time < t).map(|time| (t - time).pow(2)).sum::<u32>();
    (first..).find(|&t| squares(t) >= s * s).expect("a time")
}

/// Every slowness to 12 and every three times to past it, never among them, placed in every way: ties, times that do
/// not count any more, and two or three axes that do.
#[test]
fn all_small_times_on_three_axes_are_the_rules() {
    let mut of_axes = [0; 4];
    for s in 0..=12 {
        let times = || (0..=s + 1).chain([NEVER]);
        for a in times() {
            for b in times() {
                for z in times() {
                    let want = by_three_squares(s, [a, b, z]);
                    for way in 0..16 {
                        check([s, s], placed([a, b, z], way), Ok(want));
                    }
                    let count = [a, b, z].into_iter().filter(|&time| want != NEVER && time < want).count();
                    of_axes[count] += 1;
                }
            }
        }
    }
    assert!(of_axes[1..].iter().all(|&cases| cases > 400), "cases by how many axes count: {:?}", of_axes);
}

/// Every slowness, with differences of the three times that lie close to each other, to where an axis does not count
/// any more, and anywhere; early, late and at the end of what is a time.
#[test]
fn three_axes_give_the_least_time_that_passes_for_every_slowness() {
    let (mut seed, mut three) = (0, 0);
    for s in 1..=SLOWEST {
        for _ in 0..24 {
            let mut r = Random::new(seed);
            seed += 1;
            let [one, other] = [(); 2].map(|()| match r.below(4) {
                0 => r.below(3),
                1 => (s + r.below(3)).saturating_sub(1),
                2 => (diagonal(s).count + r.below(5)).saturating_sub(2),
                _ => r.within(0, s),
            });
            let latest = LARGEST - one.max(other);
            let first = match r.below(3) {
                0 => 0,
                1 => latest,
                _ => r.within(0, latest),
            };
            let mut times = [first, first + one, first + other];
            r.shuffle(&mut times);
            let six = placed(times, r.below(16));
            let t = local_rule([s, s], six).time;
            check([s, s], six, Ok(t));
            let least = t > first && passes([s, s], times, t) && !passes([s, s], times, t - 1);
            assert!(least, "slowness {}, {:?} gives {}", s, times, t);
            three += u32::from(times.iter().all(|&time| time < t));
        }
    }
    assert!(three > 20_000, "all three axes count in {} cases only", three);
}

/// For an equal pair no axis is another than the rest, and on each the earlier of two times counts, wherever it stands.
#[test]
fn the_three_axes_are_alike_for_an_equal_pair() {
    for seed in 0..20_000 {
        let mut r = Random::new(seed);
        let (s, apart) = (number(&mut r), r.spread(2 * SLOWEST));
        let times = [(); 3].map(|()| if r.once_in(6) { NEVER } else { r.within(0, apart) });
        let want = local_rule([s, s], placed(times, 0)).time;
        for times in orders(times) {
            check([s, s], placed(times, r.below(16)), Ok(want));
        }
    }
}

/// 23 looks at the two times alone, and not at what they would do: an unequal pair may have neither, however late, but
/// for times above 300,000,000, which are never.
#[test]
fn an_unequal_pair_has_no_neighbours_over_and_under() {
    let unequal = [[10, 20], [20, 10], [1, SLOWEST], [SLOWEST, SLOWEST - 1]];
    for [g, h] in unequal {
        for time in [0, 1, 7, 1_000_000, LARGEST - 1, LARGEST] {
            for [over, under] in [[time, NEVER], [NEVER, time], [time, time], [time, LARGEST + 1]] {
                check([g, h], [0, 0, 0, 0, over, under], Err(23));
                check([g, h], [NEVER, NEVER, NEVER, NEVER, over, under], Err(23));
            }
        }
        let [step, alone] = [Ok(local_rule([g, h], [0, NEVER, 0, NEVER, NEVER, NEVER]).time), Ok(g)];
        for never in [LARGEST + 1, LARGEST + 2, 1 << 31, NEVER - 1, NEVER] {
            check([g, h], [0, NEVER, 0, NEVER, never, NEVER], step);
            check([g, h], [NEVER, 0, never, NEVER, NEVER, never], alone);
            check([g, h], [never; 6], Ok(NEVER));
        }
    }
}

/// 5 is looked for before 21, and 21 before 23, which half a wall would have too.
#[test]
fn of_several_causes_the_first_in_order_is_given() {
    for near in [[0; 6], [NEVER, NEVER, NEVER, NEVER, 0, NEVER], [0, 0, 0, 0, NEVER, 5], [NEVER; 6]] {
        for [g, h] in [[4_096, 0], [0, 4_096], [4_096, 10], [10, 65_536], [NEVER, 1]] {
            check([g, h], near, Err(5));
        }
        for [g, h] in [[10, 0], [0, 10], [1, 0], [0, SLOWEST]] {
            check([g, h], near, Err(21));
        }
    }
    check([10, 11], [0; 6], Err(23));
    check([0, 0], [0; 6], Ok(NEVER));
}

/// One number of a pair, the extremes more often than others.
fn number(r: &mut Random) -> u32 {
    match r.below(6) {
        0 => r.pick(&[1, 2, SLOWEST - 1, SLOWEST]),
        1 => r.within(1, SLOWEST),
        _ => r.spread(SLOWEST).max(1),
    }
}

/// Whether the byte names on each axis the earlier of its two times, the first where both are as early, if that is
/// before the answer, and none where it is not.
fn are_named(byte: u32, near: [u32; 6], answer: u32) -> bool {
    let is_named = |axis: usize| {
        let [first, second] = [near[2 * axis], near[2 * axis + 1]];
        match byte >> (2 * axis) & 3 {
            0 => first.min(second) >= answer,
            1 => first < answer && first <= second,
            2 => second < answer && second < first,
            _ => false,
        }
    };
    byte < 64 && (0..3).all(is_named)
}

/// Half of the pairs are unequal, half equal; 1 and 4,095, and 4,095 and 4,094 are among them, and times just before
/// and behind never and 300,000,000. Half of the cells have neighbours over and under, which is 23 for unequal pairs.
/// What is answered is held to the definition itself: it passes, and nothing from the earliest of a, b and z on does
/// before it. On each axis the earlier of two is named, the first of equal ones, and only where it is before the
/// answer.
#[test]
fn a_million_seeded_calls_are_the_definitions() {
    let (mut unequal, mut extreme, mut at_the_limit, mut refused, mut three) = (0, 0, 0, 0, 0);
    for seed in 0..1_000_000 {
        let mut r = Random::new(seed);
        let g = number(&mut r);
        let h = if r.once_in(2) { number(&mut r) } else { g };
        let about = if r.once_in(4) { LARGEST - r.spread(2 * SLOWEST) } else { r.spread(LARGEST) };
        let apart = r.spread(3 * SLOWEST);
        let mut time = || match r.below(9) {
            0 => NEVER,
            1 => r.pick(&[NEVER - 1, LARGEST + 1, LARGEST + 2, 1 << 31]),
            2 => r.within(LARGEST - 2 * SLOWEST, LARGEST),
            3 => r.any(),
            _ => about + r.within(0, apart),
        };
        let mut times = [time(), time(), time(), time(), time(), time()];
        if seed % 2 == 0 {
            times[4..].fill(NEVER);
        }
        let want = rule::local_rule([g, h], times);
        compare([g, h], times, want);
        let (axes, t) = (axes(times.map(counted)), want.time);
        let first = axes.into_iter().min().expect("three axes");
        if want.number != 0 {
            assert!(want == LocalReply::refused(23) && g != h && axes[2] != NEVER, "seed {}", seed);
            refused += 1;
        } else if first == NEVER {
            assert_eq!((t, want.sides), (NEVER, 0), "seed {}", seed);
        } else {
            assert!(are_named(want.sides, times.map(counted), t), "seed {}: {:?} gives {:?}", seed, times, want);
            // a time that passes stays so when it is made later, so the one just before it is enough
            let least = t > first && passes([g, h], axes, t) && !passes([g, h], axes, t - 1);
            assert!(least, "seed {}: g {}, h {}, {:?} gives {}", seed, g, h, times, t);
            three += u32::from(axes.iter().all(|&time| time < t));
        }
        unequal += u32::from(g != h);
        extreme += u32::from([[1, SLOWEST], [SLOWEST, 1], [SLOWEST, SLOWEST - 1]].contains(&[g, h]));
        at_the_limit += u32::from(first != NEVER && t > LARGEST);
    }
    assert!((400_000..600_000).contains(&unequal), "{} unequal pairs", unequal);
    assert!(extreme > 1_000 && at_the_limit > 10_000, "{} extreme pairs, {} past 300,000,000", extreme, at_the_limit);
    assert!(refused > 100_000 && three > 30_000, "{} refused, {} with three axes", refused, three);
}

/// All six times and both numbers at the ends of their ranges, and beyond.
#[test]
fn local_rule_agrees_at_the_ends_of_the_ranges() {
    let times = [0, LARGEST - 1, LARGEST, LARGEST + 1, NEVER];
    let numbers = [0, 1, 2, 10, SLOWEST - 1, SLOWEST, SLOWEST + 1, 65_535, 65_536, 1 << 31, NEVER];
    for g in numbers {
        for h in numbers {
            for code in 0..5usize.pow(6) {
                let six = [1, 5, 25, 125, 625, 3_125].map(|place| times[code / place % 5]);
                compare([g, h], six, rule::local_rule([g, h], six));
            }
        }
    }
}

/// 5 looks at both numbers before 21 does. The pair (s, 0) is what a caller of the old rule hands in, whose one number
/// stood where g does now.
#[test]
fn numbers_that_are_too_large_are_5_and_one_zero_alone_is_21() {
    for above in [4_096, 4_097, 65_535, 65_536, 1 << 31, NEVER] {
        for other in [0, 1, 10, 4_095, 4_096, NEVER] {
            check([above, other], [0; 6], Err(5));
            check([other, above], [NEVER; 6], Err(5));
        }
    }
    for s in 1..=SLOWEST {
        check([s, 0], flat(0, 0, 0), Err(21));
        check([0, s], [NEVER; 6], Err(21));
    }
}

/// The boards worked by hand that are about one cell, as document 01 prints them, with equal pairs, then some with
/// three axes; a, b and z may stand in any order. Then an unequal pair, for which they may not.
#[test]
fn local_rule_gives_the_values_worked_by_hand() {
    let worked = [
        (10, [0, NEVER, NEVER], 10),
        (10, [0, 0, NEVER], 8),
        (10, [0, 4, NEVER], 9),
        (10, [0, 5, NEVER], 10),
        (10, [0, 10, NEVER], 10),
        (5, [0, 1, NEVER], 4),
        (1, [0, 0, NEVER], 1),
        (0, [0, 0, NEVER], NEVER),
        (10, [0, 0, 0], 6),
        (10, [0, 0, 7], 8),
        (10, [0, 0, 6], 8), // 7² + 7² + 1² is 99
        (10, [0, 0, 5], 7),
        (10, [0, 4, 8], 9),
        (10, [0, 4, 9], 9),
        (10, [0, 5, 9], 10), // 9² + 4² is 97
        (10, [0, 5, 7], 9),
        (3, [0, 0, 1], 2), // 2² + 2² + 1² is just 3²
        (3, [0, 0, 2], 3),
        (1, [0, 0, 0], 1),
        (0, [0, 0, 0], NEVER),
    ];
    let unequal = [(0, NEVER, 10), (NEVER, 0, 20), (0, 0, 9), (NEVER, NEVER, NEVER)];
    for way in 0..16 {
        for (s, times, t) in worked {
            for times in orders(times) {
                check([s, s], placed(times, way), Ok(t));
            }
        }
        for (a, b, t) in unequal {
            check([10, 20], flat(a, b, way), Ok(t));
            check([20, 10], flat(b, a, way), Ok(t));
        }
    }
    // (26 - 20)² × 20² + (26 - 10)² × 10² is 14,400 + 25,600, just 10² × 20²
    check([10, 20], flat(20, 10, 0), Ok(26));
}

/// A board seen across its diagonal: g and h change places where the row's times and the column's do, and so do sides.
#[test]
fn the_row_is_to_g_what_the_column_is_to_h() {
    let mut differ = 0;
    for seed in 0..100_000 {
        let mut r = Random::new(seed);
        let [g, h, a, b] = [number(&mut r), number(&mut r), r.below(5_000), r.below(5_000)];
        let way = r.below(8);
        // the two lowest bits say where the earlier of left and right and of above and below stand
        let [row, column] = [flat(a, b, way), flat(b, a, way & 4 | way << 1 & 2 | way >> 1 & 1)];
        let [want, got] = [local_rule([g, h], row), local_rule([h, g], column)];
        let swapped = want.sides % 4 * 4 + want.sides / 4;
        assert_eq!((got.time, got.sides), (want.time, swapped), "g {}, h {}, {:?}", g, h, row);
        differ += u32::from(want.time != local_rule([g, h], column).time);
    }
    assert!(differ > 50_000, "it matters in {} cases only", differ);
}

/// Typed: g and h, the six times, the answer and its sides. Left and right, above and below, over and under as early as
/// each other, each of two earlier by a tick; axes that are just before the answer, at it and past it. A rule that took
/// the second of equal ones, or an axis that is not before the answer, would differ.
#[test]
#[rustfmt::skip]
fn sides_are_those_worked_by_hand() {
    let n = NEVER;
    for (g, h, times, time, sides) in [
        (10, 10, [5, 5, n, n, n, n], 15, 1), (10, 10, [6, 5, n, n, n, n], 15, 2), (10, 10, [5, 6, n, n, n, n], 15, 1),
        (10, 10, [n, n, 5, 5, n, n], 15, 4), (10, 10, [n, n, 6, 5, n, n], 15, 8), (10, 10, [n, n, 5, 6, n, n], 15, 4),
        (10, 10, [n, n, n, n, 5, 5], 15, 16), (10, 10, [n, n, n, n, 6, 5], 15, 32),
        (10, 10, [n, n, n, n, 5, 6], 15, 16), (10, 10, [0, 0, 0, 0, n, n], 8, 5), (10, 10, [0, 0, 0, 0, 0, 0], 6, 21),
        (10, 10, [n, 0, n, 0, n, 0], 6, 42), (10, 10, [1, 0, 0, 1, n, n], 8, 6), (10, 10, [0, n, 4, n, n, n], 9, 5),
        (10, 10, [0, n, n, 8, n, n], 10, 9), (10, 10, [0, n, n, 9, n, n], 10, 9), (10, 10, [0, n, 9, 9, n, n], 10, 5),
        (10, 10, [0, n, 10, 10, n, n], 10, 1), (10, 10, [0, n, 10, 9, n, n], 10, 9),
        (10, 10, [10, 10, n, 0, n, n], 10, 8), (10, 10, [0, n, 0, n, 7, n], 8, 21), (10, 10, [0, n, 0, n, 8, n], 8, 5),
        (10, 10, [0, n, 0, n, 8, 7], 8, 37), (10, 20, [n, 20, 10, n, n, n], 26, 6), (10, 20, [0, 0, n, n, n, n], 10, 1),
        (20, 10, [15, 15, 5, 6, n, n], 15, 4), (10, 20, [0, 0, 300_000_001, n, n, n], 10, 1),
        (0, 0, [0, 0, 0, 0, 0, 0], n, 0), (1, 1, [n; 6], n, 0),
    ] {
        compare([g, h], times, LocalReply::accepted(time, sides));
    }
}

/// Every six times to 4, never among them: all ties of the six at once, with the slownesses by which an axis counts,
/// just counts and does not.
#[test]
fn all_small_times_on_six_sides_name_the_sides_of_the_definition() {
    let times = [0, 1, 2, 3, 4, NEVER];
    let mut bytes = BTreeSet::new();
    for code in 0..6usize.pow(6) {
        let six = [1, 6, 36, 216, 1_296, 7_776].map(|place| times[code / place % 6]);
        for s in [1, 2, 3, 5] {
            compare([s, s], six, rule::local_rule([s, s], six));
            bytes.insert(local_rule([s, s], six).sides);
        }
    }
    // none, or one of two, on each of three axes
    assert_eq!(bytes.len(), 27, "{:?}", bytes);
}

/// Times above 300,000,000 are before the answer as bare numbers, and no sides all the same: they count as never.
#[test]
fn times_that_count_as_never_are_no_sides() {
    for late in [LARGEST + 1, LARGEST + 5, LARGEST + 9] {
        let n = NEVER;
        for (times, sides) in [
            ([late, n, LARGEST, n, n, n], 4),
            ([late, late, n, LARGEST, late, late], 8),
            ([LARGEST, late, late, n, n, late], 1),
            ([late, LARGEST, late, late, n, n], 2),
            ([n, late, n, late, n, LARGEST], 32),
        ] {
            compare([10, 10], times, LocalReply::accepted(LARGEST + 10, sides));
        }
        compare([10, 10], [late; 6], LocalReply::accepted(n, 0));
    }
}

#[test]
fn diagonal_is_the_least_step_for_every_slowness() {
    for s in 0..=SLOWEST {
        let got = diagonal(s);
        assert_eq!(got, rule::diagonal(s), "D({})", s);
        let d = got.count;
        assert!(2 * d * d >= s * s && (d == 0 || 2 * (d - 1) * (d - 1) < s * s), "D({}) is {}", s, d);
    }
    assert_eq!([0, 7, 4_095].map(|s| diagonal(s).count), [0, 5, 2_896]);
}

/// D is kept up to 255 and worked out above: by hand, on both sides of that bound.
#[test]
fn diagonal_goes_on_where_its_table_ends() {
    // 2 × 181² = 65,522 is at least 255² = 65,025 and below 256² = 65,536; 2 × 182² = 66,248
    assert_eq!([254, 255, 256, 257].map(|s| diagonal(s).count), [180, 181, 182, 182]);
}

/// Where a = b the local rule adds D to an equal pair. D serves there alone: beside an unequal pair's step stand the D
/// of both its numbers, and it lies between them.
#[test]
fn local_rule_adds_the_diagonal_step_of_an_equal_pair_where_both_times_are_equal() {
    for s in 1..=SLOWEST {
        for t in [0, 5, 123_456_789, LARGEST] {
            check([s, s], flat(t, t, s % 8), Ok(t + diagonal(s).count));
        }
    }
    let step = local_rule([10, 20], flat(0, 0, 4)).time;
    assert_eq!([diagonal(10).count, step, diagonal(20).count], [8, 9, 15]);
}

/// D serves where the third square is zero: where z is not before a + D. Three equal times take a shorter step.
#[test]
fn the_diagonal_step_serves_where_the_third_time_is_not_before_it() {
    for s in 1..=SLOWEST {
        let (t, d) = (1_000 + s * 17, diagonal(s).count);
        for later in [t + d, t + d + 1, t + s, t + 2 * s, LARGEST, LARGEST + 1] {
            for times in orders([t, t, later.max(t + d)]) {
                check([s, s], placed(times, s % 16), Ok(t + d));
            }
        }
        let three = local_rule([s, s], placed([t; 3], s % 16)).time - t;
        assert!(3 * three * three >= s * s && 3 * (three - 1) * (three - 1) < s * s, "slowness {}: {}", s, three);
        assert!(three < d || s < 8, "slowness {}: {} and {}", s, three, d);
    }
}

#[test]
fn diagonal_refuses_a_slowness_above_4095() {
    let mut r = Random::new(1);
    for s in [4_096, 4_097, 8_191, 8_192, 65_535, 65_536, 1 << 31, NEVER - 1, NEVER] {
        assert_eq!(diagonal(s), Reply::refused(5), "D({})", s);
    }
    for _ in 0..10_000 {
        let s = r.within(4_096, NEVER);
        assert_eq!(diagonal(s), Reply::refused(5), "D({})", s);
    }
}
