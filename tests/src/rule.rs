//! The local rule, sides, D and turn numbers.

use crate::{LocalReply, Reply, TurnReply, LARGEST, NEVER, SLOWEST};

/// A slowness as lists and files have it: g along the row, h down the column, each of 16 bits.
pub const fn pair(g: u32, h: u32) -> u32 {
    g + 65_536 * h
}

/// The pair whose numbers are both s.
pub const fn equal(s: u32) -> u32 {
    pair(s, s)
}

/// The two numbers of a pair.
pub const fn parts(slowness: u32) -> [u32; 2] {
    [slowness % 65_536, slowness / 65_536]
}

/// A time that is handed in counts as never above 300,000,000.
pub fn counted(time: u32) -> u32 {
    if time > LARGEST {
        NEVER
    } else {
        time
    }
}

/// The earlier time on each axis: of left and right, of above and below, of over and under.
pub fn axes([left, right, above, below, over, under]: [u32; 6]) -> [u32; 3] {
    [left.min(right), above.min(below), over.min(under)]
}

/// Whether p² × h² + q² × g² + r² × g² is at least g² × h², p, q and r being what t is later than a, b and z.
pub fn passes([g, h]: [u32; 2], axes: [u32; 3], t: u32) -> bool {
    let square = |number: u32| u64::from(number).pow(2);
    let [p, q, r] = axes.map(|time| square(t.saturating_sub(time)));
    let (g, h) = (square(g), square(h));
    p * h + q * g + r * g >= g * h
}

/// The local rule as cards 10 and 12 have it: t is tried from the earliest of a, b and z on. The slowness is a pair, a
/// wall or open; the times are those left, right, above, below, over and under.
pub fn local_by_search(slowness: u32, near: [u32; 6]) -> u32 {
    let axes = axes(near);
    let mut t = earliest(axes);
    if slowness == 0 || t == NEVER {
        return NEVER;
    }
    while !passes(parts(slowness), axes, t) {
        t += 1;
    }
    t
}

/// The same by halving: a time that passes stays so when it is made later, and g ticks after a or z or h after b one
/// passes.
pub fn local(slowness: u32, near: [u32; 6]) -> u32 {
    let axes @ [a, b, z] = axes(near);
    let first = earliest(axes);
    if slowness == 0 || first == NEVER {
        return NEVER;
    }
    let [g, h] = parts(slowness);
    let (mut fails, mut holds) = (first, earliest([a.saturating_add(g), b.saturating_add(h), z.saturating_add(g)]));
    if axes.iter().filter(|&&time| time < holds).count() == 1 {
        return holds;
    }
    while holds - fails > 1 {
        let t = fails + (holds - fails) / 2;
        if passes([g, h], axes, t) {
            holds = t;
        } else {
            fails = t;
        }
    }
    holds
}

fn earliest(times: [u32; 3]) -> u32 {
    times[0].min(times[1]).min(times[2])
}

/// One side of an axis, as card 6 has it: the first of its two neighbours, as 1, if its time is below the answer and
/// not above the other's; otherwise the second, as 2, if below the answer; otherwise none, as 0.
fn side_of_axis(first: u32, second: u32, answer: u32) -> u8 {
    if first < answer && first <= second {
        1
    } else if second < answer {
        2
    } else {
        0
    }
}

/// The byte of a cell's sides, from the times that it sees and its answer: those of the row, 4 × those of the column
/// and 16 × those of the storeys. An answer that is never has none.
pub fn sides([left, right, above, below, over, under]: [u32; 6], answer: u32) -> u8 {
    if answer == NEVER {
        return 0;
    }
    side_of_axis(left, right, answer) + 4 * side_of_axis(above, below, answer) + 16 * side_of_axis(over, under, answer)
}

/// D(s): the least d with 2d² at least s².
pub fn diagonal_step(s: u32) -> u32 {
    let mut d = 0;
    while 2 * d * d < s * s {
        d += 1;
    }
    d
}

/// What the call `local_rule` answers.
pub fn local_rule([g, h]: [u32; 2], times: [u32; 6]) -> LocalReply {
    if g > SLOWEST || h > SLOWEST {
        return LocalReply::refused(5);
    }
    if (g == 0) != (h == 0) {
        return LocalReply::refused(21);
    }
    let near = times.map(counted);
    if g != h && axes(near)[2] != NEVER {
        return LocalReply::refused(23);
    }
    let time = local(pair(g, h), near);
    LocalReply::accepted(time, sides(near, time))
}

/// What the call `diagonal` answers.
pub fn diagonal(s: u32) -> Reply {
    if s > SLOWEST {
        return Reply::refused(5);
    }
    Reply::accepted(diagonal_step(s))
}

/// What the call `turn` answers. A time on a turn's end is of that turn and has nothing to go; any other is of the
/// next turn to close. The turn of never is the never mark, with nothing to go.
pub fn turn(time: u32, ticks: u32) -> TurnReply {
    if ticks == 0 || ticks > 65_535 {
        return TurnReply::refused(3);
    }
    if counted(time) == NEVER {
        return TurnReply::accepted(NEVER, 0);
    }
    match (time / ticks, time % ticks) {
        (closed, 0) => TurnReply::accepted(closed, 0),
        (closed, since) => TurnReply::accepted(closed + 1, ticks - since),
    }
}
