//! The second solver beside itself: its quick ways give what its plain ways give, and both give what
//! document 01 prints. No function of the engine is called here.

use second_solver::board::{judge_starts, judge_storeys, Board, Grid, OFF};
use second_solver::calls::{Call, Kind, Lengths, MOST_WORKED};
use second_solver::generate;
use second_solver::leap::run_by_leaps;
use second_solver::march::{cut, march, met, solved_by_front, solved_by_passes, Front};
use second_solver::random::Random;
use second_solver::rule::{diagonal_step, equal, local, local_by_search, pair, parts, sides};
use second_solver::scenario::{file_of, judge};
use second_solver::shown::rings;
use second_solver::tiles::{altered, round, run_every_round, Tiling};
use second_solver::typed::{house, open_house, HOUSE, HOUSE_LINES, HOUSE_TIMES, OPEN_HOUSE_TIMES};
use second_solver::{Cause, Reply, LARGEST, NEVER};

/// Three by three, slowness 10, start cell 0 at 0.
fn three_by_three() -> Board {
    Board { width: 3, height: 3, storeys: 1, slow: vec![equal(10); 9], cells: vec![0], begins: vec![0] }
}

const SOLVED: [u32; 9] = [0, 10, 20, 10, 18, 26, 20, 26, 34];

/// Left is 1, above is 4.
const SIDES: [u8; 9] = [0, 1, 1, 4, 5, 5, 4, 5, 5];

fn solved_front() -> Front {
    Front { times: SOLVED.to_vec(), sides: SIDES.to_vec() }
}

/// The third axis is for equal pairs.
#[test]
fn halving_finds_what_the_search_finds() {
    for seed in 0..100_000 {
        let mut r = Random::new(seed);
        let g = r.spread(4_095);
        let h = if r.once_in(2) { g } else { r.spread(4_095) };
        let s = if g == 0 || h == 0 { 0 } else { pair(g, h) };
        let apart = r.spread(2 * g.max(h) + 2);
        let mut time = || if r.once_in(5) { NEVER } else { 1_000 + r.within(0, apart) };
        let mut near = [time(), time(), time(), time(), time(), time()];
        if g != h {
            near[4..].fill(NEVER);
        }
        assert_eq!(local(s, near), local_by_search(s, near), "seed {}", seed);
    }
}

#[test]
fn equal_times_add_the_diagonal_step() {
    for s in 1..=4_095 {
        let near = [9, NEVER, 9, NEVER, NEVER, NEVER];
        assert_eq!(local(equal(s), near), 9 + diagonal_step(s), "slowness {}", s);
    }
}

/// One cell with the slowness 10 and the times a, b and z on its three axes, as worked by hand.
#[test]
fn three_axes_are_those_worked_by_hand() {
    let typed = [([0, 0, 0], 6), ([0, 0, 7], 8), ([0, 0, 6], 8), ([0, 0, 1], 7), ([0, 4, 8], 9), ([0, NEVER, 0], 8)];
    for ([a, b, z], t) in typed {
        for [a, b, z] in [[a, b, z], [a, z, b], [b, a, z], [b, z, a], [z, a, b], [z, b, a]] {
            let near = [a, NEVER, NEVER, b, NEVER, z];
            assert_eq!([local(equal(10), near), local_by_search(equal(10), near)], [t; 2], "{} {} {}", a, b, z);
        }
    }
}

/// Of every four boards two are houses and one is flat and has unequal pairs; no house has any.
#[test]
fn half_of_the_random_boards_are_houses_and_half_of_the_others_have_unequal_pairs() {
    let is_unequal = |s: &u32| parts(*s)[0] != parts(*s)[1];
    let (mut of_storeys, mut unequal) = ([0; 9], 0);
    for seed in 0..4_000 {
        let board = generate::board(&mut Random::new(seed), 14);
        assert_eq!(board.judge(), Ok(()), "seed {}: {:?}", seed, board);
        of_storeys[board.storeys as usize] += 1;
        unequal += u32::from(board.slow.iter().any(is_unequal));
    }
    assert!((1_800..2_200).contains(&of_storeys[1]) && (800..1_200).contains(&unequal), "{} unequal", unequal);
    assert!(of_storeys[2..].iter().all(|&boards| boards > 200), "{:?}", of_storeys);
}

/// Two wide, three high, two storeys: the cells 0 to 5, then 6 to 11.
#[test]
fn neighbours_are_those_counted_by_hand() {
    let board = Board { width: 2, height: 3, storeys: 2, slow: vec![equal(1); 12], ..open_house() };
    let near = Grid::new(&board).near;
    assert_eq!(near[0], [OFF, 1, OFF, 2, 6, OFF]);
    assert_eq!(near[3], [2, OFF, 1, 5, 9, OFF]);
    // the last row of a storey is not above the first of the next
    assert_eq!(near[4], [OFF, 5, 2, OFF, 10, OFF]);
    assert_eq!(near[6], [OFF, 7, OFF, 8, OFF, 0]);
    assert_eq!(near[11], [10, OFF, 9, OFF, OFF, 5]);
}

/// Tiles of two by two on a board of three by three: each has its cells in both storeys.
#[test]
fn tiles_span_all_storeys() {
    let board = Board { width: 3, height: 3, storeys: 2, slow: vec![equal(1); 18], ..open_house() };
    let tiling = Tiling::new(&Grid::new(&board), 2, 2);
    let storey = [0, 0, 1, 0, 0, 1, 2, 2, 3];
    assert_eq!(tiling.of, [storey, storey].concat());
}

#[test]
fn the_houses_are_those_worked_by_hand() {
    assert_eq!(solved_by_passes(&Grid::new(&open_house())), OPEN_HOUSE_TIMES);
    assert_eq!(solved_by_passes(&Grid::new(&house().board)), HOUSE_TIMES);
    assert_eq!(judge(&HOUSE, None), Ok(house()));
    assert_eq!(file_of(&house().board, 10, equal(10)), HOUSE);
    assert_eq!(rings(&HOUSE), HOUSE_LINES);
}

/// Slownesses do not matter for the first; 90 × 90 × 8 is 64,800 and 91 × 91 × 8 is 66,248.
#[test]
fn storeys_are_judged_as_worked_by_hand() {
    let judged = |width, height, storeys, slow: &[u32]| judge_storeys([width, height, storeys], slow);
    let refused = Err(Cause { number: 23, place: 0 });
    for (width, height, storeys) in [(1, 1, 0), (1, 1, 9), (256, 256, 2), (91, 91, 8), (256, 256, NEVER), (1, 1, NEVER)]
    {
        assert_eq!(judged(width, height, storeys, &[]), refused, "{} × {} × {}", width, height, storeys);
    }
    for (width, height, storeys) in [(1, 1, 1), (1, 1, 8), (256, 256, 1), (256, 32, 8), (90, 90, 8)] {
        assert_eq!(judged(width, height, storeys, &[equal(10), 0]), Ok(()), "{} × {} × {}", width, height, storeys);
    }
    assert_eq!([judged(2, 1, 1, &[0, pair(10, 11)]), judged(2, 1, 2, &[0, pair(10, 11)])], [Ok(()), refused]);
}

#[test]
fn front_and_passes_find_the_same_times_and_every_cell_meets_the_rule() {
    for seed in 0..4_000 {
        let mut r = Random::new(seed);
        let longest = if r.once_in(50) { 60 } else { 14 };
        let board = generate::board(&mut r, longest);
        let grid = Grid::new(&board);
        let times = solved_by_front(&grid);
        assert_eq!(times, solved_by_passes(&grid), "seed {}: {:?}", seed, board);
        for c in 0..grid.size() {
            assert_eq!(times[c], met(&grid, c, |e| times[e]), "seed {}, cell {}: {:?}", seed, c, board);
        }
    }
}

/// What each single round of a run leaves, as document 01 works it by hand.
#[test]
fn rounds_of_the_three_by_three_board_are_those_worked_by_hand() {
    let grid = Grid::new(&three_by_three());
    assert_eq!(solved_by_passes(&grid), SOLVED);
    assert_eq!(cut(SOLVED.to_vec(), 33)[8], NEVER);
    let tiling = Tiling::new(&grid, 2, 2);
    let first = round(&grid, &tiling, 20, &[NEVER; 9]);
    assert_eq!(first.times, [0, 10, NEVER, 10, 18, NEVER, NEVER, NEVER, NEVER]);
    assert_eq!(first.sides, [0, 1, 0, 4, 5, 0, 0, 0, 0]);
    let second = round(&grid, &tiling, 34, &first.times);
    assert_eq!(second.times, [0, 10, 20, 10, 18, 26, 20, 26, NEVER]);
    assert_eq!(second.sides, [0, 1, 1, 4, 5, 5, 4, 5, 0]);
    let third = round(&grid, &tiling, 34, &second.times);
    assert_eq!(third, solved_front());
    assert_eq!(altered(&second.times, &third.times), 1);
    assert_eq!(march(&grid, 34), solved_front());
    assert_eq!(run_every_round(&grid, &tiling, 20, 34), (4, solved_front()));
    assert_eq!(run_every_round(&grid, &Tiling::new(&grid, 3, 3), 20, 34), (3, solved_front()));
}

/// One axis after another: the first of two if both are as early, the second only if it is earlier, none that is not
/// before the answer; and none at all where the answer is never.
#[test]
fn sides_are_those_worked_by_hand() {
    let n = NEVER;
    for (near, answer, byte) in [
        ([0, n, n, n, n, n], 10, 1),
        ([n, 0, n, n, n, n], 10, 2),
        ([3, 3, n, n, n, n], 13, 1),
        ([4, 3, n, n, n, n], 13, 2),
        ([3, 4, n, n, n, n], 13, 1),
        ([0, n, 10, n, n, n], 10, 1),
        ([0, n, 9, n, n, n], 10, 5),
        ([0, n, 9, 9, n, n], 10, 5),
        ([0, n, 10, 9, n, n], 10, 9),
        ([10, 10, 0, 0, n, n], 10, 4),
        ([n, 5, n, 5, n, 5], 11, 42),
        ([5, 5, 5, 5, 5, 5], 11, 21),
        ([n, n, n, n, 7, 6], 16, 32),
        ([n, n, n, n, 7, 7], 17, 16),
        ([0, 0, 0, 0, 0, 0], n, 0),
        ([n, n, n, n, n, n], n, 0),
    ] {
        assert_eq!(sides(near, answer), byte, "{:?} and the answer {}", near, answer);
    }
}

/// Card 6's trap: a round that alters sides and no time. Round 2 brings cell 2 its time from the right; cell 1, which is
/// reached in that round, is as early as cell 3, and round 3, which sees it, names the left.
#[test]
fn a_round_turns_sides_and_alters_no_time() {
    let board =
        Board { width: 4, height: 1, storeys: 1, slow: vec![equal(1); 4], cells: vec![0, 3], begins: vec![0, 1] };
    let grid = Grid::new(&board);
    let tiling = Tiling::new(&grid, 1, 1);
    let mut times = vec![NEVER; 4];
    for (want, sides) in [
        ([0, NEVER, NEVER, 1], [0, 0, 0, 0]),
        ([0, 1, 2, 1], [0, 1, 2, 0]),
        ([0, 1, 2, 1], [0, 1, 1, 0]),
        ([0, 1, 2, 1], [0, 1, 1, 0]),
    ] {
        let after = round(&grid, &tiling, 10, &times);
        assert_eq!(after, Front { times: want.to_vec(), sides: sides.to_vec() });
        times = after.times;
    }
    assert_eq!(run_every_round(&grid, &tiling, 10, 10), (3, march(&grid, 10)));
}

#[test]
fn leaps_count_the_rounds_that_are_worked_out() {
    let mut many = 0;
    for seed in 0..6_000 {
        let mut r = Random::new(seed);
        let board = generate::board(&mut r, 10);
        let grid = Grid::new(&board);
        let [across, down] = generate::tile(&mut r, &board);
        let tiling = Tiling::new(&grid, across, down);
        let horizon = generate::horizon(&mut r, &board);
        let stride = generate::stride(&mut r, board.size(), horizon);
        let (count, times) = run_by_leaps(&grid, &tiling, stride, horizon);
        if count * board.size() as u64 <= MOST_WORKED {
            let (worked, left) = run_every_round(&grid, &tiling, stride, horizon);
            let told = format!("seed {}, tiles {} by {}, stride {}, horizon {}", seed, across, down, stride, horizon);
            assert_eq!((worked, left.times), (count, times), "{}: {:?}", told, board);
            many += u32::from(count > 1_000);
        }
    }
    assert!(many > 100, "too few long runs were worked out: {}", many);
}

#[test]
fn three_hundred_million_rounds_are_counted() {
    let grid = Grid::new(&three_by_three());
    let (count, times) = run_by_leaps(&grid, &Tiling::new(&grid, 1, 1), 1, LARGEST);
    assert_eq!((count, times), (u64::from(LARGEST), SOLVED.to_vec()));
}

#[test]
fn a_refused_call_alters_nothing_and_an_accepted_one_clears_its_work() {
    let kind = Kind::March { horizon: 33 };
    let call = Call { board: three_by_three(), kind };
    let good = Lengths::of(9).longer(4);
    for (lengths, number) in [
        (Lengths { times: 8, ..good }, 13),
        (Lengths { times: 10, sides: 8, ..good }, 13),
        (Lengths { sides: 8, ..good }, 14),
        (Lengths { sides: 10, ..good }, 14),
        (Lengths { work: 35, ..good }, 14),
    ] {
        let (mut front, mut work) = lengths.filled();
        assert_eq!(call.play(&mut front, &mut work), Reply::refused(number), "{:?}", lengths);
        assert_eq!((front, work), lengths.filled());
    }
    let (mut front, mut work) = good.filled();
    let later = work[36..].to_vec();
    assert_eq!(call.play(&mut front, &mut work), Reply::accepted(8));
    assert_eq!(front, Front { times: cut(SOLVED.to_vec(), 33), sides: [&SIDES[..8], &[0]].concat() });
    assert_eq!(work, [vec![0; 36], later].concat());
}

/// What card 2 has for lists of starts on nine cells, the last of which is a wall, by hand: number and place.
#[test]
fn lists_of_starts_are_judged_as_worked_by_hand() {
    let slow = [[equal(10); 8].to_vec(), vec![0]].concat();
    let judged = |cells: &[u32], late: u32| judge_starts(&slow, cells, &vec![late; cells.len()]);
    for (cells, number, place) in [
        (&[9][..], 7, 0),
        (&[0, 3, 9, 9], 7, 2),
        (&[3, 3, 0, 9], 7, 3),
        (&[3, 3], 18, 1),
        (&[3, 0, 1, 1], 18, 1),
        (&[0, 3, 4, 4, 1], 18, 3),
        (&[8, 3], 18, 1),
    ] {
        for late in [0, 1_000_001] {
            assert_eq!(judged(cells, late), Err(Cause { number, place }), "{:?}", cells);
        }
    }
    assert_eq!(judged(&[3, 8], 1_000_001), Err(Cause { number: 8, place: 0 }));
    assert_eq!(judged(&[3, 8], 0), Err(Cause { number: 9, place: 0 }));
    assert_eq!([judged(&[], 0), judged(&[7], 0), judged(&[0, 1, 7], 1_000_000)], [Ok(()); 3]);
}

#[test]
fn a_file_that_is_written_holds_the_board() {
    for seed in 0..5_000 {
        let mut r = Random::new(seed);
        let board = generate::board(&mut r, 12);
        let held = generate::scenario(&mut r, board);
        let file = file_of(&held.board, held.ticks, held.ground);
        assert_eq!(judge(&file, None), Ok(held), "seed {}", seed);
    }
}

#[test]
fn rings_of_the_three_by_three_board_are_those_worked_by_hand() {
    let file = file_of(&three_by_three(), 10, equal(10));
    assert_eq!(file.len(), 28);
    assert_eq!(rings(&file), "3 3 10\n0 1 2\n1 2 3\n2 3 4\n");
    assert_eq!(rings(&file[..27]), "refused 1\n");
}

/// What a march gives to the second solver, with lists as long as they must be.
fn marched(board: Board, times: usize) -> (Reply, Vec<u32>) {
    let (mut front, mut work) = Lengths::of(times).filled();
    let reply = Call { board, kind: Kind::March { horizon: LARGEST } }.play(&mut front, &mut work);
    (reply, front.times)
}

#[test]
fn the_other_boards_are_those_worked_by_hand() {
    let no_starts = Board { cells: vec![], begins: vec![], ..three_by_three() };
    assert_eq!(marched(no_starts, 9), (Reply::accepted(0), vec![NEVER; 9]));
    let late = Board { cells: vec![0, 1], begins: vec![0, 15], ..three_by_three() };
    assert_eq!(marched(late, 9), (Reply::accepted(9), SOLVED.to_vec()));
    for (begin, reply) in [(1_000_000, Reply::accepted(9)), (1_000_001, Reply::refused(8))] {
        let board = Board { begins: vec![begin], ..three_by_three() };
        assert_eq!(marched(board, 9).0, reply, "start time {}", begin);
    }
    for (width, height, reply) in [
        (256, 1, Reply::accepted(256)),
        (1, 256, Reply::accepted(256)),
        (257, 1, Reply::refused(2)),
        (0, 256, Reply::refused(2)),
    ] {
        let size = (width * height) as usize;
        let board = Board { width, height, storeys: 1, slow: vec![equal(10); size], ..three_by_three() };
        assert_eq!(marched(board, size).0, reply, "{} by {}", width, height);
    }
}
