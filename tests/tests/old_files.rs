//! Files of the layouts before. Until card 10 ground and runs had one slowness of 2 bytes, and a file 16 + 10r + 8q
//! bytes; until card 12 the head had no storeys, and a file 18 + 12r + 8q bytes. The library reads every file by the
//! layout of today, so these are turned down: by 1 where their length does not fit it, which is so for all of the
//! second kind and for nearly all of the first, else by what the layout of today finds in them.

use second_solver::board::Board;
use second_solver::compare::{read_both, tablet_both, Lists};
use second_solver::declared::{files, repository};
use second_solver::ffi::{scenario::read, tablet::tablet_run};
use second_solver::generate;
use second_solver::programs::run;
use second_solver::random::Random;
use second_solver::rule::{equal, parts};
use second_solver::scenario::{judge, Held, Scenario};
use second_solver::{Cause, LATEST_START};
use std::fs;
use std::process::Command;

/// examples/three-by-three.scenario and examples/start-on-a-wall.scenario as they were before card 10, byte by byte.
const BARE: [&[u8]; 2] = [
    &[3, 0, 3, 0, 10, 0, 10, 0, 0, 0, 0, 0, 1, 0, 0, 0, 0, 0, 0, 0, 0, 0, 0, 0],
    &[5, 0, 3, 0, 10, 0, 10, 0, 1, 0, 0, 0, 1, 0, 0, 0, 7, 0, 0, 0, 1, 0, 0, 0, 0, 0, 7, 0, 0, 0, 0, 0, 0, 0],
];

/// The same two as they were before card 12.
#[rustfmt::skip]
const FLAT: [&[u8]; 2] = [
    &[3, 0, 3, 0, 10, 0, 10, 0, 10, 0, 0, 0, 0, 0, 1, 0, 0, 0, 0, 0, 0, 0, 0, 0, 0, 0],
    &[5, 0, 3, 0, 10, 0, 10, 0, 10, 0, 1, 0, 0, 0, 1, 0, 0, 0,
      7, 0, 0, 0, 1, 0, 0, 0, 0, 0, 0, 0, 7, 0, 0, 0, 0, 0, 0, 0],
];

/// A layout of before.
#[derive(Clone, Copy)]
enum Layout {
    /// One number a slowness, 2 bytes: before card 10.
    Bare,
    /// Pairs, and no storeys: before card 12.
    Flat,
}

const LAYOUTS: [Layout; 2] = [Layout::Bare, Layout::Flat];

impl Layout {
    /// The bytes of a slowness; none of an unequal pair where it is one number.
    fn slowness(self, s: u32) -> Option<Vec<u8>> {
        let [g, h] = parts(s).map(|number| (number as u16).to_le_bytes());
        match self {
            Layout::Bare => Some(g.to_vec()).filter(|_| g == h),
            Layout::Flat => Some([g, h].concat()),
        }
    }

    /// The file that such a scenario had; none of a house, and none where a slowness cannot be said.
    fn file_of(self, held: &Held) -> Option<Vec<u8>> {
        let board = Some(&held.board).filter(|board| board.storeys == 1)?;
        let mut runs: Vec<(u32, u32, u32)> = Vec::new();
        for (c, &s) in (0..).zip(&board.slow) {
            match runs.last_mut() {
                _ if s == held.ground => {}
                Some((offset, length, slowness)) if *slowness == s && *offset + *length == c => *length += 1,
                _ => runs.push((c, 1, s)),
            }
        }
        let head = [board.width, board.height, held.ticks];
        let mut file: Vec<u8> = head.iter().flat_map(|&number| (number as u16).to_le_bytes()).collect();
        file.extend(self.slowness(held.ground)?);
        file.extend([runs.len(), board.cells.len()].iter().flat_map(|&count| (count as u32).to_le_bytes()));
        for (offset, length, slowness) in runs {
            file.extend([offset, length].iter().flat_map(|number| number.to_le_bytes()));
            file.extend(self.slowness(slowness)?);
        }
        file.extend(board.starts().iter().flat_map(|start| [start.cell, start.time]).flat_map(u32::to_le_bytes));
        Some(file)
    }
}

/// What the reader answers to a file that is not accepted, the lists left as they were.
fn refused(file: &[u8]) -> Cause {
    let lists = Lists { slow: vec![7; 1_024], cells: vec![8; 1_024], begins: vec![9; 1_024] };
    let (answer, after) = read_both(read, file, &lists, 0);
    let cause = Cause { number: answer.number, place: answer.place };
    assert!(cause.number > 0 && answer == Scenario::refused(cause) && after == lists, "{:?}", answer);
    cause
}

/// The number by which the tablet's call and `rings` refuse a file.
fn shown_refused(file: &[u8]) -> u64 {
    let number = tablet_both(tablet_run, file, 65_536, [8, 8], &[0xEE; 4_096], 0).0;
    let printed = run(&mut Command::new(repository().join("target/bin/rings")), file);
    assert_eq!(String::from_utf8_lossy(&printed.stdout), format!("refused {}\n", number));
    number
}

/// Three by three, slowness 10, a start in cell 0; five by three with a start on its one wall, which is cell 7.
fn typed() -> [Held; 2] {
    let ten = equal(10);
    let three = Board { width: 3, height: 3, storeys: 1, slow: vec![ten; 9], cells: vec![0], begins: vec![0] };
    let mut walled = Board { width: 5, slow: vec![ten; 15], cells: vec![7], ..three.clone() };
    walled.slow[7] = 0;
    [three, walled].map(|board| Held { ticks: 10, ground: ten, board })
}

#[test]
fn the_old_files_typed_by_hand_are_turned_down_by_their_length() {
    for (layout, typed_files) in LAYOUTS.into_iter().zip([BARE, FLAT]) {
        for (held, file) in typed().iter().zip(typed_files) {
            assert_eq!(layout.file_of(held).as_deref(), Some(file));
            assert_eq!((refused(file), shown_refused(file)), (1.into(), 1));
        }
    }
}

/// The files that the examples had, or would have had.
#[test]
fn the_old_examples_are_turned_down_by_their_length() {
    let mut lengths = [Vec::new(), Vec::new()];
    for path in files(&repository().join("examples"), ".scenario") {
        let now = fs::read(&path).expect("a scenario");
        let held = match judge(&now, None) {
            Ok(held) => held,
            Err(_) => typed()[1].clone(),
        };
        for (layout, lengths) in LAYOUTS.into_iter().zip(&mut lengths) {
            if let Some(old) = layout.file_of(&held) {
                assert_eq!((refused(&old), shown_refused(&old)), (1.into(), 1), "{}", path.display());
                lengths.push([old.len(), now.len()]);
            }
        }
    }
    assert_eq!(lengths[0], [[672, 804], [76, 84], [1_452, 1_740], [34, 40], [24, 28]]);
    assert_eq!(lengths[1][..6], [[802, 804], [82, 84], [1_738, 1_740], [266, 268], [38, 40], [26, 28]]);
    assert_eq!(lengths[1][6..], [[302, 304], [398, 400], [314, 316]], "the valleys");
}

/// Those before card 12 by 1 all of them: divided by 4 their lengths leave 2, and those of today nothing. Those before
/// card 10 by 1 mostly.
#[test]
fn old_files_of_random_boards_are_turned_down() {
    let (mut bare, mut flat, mut fit) = (0, 0, 0);
    for seed in 96_000_000..96_008_000 {
        let held = generate::small_scenario(&mut Random::new(seed));
        if let Some(old) = Layout::Flat.file_of(&held) {
            assert_eq!(refused(&old), 1.into(), "seed {}", seed);
            flat += 1;
        }
        if let Some(old) = Layout::Bare.file_of(&held) {
            let number = refused(&old).number;
            assert!([1, 3, 5, 21].contains(&number), "seed {}: {}", seed, number);
            bare += 1;
            fit += u32::from(number != 1);
        }
    }
    assert!(bare > 1_000 && flat > 3_000 && fit < bare / 10, "{} and {} old files, {} fit", bare, flat, fit);
}

/// A file of before card 10 of ten by ten cells: ground, ticks, starts on the first cells, and runs of every second
/// cell from `first` on.
fn bare_file(ticks: u32, ground: u32, runs: u32, starts: u32, first: u32) -> Vec<u8> {
    let mut slow = vec![equal(ground); 100];
    (0..runs).for_each(|i| slow[(first + 2 * i) as usize] = equal(20));
    let cells: Vec<u32> = (0..starts).collect();
    let board = Board { width: 10, height: 10, storeys: 1, slow, begins: vec![0; cells.len()], cells };
    Layout::Bare.file_of(&Held { ticks, ground: equal(ground), board }).expect("equal pairs")
}

/// A file of before card 10 with r runs, the first from cell o on, and q starts is as long as the layout of today says
/// just where 5r = 2 + 2q + 4o. Then the old ticks are the storeys, the old ground the ticks, and the old count of runs
/// is the ground, whose second number is 0. So it is refused by 3 where its ground was a wall, else by 21; for the
/// tablet and `rings` the old ticks may make it too large, which is looked for before that.
#[test]
fn files_before_pairs_whose_length_chances_to_fit_are_read_by_the_layout_of_today() {
    let mut fit = 0;
    for runs in 0..=12 {
        for starts in 0..=12 {
            for first in 0..=12 {
                let old = |ticks, ground| bare_file(ticks, ground, runs, starts, first);
                let fits = 5 * runs == 2 + 2 * starts + 4 * first;
                let told = format!("{} runs from {} on, {} starts", runs, first, starts);
                let want = if fits { [21, 3, 21] } else { [1; 3] };
                assert_eq!(
                    [old(10, 10), old(10, 0), old(65_535, 30)].map(|old| refused(&old).number),
                    want,
                    "{}",
                    told
                );
                if fits {
                    let shown = [old(10, 10), old(10, 0), old(11, 10), old(0x0400, 0)].map(|old| shown_refused(&old));
                    assert_eq!(shown, [21, 3, 15, 15], "{}", told);
                }
                fit += u32::from(fits);
            }
        }
    }
    assert!(fit > 20, "{} that fit", fit);
}

/// The same by 5, which comes before 21: where there were more than 4,095 runs, their count being the ground's first
/// number now, and where the bytes of runs and starts are read as a run of a pair that is too slow.
#[test]
fn files_before_pairs_that_fit_may_have_a_pair_that_is_too_slow() {
    let large = |runs: u32, starts: u32| {
        let slow = (0..65_536).map(|c| if c < runs { equal(20 + c % 2) } else { equal(10) }).collect();
        let cells: Vec<u32> = (0..starts).collect();
        let board = Board { width: 256, height: 256, storeys: 1, slow, begins: vec![LATEST_START; cells.len()], cells };
        Layout::Bare.file_of(&Held { ticks: 1, ground: equal(10), board }).expect("equal pairs")
    };
    // 5r = 2 + 2q, the first run being from cell 0 on
    for (runs, starts, number) in [(4_096, 10_239, 5), (26_214, 65_534, 5), (4_096, 10_238, 1)] {
        assert_eq!(refused(&large(runs, starts)), number.into(), "{} runs, {} starts", runs, starts);
    }
    let slow = (0..100).map(|c| if c == 0 || c == 50 { equal(4_095) } else { equal(10) }).collect();
    let cells: Vec<u32> = vec![1, 2, 3, 4];
    let board = Board { width: 10, height: 10, storeys: 1, slow, begins: vec![LATEST_START; 4], cells };
    let old = Layout::Bare.file_of(&Held { ticks: 1, ground: equal(10), board }).expect("equal pairs");
    assert_eq!((refused(&old), shown_refused(&old)), (5.into(), 5));
}
