//! The program `rings` beside the second solver, on the examples and on seeded files, damaged ones among them.

use second_solver::board::{Board, Grid};
use second_solver::compare::Tally;
use second_solver::declared::{files, repository};
use second_solver::drafts::{spoil_byte, Draft, FILE_CAUSES};
use second_solver::generate;
use second_solver::march::{cut, solved};
use second_solver::programs::{run, told};
use second_solver::random::Random;
use second_solver::rule::{equal, pair};
use second_solver::scenario::{file_of, Held};
use second_solver::shown::{self, SHOWN_CELLS, SHOWN_FILE, SHOWN_HORIZON, SHOWN_SIDE};
use second_solver::typed::{HOUSE, HOUSE_LINES};
use second_solver::NEVER;
use std::fs;
use std::io::Write;
use std::process::{Command, Stdio};
use std::time::Duration;

fn rings() -> Command {
    Command::new(repository().join("target/bin/rings"))
}

/// What the program prints for the file, which must be what the second solver prints.
fn shown(file: &[u8], seed: u64) -> String {
    let output = run(&mut rings(), file);
    let cause = || format!("seed {}, {} bytes: {}\n{}", seed, file.len(), output.status, told(&output));
    assert!(output.status.code().is_some() && output.stderr.is_empty(), "{}", cause());
    let want = shown::rings(file);
    assert!(output.stdout == want.as_bytes(), "{}\nand not\n{}", cause(), want);
    want
}

#[test]
fn the_examples_are_shown_as_they_stand() {
    let examples = files(&repository().join("examples"), ".scenario");
    assert!(examples.len() >= 10);
    for path in examples {
        let want = fs::read_to_string(path.with_extension("rings")).expect("what rings prints");
        assert_eq!(shown(&fs::read(&path).expect("a scenario"), 0), want, "{}", path.display());
    }
}

fn random_scenario(r: &mut Random, longest: u32) -> Held {
    let board = generate::board_within(r, longest, SHOWN_CELLS);
    generate::scenario(r, board)
}

/// Among their cells are ones reached as a turn closes, those at 0 not counted, ones with ticks to go, and never ones.
#[test]
fn good_files_are_shown_as_the_second_solver_shows_them() {
    let mut seen = [0; 3];
    for seed in 65_000_000..65_002_500 {
        let mut r = Random::new(seed);
        let longest = if r.once_in(8) { SHOWN_SIDE } else { 12 };
        let held = random_scenario(&mut r, longest);
        let lines = shown(&file_of(&held.board, held.ticks, held.ground), seed);
        assert!(!lines.starts_with("refused"), "seed {}: {}", seed, lines);
        for time in cut(solved(&Grid::new(&held.board)), SHOWN_HORIZON).into_iter().filter(|time| *time > 0) {
            seen[if time == NEVER { 2 } else { usize::from(time % held.ticks != 0) }] += 1;
        }
    }
    assert!(seen.iter().all(|cells| *cells > 5_000), "on a turn's end, with ticks to go, never: {:?}", seen);
}

/// One file in four is whole.
#[test]
fn damaged_files_are_refused_as_the_second_solver_refuses_them() {
    let causes = [&FILE_CAUSES[..], &[15]].concat();
    let mut tally = Tally::default();
    for seed in 66_000_000..66_008_000 {
        let mut r = Random::new(seed);
        let mut draft = Draft::of(&random_scenario(&mut r, 8));
        for _ in 0..r.below(4) {
            let cause = r.pick(&causes);
            draft.spoil(&mut r, cause);
        }
        let mut file = draft.bytes();
        if r.once_in(5) {
            spoil_byte(&mut r, &mut file);
        }
        let lines = shown(&file, seed);
        let number = lines.strip_prefix("refused ").map(|number| number.trim_end().parse().expect("a number"));
        tally.note(number.unwrap_or(0));
    }
    tally.assert_each(&causes, 50);
}

/// 7 beats 18, though its start comes last.
#[test]
fn a_start_at_fault_is_refused_by_the_number_alone() {
    for (cells, line) in [(vec![0, 9], "refused 7\n"), (vec![8, 0], "refused 18\n"), (vec![3, 3, 9], "refused 7\n")] {
        let begins = vec![0; cells.len()];
        let board = Board { width: 3, height: 3, storeys: 1, slow: vec![equal(10); 9], cells, begins };
        assert_eq!(shown(&file_of(&board, 10, equal(10)), 0), line, "{:?}", board.cells);
    }
}

/// 5 beats 21 wherever they stand, and 21 beats 6 and 7.
#[test]
fn a_pair_at_fault_is_refused_by_its_number() {
    let good = Board {
        width: 3,
        height: 1,
        storeys: 1,
        slow: [10, 20, 10].map(equal).to_vec(),
        cells: vec![0],
        begins: vec![0],
    };
    let line = |slow: [u32; 3], ground: u32, cell: u32| {
        shown(&file_of(&Board { slow: slow.to_vec(), cells: vec![cell], ..good.clone() }, 10, ground), 0)
    };
    let ten = equal(10);
    for half in [pair(10, 0), pair(0, 10)] {
        assert_eq!(line([ten, ten, half], ten, 3), "refused 21\n");
        assert_eq!(line([ten; 3], half, 3), "refused 21\n");
        for slow in [pair(4_096, 10), pair(10, 4_096), pair(0, 4_096), pair(4_096, 0)] {
            for pairs in [[half, slow, ten], [slow, half, ten]] {
                assert_eq!(line(pairs, ten, 0), "refused 5\n", "{:?}", pairs);
            }
            assert_eq!([line([half; 3], slow, 0), line([slow; 3], half, 0)], ["refused 5\n"; 2]);
        }
    }
    assert_eq!(line([ten, pair(1, 4_095), ten], ten, 0), "3 1 10\n0 1 2\n");
}

/// Storeys one below the other, the lowest number first, no line between, and the first line has the height of one.
#[test]
fn a_house_is_shown_storey_by_storey() {
    assert_eq!(shown(&HOUSE, 0), HOUSE_LINES);
    let slow = vec![equal(10); 8];
    let tower = Board { width: 1, height: 1, storeys: 8, slow: slow.clone(), cells: vec![2], begins: vec![0] };
    assert_eq!(shown(&file_of(&tower, 20, equal(10)), 0), "1 1 20\n1\n1\n0\n1\n1\n2\n2\n3\n");
    let row = Board { width: 4, height: 1, storeys: 2, slow, cells: vec![4], begins: vec![0] };
    assert_eq!(shown(&file_of(&row, 1, equal(10)), 0), "4 1 1\n10 18 26 35\n0 10 20 30\n");
}

/// The file of an even board of 10 with these storeys in its head.
fn of_storeys(width: u32, height: u32, storeys: u16) -> Vec<u8> {
    let slow = vec![equal(10); (width * height) as usize];
    let board = Board { width, height, storeys: u32::from(storeys), slow, cells: vec![0], begins: vec![0] };
    file_of(&board, 10, equal(10))
}

/// 15 takes N by the storeys that the file states, good or not: nine of them are 23 on a small board alone.
#[test]
fn houses_of_1024_cells_are_shown_and_15_is_judged_before_the_storeys_are() {
    for (width, height, storeys, first) in [(32, 32, 1, "32 32 10"), (16, 16, 4, "16 16 10"), (8, 16, 8, "8 16 10")] {
        let lines = shown(&of_storeys(width, height, storeys), 0);
        assert_eq!(lines.lines().next(), Some(first));
        assert_eq!(lines.lines().count() as u32, 1 + height * u32::from(storeys));
    }
    for (width, height, storeys) in [(32, 32, 2), (8, 16, 9), (32, 32, 9), (32, 32, 65_535), (1, 1, 1_025), (33, 1, 0)]
    {
        let line = shown(&of_storeys(width, height, storeys), 0);
        assert_eq!(line, "refused 15\n", "{} × {} × {}", width, height, storeys);
    }
    for (width, height, storeys) in [(3, 3, 9), (3, 3, 0), (32, 32, 0), (1, 1, 1_024), (10, 11, 9)] {
        let line = shown(&of_storeys(width, height, storeys), 0);
        assert_eq!(line, "refused 23\n", "{} × {} × {}", width, height, storeys);
    }
    let mut unequal = of_storeys(3, 3, 2);
    unequal[8] = 11;
    assert_eq!(shown(&unequal, 0), "refused 23\n");
    unequal[8] = 0;
    assert_eq!(shown(&unequal, 0), "refused 21\n");
    unequal[6] = 0;
    assert_eq!(shown(&unequal, 0), "refused 3\n");
    unequal[5] = 1;
    assert_eq!(shown(&unequal, 0), "refused 15\n");
}

/// 32 by 32, each cell a run and a start of its own.
fn largest() -> Vec<u8> {
    let cells: Vec<u32> = (0..1_024).collect();
    let begins = cells.iter().map(|c| c * 977 % 1_000_001).collect();
    let slow = cells.iter().map(|c| pair(4_094 + c % 2, 4_095)).collect();
    let file = file_of(&Board { width: 32, height: 32, storeys: 1, slow, cells, begins }, 7, equal(1));
    assert_eq!(file.len(), SHOWN_FILE);
    file
}

#[test]
fn files_of_20500_bytes_pass_and_longer_ones_are_refused_by_15_first() {
    let mut file = largest();
    assert!(shown(&file, 0).starts_with("32 32 7\n"));
    assert_eq!(shown(&file[..SHOWN_FILE - 1], 0), "refused 1\n");
    file.push(0);
    assert_eq!(shown(&file, 0), "refused 15\n");
    // as long as its head says, and still too long
    file.extend([0; 7]);
    file[16] = 1;
    file[17] = 4;
    assert_eq!(shown(&file, 0), "refused 15\n");
    for length in SHOWN_FILE - 1..=SHOWN_FILE + 1 {
        let want = if length > SHOWN_FILE { "refused 15\n" } else { "refused 1\n" };
        assert_eq!(shown(&vec![0xFF; length], 0), want, "{} bytes", length);
    }
}

#[test]
fn more_than_a_pipe_holds_is_refused_by_15_and_nothing_by_1() {
    for length in [65_535, 65_536, 65_537, 200_000, 3_000_000] {
        assert_eq!(shown(&vec![0; length], 0), "refused 15\n", "{} bytes", length);
    }
    let mut large = largest();
    large.resize(200_000, 0);
    assert_eq!(shown(&large, 0), "refused 15\n");
    for length in 0..20 {
        assert_eq!(shown(&vec![1; length], 0), "refused 1\n", "{} bytes", length);
    }
}

/// A file that comes in pieces, with pauses between: the program waits for its end.
#[test]
fn a_file_may_come_in_pieces() {
    let file = largest();
    for pieces in [1, 2, 5, 40] {
        let piped = rings().stdin(Stdio::piped()).stdout(Stdio::piped()).spawn();
        let mut child = piped.expect("target/bin/rings, which `tools/build rings` makes");
        let mut pipe = child.stdin.take().expect("a pipe");
        for piece in file.chunks(file.len() / pieces + 1) {
            pipe.write_all(piece).expect("a program that reads");
            pipe.flush().expect("a program that reads");
            std::thread::sleep(Duration::from_millis(5));
        }
        drop(pipe);
        let output = child.wait_with_output().expect("the program's end");
        assert!(output.stdout == shown::rings(&file).as_bytes(), "{} pieces: {}", pieces, told(&output));
    }
}
