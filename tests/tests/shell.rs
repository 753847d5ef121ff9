//! `examples/shell.c` and `examples/tablet.c`: compiled with every warning an error, run beside the second solver on
//! boards of all sizes, and under valgrind.

use second_solver::board::{Board, Grid};
use second_solver::calls;
use second_solver::declared::{files, refusals, repository};
use second_solver::generate;
use second_solver::march::{cut, solved};
use second_solver::programs::{compiled, empty_folder, printed, run, run_into_full, told, valgrind};
use second_solver::random::Random;
use second_solver::rule::{equal, pair};
use second_solver::scenario::{file_of, judge, Held};
use second_solver::shown::{tablet, turns, SHOWN_HORIZON, SHOWN_SIDE};
use second_solver::tiles::{bound_of, round, Tiling};
use second_solver::typed::open_house;
use second_solver::NEVER;
use std::fs;
use std::path::{Path, PathBuf};
use std::process::Command;

/// The program of examples/ in a folder of the test's own.
fn program(source: &str, test: &str) -> PathBuf {
    compiled(source, &empty_folder(env!("CARGO_TARGET_TMPDIR"), test))
}

fn shell(test: &str) -> PathBuf {
    program("examples/shell.c", test)
}

fn example(name: &str) -> PathBuf {
    repository().join("examples").join(name)
}

/// What the shell must print: the lines of `rings`, those of the sides, and the rounds.
struct Lines {
    turns: String,
    sides: String,
    rounds: String,
}

fn lines(held: &Held, stride: u32, across: u32, down: u32, horizon: u32) -> Lines {
    let grid = Grid::new(&held.board);
    let (rounds, left) = calls::run(&grid, &Tiling::new(&grid, across, down), stride, horizon);
    let mut sides = String::new();
    for (times, bytes) in left.times.chunks(grid.width).zip(left.sides.chunks(grid.width)) {
        let fields: Vec<String> = times.iter().zip(bytes).map(|(&time, &byte)| letters(time, byte)).collect();
        sides += &(fields.join(" ") + "\n");
    }
    Lines { turns: turns(held, horizon), sides, rounds: format!("{} rounds\n", rounds) }
}

impl Lines {
    fn without_sides(&self) -> String {
        format!("{}{}", self.turns, self.rounds)
    }

    fn with_sides(&self) -> String {
        format!("{}{}{}", self.turns, self.sides, self.rounds)
    }
}

/// A cell's sides, one letter an axis.
fn letters(time: u32, byte: u8) -> String {
    if time == NEVER || byte == 0 {
        return if time == NEVER { "-" } else { "." }.to_string();
    }
    let letter = |part: u8, of_axis: [&str; 3]| of_axis[usize::from(part)].to_string();
    letter(byte % 4, ["", "l", "r"]) + &letter(byte / 4 % 4, ["", "a", "b"]) + &letter(byte / 16, ["", "o", "u"])
}

#[test]
fn the_shell_plays_the_examples_as_rings_does() {
    let shell = shell("shell_examples");
    let mut played = 0;
    for path in files(&repository().join("examples"), ".scenario") {
        if let Ok(held) = judge(&fs::read(&path).expect("a scenario"), None) {
            let want = lines(&held, 65_536, 8, 8, SHOWN_HORIZON);
            assert_eq!(printed(Command::new(&shell).arg(&path), &[]), want.without_sides(), "{}", path.display());
            let with_sides = printed(Command::new(&shell).arg("--sides").arg(&path), &[]);
            assert_eq!(with_sides, want.with_sides(), "{}", path.display());
            assert_eq!(fs::read_to_string(path.with_extension("rings")).expect("the lines of rings"), want.turns);
            played += 1;
        }
    }
    assert!(played >= 9, "{} examples", played);
}

/// Typed: a row of letters to each row of turns. The last cell of the house is reached on three axes.
#[test]
fn the_shell_says_the_sides_of_its_cells() {
    let shell = shell("shell_sides");
    let path = shell.with_extension("scenario");
    fs::write(&path, file_of(&open_house(), 10, equal(10))).expect("a file");
    for (path, want) in [
        (example("three-by-three.scenario"), "3 3 10\n0 1 2\n1 2 3\n2 3 4\n. l l\na la la\na la la\n92 rounds\n"),
        (path, "2 2 10\n0 1\n1 2\n1 2\n2 3\n. l\na la\nu lu\nau lau\n92 rounds\n"),
    ] {
        assert_eq!(printed(Command::new(&shell).arg("--sides").arg(path), &[]), want);
    }
    assert_eq!(run(Command::new(&shell).arg("--sides"), &[]).status.code(), Some(2));
}

#[test]
fn the_shell_plays_boards_of_all_sizes() {
    let shell = shell("shell_boards");
    let path = shell.with_extension("scenario");
    for seed in 80_000_000..80_000_080 {
        let mut r = Random::new(seed);
        let longest = if r.once_in(10) { 256 } else { 40 };
        let board = generate::board(&mut r, longest);
        let held = generate::scenario(&mut r, board);
        let (across, down) =
            (generate::tile_side(&mut r, held.board.width), generate::tile_side(&mut r, held.board.height));
        let horizon = generate::horizon(&mut r, &held.board);
        let stride = generate::stride(&mut r, held.board.size(), horizon);
        fs::write(&path, file_of(&held.board, held.ticks, held.ground)).expect("a file");
        let mut command = Command::new(&shell);
        command.arg("--sides").arg(&path).args([stride, across, down, horizon].map(|number| number.to_string()));
        let want = lines(&held, stride, across, down, horizon).with_sides();
        assert_eq!(printed(&mut command, &[]), want, "seed {}", seed);
    }
}

/// How both programs say a refusal.
fn refused_by(number: u32) -> String {
    let line = refusals().into_iter().find(|line| line.number == number).expect("a number of the table");
    format!("refused by {}: {}\n", number, line.words)
}

/// How the shell says it of a start.
fn refused_at(number: u32, place: usize) -> String {
    format!("{}: start {}, counted from 0\n", refused_by(number).trim_end(), place)
}

/// Three by three cells with starts in these.
fn file_with(cells: &[u32]) -> Vec<u8> {
    let (cells, begins) = (cells.to_vec(), vec![0; cells.len()]);
    file_of(&Board { width: 3, height: 3, storeys: 1, slow: vec![equal(10); 9], cells, begins }, 10, equal(10))
}

#[test]
fn the_shell_says_what_is_wrong() {
    let shell = shell("shell_wrong");
    let (beyond, falling) = (shell.with_extension("beyond"), shell.with_extension("falling"));
    fs::write(&beyond, file_with(&[4, 0, 9, 9])).expect("a file");
    fs::write(&falling, file_with(&[0, 1, 4, 4, 2])).expect("a file");
    let (half, high) = (shell.with_extension("half"), shell.with_extension("high"));
    let slow = vec![equal(10), pair(0, 10)];
    let board = Board { width: 2, height: 1, storeys: 1, slow, cells: vec![], begins: vec![] };
    fs::write(&half, file_of(&board, 10, equal(10))).expect("a file");
    fs::write(&high, file_of(&Board { storeys: 9, slow: vec![equal(10); 18], ..board }, 10, equal(10)))
        .expect("a file");
    let (wall, maze) = (example("start-on-a-wall.scenario"), example("maze.scenario"));
    let (map, missing) = (example("maze.map"), example("nothing"));
    let cases: [(&Path, &[&str], i32, &str); 14] = [
        (&beyond, &[], 1, &refused_at(7, 2)),
        (&falling, &[], 1, &refused_at(18, 3)),
        (&half, &[], 1, &refused_by(21)),
        (&high, &[], 1, &refused_by(23)),
        (&wall, &[], 1, &refused_by(9)),
        (&map, &[], 1, &refused_by(1)),
        (&maze, &["0"], 1, &refused_by(10)),
        (&maze, &["1", "8", "257"], 1, &refused_by(11)),
        (&maze, &["1", "0", "8"], 1, &refused_by(11)),
        (&maze, &["1", "8", "8", "300000001"], 1, &refused_by(10)),
        (&maze, &["1", "8"], 2, "usage: "),
        (&maze, &["4294967296"], 2, "usage: "),
        (&maze, &["--sides"], 2, "usage: "),
        (&missing, &[], 1, "nothing: "),
    ];
    for (path, words, status, why) in cases {
        let output = run(Command::new(&shell).arg(path).args(words), &[]);
        let told = told(&output);
        assert_eq!(output.status.code(), Some(status), "{:?}: {}", words, told);
        assert!(output.stdout.is_empty() && told.contains(why), "{:?}: {}", words, told);
    }
}

#[test]
fn the_shell_says_what_it_is_called_with() {
    let shell = shell("shell_help");
    assert!(printed(Command::new(shell).arg("--help"), &[]).starts_with("usage: shell [--sides] FILE [STRIDE "));
}

#[test]
fn what_cannot_be_written_ends_the_shell_badly() {
    let shell = shell("shell_full");
    for words in [vec![example("maze.scenario")], vec![PathBuf::from("--help")]] {
        let output = run_into_full(Command::new(&shell).args(&words), &[]);
        assert_eq!(output.status.code(), Some(1), "{:?}", words);
        assert!(told(&output).starts_with("shell: cannot write what it prints: "), "{}", told(&output));
    }
}

/// The cells reached before any round of one tile and after each, the stride being 100, until no more will be.
fn progress(grid: &Grid) -> Vec<usize> {
    let (tiling, end) = (Tiling::new(grid, SHOWN_SIDE, SHOWN_SIDE), cut(solved(grid), SHOWN_HORIZON));
    let (mut times, mut reached) = (vec![NEVER; grid.size()], vec![0]);
    while times != end {
        times = round(grid, &tiling, bound_of(reached.len() as u64, 100, SHOWN_HORIZON), &times).times;
        reached.push(times.iter().filter(|&&t| t != NEVER).count());
    }
    reached
}

/// What the tablet's example must print of a file, and its status.
fn tablet_lines(file: &[u8]) -> (String, i32) {
    let mut out = vec![0; 4 * 1_024];
    let answer = tablet(file, 100, SHOWN_SIDE, SHOWN_SIDE, &mut out);
    if answer < 256 {
        return (refused_by(answer as u32), 1);
    }
    let grid = Grid::new(&judge(file, None).expect("a good file").board);
    let reached = progress(&grid);
    let line =
        |k: usize| format!("round {} of 60000: {} of {} cells\n", k, reached[k.min(reached.len() - 1)], grid.size());
    let mut lines: String = (1..reached.len()).filter(|&k| reached[k] > reached[k - 1]).map(line).collect();
    lines += &line(60_000);
    let end = 4 * grid.size();
    let time = u32::from_le_bytes([out[end - 4], out[end - 3], out[end - 2], out[end - 1]]);
    let last = if time == NEVER { "never reached".to_string() } else { format!("reached at {}", time) };
    (format!("{}{} rounds; the last cell is {}\n", lines, answer / 256, last), 0)
}

#[test]
fn the_tablets_example_shows_its_progress_or_says_the_refusal() {
    let tablet = program("examples/tablet.c", "tablet_example");
    let [wide, large, falling] = ["wide", "large", "falling"].map(|name| tablet.with_extension(name));
    for (path, width, storeys) in [(&wide, SHOWN_SIDE + 1, 1), (&large, SHOWN_SIDE, 2)] {
        let slow = vec![equal(10); (width * SHOWN_SIDE * storeys) as usize];
        let board = Board { width, height: SHOWN_SIDE, storeys, slow, cells: vec![0], begins: vec![0] };
        fs::write(path, file_of(&board, 10, equal(10))).expect("a file");
    }
    fs::write(&falling, file_with(&[0, 1, 4, 4, 2])).expect("a file");
    let mut seen = [0; 2];
    for path in files(&repository().join("examples"), ".scenario").into_iter().chain([wide, large, falling]) {
        let output = run(Command::new(&tablet).arg(&path), &[]);
        let (lines, status) = tablet_lines(&fs::read(&path).expect("a scenario"));
        assert_eq!((told(&output), output.status.code()), (lines, Some(status)), "{}", path.display());
        seen[status as usize] += 1;
    }
    assert!(seen[0] >= 9 && seen[1] >= 4, "{:?}", seen);
    for path in [example("nothing"), example("")] {
        let output = run(Command::new(&tablet).arg(&path), &[]);
        assert_eq!(output.status.code(), Some(2), "{}: {}", path.display(), told(&output));
    }
    let output = run_into_full(Command::new(&tablet).arg(example("maze.scenario")), &[]);
    assert_eq!(output.status.code(), Some(1), "{}", told(&output));
}

/// The gate installs valgrind; without it this fails.
#[test]
fn valgrind_has_nothing_against_the_shell() {
    let shell = shell("shell_valgrind");
    let maze = example("maze.scenario");
    let held = judge(&fs::read(&maze).expect("a scenario"), None).expect("a good one");
    let want = lines(&held, 65_536, 8, 8, SHOWN_HORIZON);
    assert_eq!(printed(valgrind(&shell).arg(&maze), &[]), want.without_sides());
    assert_eq!(printed(valgrind(&shell).arg("--sides").arg(&maze), &[]), want.with_sides());
    let refused = run(valgrind(&shell).arg(example("start-on-a-wall.scenario")), &[]);
    assert_eq!(refused.status.code(), Some(1), "{}", told(&refused));
}
