//! The pages of examples/: their commands and maps, run as they stand there, and what late-ground.md says of its boards.

use second_solver::board::{Board, Grid};
use second_solver::declared::{read, repository};
use second_solver::late_ground::{differing, failing, is_no_lower};
use second_solver::march::{march, Front};
use second_solver::pages::{blocks, rows, section};
use second_solver::programs::{printed, run, told};
use second_solver::rule::{parts, turn};
use second_solver::scenario::{judge, Held};
use second_solver::shown::SHOWN_HORIZON;
use second_solver::NEVER;
use std::collections::BTreeMap;
use std::fs;
use std::path::PathBuf;
use std::process::{Command, Output};

const FIRST: &str = "examples/README.md";
const LATE: &str = "examples/late-ground.md";

/// A page's indented lines.
fn snippets(page: &str) -> Vec<String> {
    read(page).lines().filter(|line| line.starts_with("    ")).map(|line| line.trim().to_string()).collect()
}

/// What stands in a page's fenced blocks.
fn shown(page: &str) -> Vec<String> {
    blocks(&read(page)).into_iter().map(|(_, block)| block).collect()
}

fn sh(command: &str) -> Output {
    run(Command::new("sh").args(["-c", command]).current_dir(repository()), &[])
}

/// In the order of the pages: programs are built before they are called. `column` may not be there. A refused file ends
/// with 1, and `diff` where lines differ.
#[test]
fn the_commands_run() {
    let commands = [FIRST, LATE].into_iter().flat_map(snippets).filter(|line| {
        ["target/", "python3 ", "cc "].iter().any(|begin| line.starts_with(begin)) && !line.ends_with("column -t")
    });
    let mut lines = String::new();
    for command in commands {
        let output = sh(&command);
        let status = i32::from(command.contains("start-on-a-wall") || command.contains("| diff "));
        assert_eq!(output.status.code(), Some(status), "{}\n{}", command, told(&output));
        lines += &told(&output);
    }
    let blocks = shown(FIRST);
    assert_eq!(blocks.len(), 2, "the sides of a board, and a progress in rounds");
    let valley = read(valley_file(VALLEYS[0], "rings"));
    let typed = ["\n9: start on a wall\n", "\nrefused 9: start on a wall\n", "\n60000 rounds\n", "\nusage: shell "];
    for due in blocks.iter().chain([&valley]).map(String::as_str).chain(typed) {
        assert!(lines.contains(due), "{} is not in\n{}", due.trim(), lines);
    }
}

/// `rings` gets an empty file, and says so.
#[test]
fn a_failing_script_before_rings_gives_refused_1() {
    let output = sh("echo no map | python3 examples/map.py file | target/bin/rings");
    assert_eq!((output.stdout, output.status.code()), (b"refused 1\n".to_vec(), Some(0)));
    assert!(output.stderr.starts_with(b"map.py: line 1: "));
}

#[test]
fn the_map_is_drawn() {
    let map: Vec<String> = snippets(FIRST).into_iter().skip_while(|line| !line.starts_with("ticks 10")).collect();
    let mut python = Command::new("python3");
    let file = run(python.arg(repository().join("examples/map.py")).arg("file"), map.join("\n").as_bytes());
    let rings = printed(&mut Command::new(repository().join("target/bin/rings")), &file.stdout);
    assert_eq!(rings, "5 3 10\n0 1 2 3 4\n1 - - - 5\n4 5 6 7 6\n", "{}", told(&file));
}

/// The boards of late-ground.md in its order: the printed one, a late retouch of it, and one with a slowness lowered.
const VALLEYS: [&str; 3] = ["valley", "valley-retouched", "valley-lowered"];

fn valley_file(name: &str, ending: &str) -> PathBuf {
    repository().join("examples").join(name).with_extension(ending)
}

/// The rows of a valley's map, each with its rings beside it.
fn drawn(name: &str) -> String {
    let [map, rings] = ["map", "rings"].map(|ending| read(valley_file(name, ending)));
    let (rows, turns) = (map.lines().skip_while(|line| *line != "map").skip(1), rings.lines().skip(1));
    rows.zip(turns).map(|(row, turns)| format!("{}   {}\n", row, turns)).collect()
}

/// The head of the first map stands above its rows.
#[test]
fn the_late_page_shows_the_maps_and_rings_of_its_files() {
    assert_eq!(shown(LATE), VALLEYS.map(drawn));
    let map = read(valley_file(VALLEYS[0], "map"));
    let head: Vec<&str> =
        map.lines().filter(|line| !line.starts_with("//")).take_while(|line| *line != "map").collect();
    assert_eq!(snippets(LATE)[..head.len()], head);
}

/// A board of the late page, and its march by the second solver.
struct Valley {
    held: Held,
    front: Front,
}

impl Valley {
    fn of(name: &str) -> Valley {
        let file = fs::read(valley_file(name, "scenario")).expect("a scenario");
        let held = judge(&file, None).expect("a good file");
        let front = march(&Grid::new(&held.board), SHOWN_HORIZON);
        Valley { held, front }
    }

    /// A cell's ring; the mark for never is above them all.
    fn ring(&self, c: usize) -> u32 {
        turn(self.front.times[c], self.held.ticks).turn
    }

    /// What must stay in a retouch: all but the slownesses of cells. The ground is the file's own way of storing them.
    fn frame(&self) -> (u32, Board) {
        (self.held.ticks, Board { slow: Vec::new(), ..self.held.board.clone() })
    }

    fn cells(&self, are: impl Fn(usize) -> bool) -> Vec<usize> {
        (0..self.held.board.size()).filter(|&c| are(c)).collect()
    }

    /// The cell in this column and row.
    fn at(&self, column: u32, row: u32) -> usize {
        (row * self.held.board.width + column) as usize
    }
}

/// The cells in which two slownesses differ.
fn retouched([first, second]: [&Valley; 2]) -> Vec<usize> {
    differing(&first.held.board, &second.held.board)
}

/// The cells that the page's rule does not allow where rings 0 to r are printed: retouched ones of these rings, and
/// those that have a lower slowness, a wall being the highest.
fn outside(valleys @ [first, second]: [&Valley; 2], r: u32) -> [Vec<usize>; 2] {
    assert_eq!(first.frame(), second.frame());
    let early = retouched(valleys).into_iter().filter(|&c| first.ring(c) <= r).collect();
    let lower = first.cells(|c| !is_no_lower(first.held.board.slow[c], second.held.board.slow[c]));
    [early, lower]
}

/// The cells of which the page's promise does not hold: those of rings 0 to r that have another time or other sides, and
/// others that come into these rings.
fn moved([first, second]: [&Valley; 2], r: u32) -> [Vec<usize>; 2] {
    let (altered, joined) =
        failing(&first.front, &second.front, late_from(first, r).into()).into_iter().partition(|&c| first.ring(c) <= r);
    [altered, joined]
}

/// T, the first tick after ring r has closed.
fn late_from(valley: &Valley, r: u32) -> u32 {
    r * valley.held.ticks + 1
}

/// r, from the page's line that has it and T = r × ticks + 1.
fn last_printed(first: &Valley) -> u32 {
    let page = read(LATE);
    let line = page.lines().find(|line| line.contains(" are printed, so r = ")).expect("the line that has r");
    let numbers = line.split(|sign: char| !sign.is_ascii_digit()).filter_map(|number| number.parse().ok());
    let numbers: Vec<u32> = numbers.collect();
    let (r, ticks) = (numbers[1], first.held.ticks);
    assert_eq!(numbers, [0, r, r, r, ticks, 1, late_from(first, r)], "{}", line);
    r
}

/// Asserts that the late page has these words, however its lines are broken.
fn assert_said(words: &str) {
    let page = read(LATE).split_whitespace().collect::<Vec<_>>().join(" ");
    assert!(page.contains(words), "the page does not say: {}", words);
}

/// Rings in rising order, the first and the last of them in the page's words.
fn span(rings: &[u32]) -> String {
    match [rings[0], rings[rings.len() - 1]] {
        [NEVER, _] => "never".to_string(),
        [first, last] if first == last => first.to_string(),
        [first, last] => format!("{} to {}", first, last),
    }
}

const NONE: [Vec<usize>; 2] = [Vec::new(), Vec::new()];

/// The retouch goes as far as it may: with one ring more it is neither late, nor do the rings stand.
#[test]
fn the_retouched_valley_keeps_the_rule_and_its_printed_rings() {
    let [first, second, lowered] = VALLEYS.map(Valley::of);
    let r = last_printed(&first);
    let t = late_from(&first, r);
    for valley in [&first, &second, &lowered] {
        let before = valley.cells(|c| valley.front.times[c] < t);
        assert_eq!(before, valley.cells(|c| valley.ring(c) <= r), "cells before {}", t);
    }
    let valleys = [&first, &second];
    assert_eq!((outside(valleys, r), moved(valleys, r)), (NONE, NONE));
    let ([early, lower], [altered, _]) = (outside(valleys, r + 1), moved(valleys, r + 1));
    assert!(!early.is_empty() && lower.is_empty() && !altered.is_empty(), "{:?}, {:?}", early, altered);
    let rings = |column, row| valleys.map(|valley| valley.ring(first.at(column, row)));
    let [was, is] = rings(9, 3);
    let wood = "the wood in column 9 of row 3, both counted from 0,";
    assert_said(&format!("A {} moves: {} is of ring {} now.", was, wood, is));
    assert_said("also where nothing was retouched, as in column 15 of row 2.");
    let [was, is] = rings(15, 2);
    assert!(was != is && !retouched(valleys).contains(&first.at(15, 2)));
}

/// Slownesses as maps have them, and rings from the first to the last.
#[test]
fn the_table_of_the_late_page_has_every_retouched_cell() {
    let [first, second, _] = &VALLEYS.map(Valley::of);
    let slowness = |s: u32| match parts(s) {
        [0, 0] => "wall".to_string(),
        [g, h] if g == h => g.to_string(),
        [g, h] => format!("{}:{}", g, h),
    };
    let mut kinds: BTreeMap<[String; 2], Vec<u32>> = BTreeMap::new();
    for c in first.cells(|_| true) {
        let kind = [first, second].map(|valley| slowness(valley.held.board.slow[c]));
        kinds.entry(kind).or_default().push(first.ring(c));
    }
    kinds.values_mut().for_each(|rings| rings.sort_unstable());
    let wood = &kinds[&["20", "20"].map(str::to_string)];
    let words = "cells, furthest west, are not, and stay as they are: rings";
    assert_said(&format!("The wood's other {} {} {} have them.", wood.len(), words, span(wood)));
    let due = kinds.into_iter().filter(|([was, is], _)| was != is);
    let due = due.map(|([was, is], rings)| vec![rings.len().to_string(), was, is, span(&rings)]);
    let page = read(LATE);
    let table = rows(section(&page, "A valley, retouched")).into_iter().skip(2);
    let mut table: Vec<Vec<&str>> = table.map(|row| row[1..].to_vec()).collect();
    table.sort_by_key(|row| (row[1], row[2]));
    assert_eq!(table, due.collect::<Vec<_>>());
}

/// One cell, late and lower: that alone is outside of the rule. The table has it first; of all its cells the promise does
/// not hold, and the last of them has other sides alone.
#[test]
fn the_lowered_valley_breaks_one_premise_and_its_printed_rings() {
    let [first, _, lowered] = &VALLEYS.map(Valley::of);
    let (valleys, r) = ([first, lowered], last_printed(first));
    let causeway = first.at(6, 3);
    assert_eq!((retouched(valleys), outside(valleys, r)), (vec![causeway], [vec![], vec![causeway]]));
    let [[was, _], [is, _]] = valleys.map(|valley| parts(valley.held.board.slow[causeway]));
    let words = format!("takes {} ticks where it took {}. It was late, of ring {},", is, was, first.ring(causeway));
    assert_said(&format!("one cell, in column 6 of row 3, that {}", words));
    let [altered, joined] = moved(valleys, r);
    let page = read(LATE);
    let table = rows(section(&page, "A slowness that was lowered")).into_iter().skip(2);
    let cells = table.map(|row| {
        let number = |place: usize| row[place].parse::<u32>().expect("a number");
        let cell = first.at(number(0), number(1));
        assert_eq!(valleys.map(|valley| valley.ring(cell)), [number(2), number(3)], "{:?}", row);
        assert_eq!(joined.contains(&cell), row[4].ends_with("comes into a printed ring"), "{:?}", row);
        assert!(joined.contains(&cell) || altered.contains(&cell), "{:?}", row);
        cell
    });
    let cells: Vec<usize> = cells.collect();
    assert_eq!([cells.len(), cells[0]], [4, causeway]);
    let held = valleys.map(|valley| (valley.front.times[cells[3]], valley.front.sides[cells[3]]));
    assert_eq!(held, [(85, 1), (85, 1 + 8)], "from the left, and from below too");
}
