//! The example boards, the script that makes scenario files of drawn maps, and the one that says refusals in words.

use second_solver::board::{size_of, Board};
use second_solver::compare::Tally;
use second_solver::declared::{files, read, repository};
use second_solver::ffi::scenario;
use second_solver::generate;
use second_solver::programs::{printed, run, run_into_full, run_unread, told};
use second_solver::random::Random;
use second_solver::rule::{equal, pair, parts};
use second_solver::scenario::Held;
use second_solver::shown::rings;
use std::fs;
use std::path::PathBuf;
use std::process::{Command, Output};

fn python() -> Command {
    let mut python = Command::new("python3");
    python.env("PYTHONDONTWRITEBYTECODE", "1").env_remove("PYTHONUNBUFFERED");
    python.current_dir(repository().join("examples"));
    python
}

fn map(way: &str) -> Command {
    let mut map = python();
    map.args(["map.py", way]);
    map
}

fn refusal(words: &[&str]) -> Command {
    let mut refusal = python();
    refusal.arg("refusal.py").args(words);
    refusal
}

/// What the script makes of good input, from the command line.
fn made(way: &str, input: &[u8]) -> Vec<u8> {
    let output = run(&mut map(way), input);
    assert!(output.status.success(), "map.py {}: {}", way, told(&output));
    output.stdout
}

fn examples(ending: &str) -> Vec<PathBuf> {
    let found = files(&repository().join("examples"), ending);
    assert!(found.len() >= 10, "{} examples end with {}", found.len(), ending);
    found
}

#[test]
fn the_maps_of_the_examples_are_their_files() {
    for map in examples(".map") {
        let text = fs::read(&map).expect("a map");
        let stored = fs::read(map.with_extension("scenario")).expect("the map's file");
        assert_eq!(made("file", &text), stored, "{}", map.display());
        let drawn = made("text", &stored);
        let again = many(&["text", "file", "text"], std::slice::from_ref(&stored));
        assert_eq!(again, [drawn.clone(), stored, drawn], "{}, drawn by the script", map.display());
    }
}

#[test]
fn the_examples_show_what_stands_beside_them() {
    let mut refused = 0;
    for path in examples(".scenario") {
        let shown = rings(&fs::read(&path).expect("a scenario"));
        assert_eq!(shown, read(path.with_extension("rings")), "{}", path.display());
        refused += u32::from(shown.starts_with("refused"));
    }
    assert_eq!(refused, 1);
}

/// Reads a list of parts, each behind its length in four bytes; runs the named functions of the script on each, one
/// after another, and writes what every one of them gives, or its complaint, in the same way.
const MANY: &str = "
import sys, struct
import map as script
ways = {
    'file': lambda part: script.to_file(script.from_text(part.decode())),
    'text': lambda part: script.to_text(script.from_file(part)).encode(),
}
data, at, out = sys.stdin.buffer.read(), 0, []
while at < len(data):
    length, = struct.unpack_from('<I', data, at)
    part, at = data[at + 4:at + 4 + length], at + 4 + length
    for way in sys.argv[1:]:
        try:
            part = ways[way](part)
        except script.Problem as problem:
            part = str(problem).encode()
        out += [struct.pack('<I', len(part)), part]
sys.stdout.buffer.write(b''.join(out))
";

fn many(ways: &[&str], parts: &[Vec<u8>]) -> Vec<Vec<u8>> {
    let mut input = Vec::new();
    for part in parts {
        input.extend_from_slice(&(part.len() as u32).to_le_bytes());
        input.extend_from_slice(part);
    }
    let output = run(python().args(["-c", MANY]).args(ways), &input);
    assert!(output.status.success(), "{}", told(&output));
    let mut rest = &output.stdout[..];
    let mut made = Vec::new();
    while !rest.is_empty() {
        let (length, behind) = rest.split_at(4);
        let length = u32::from_le_bytes([length[0], length[1], length[2], length[3]]) as usize;
        made.push(behind[..length].to_vec());
        rest = &behind[length..];
    }
    assert_eq!(made.len(), ways.len() * parts.len());
    made
}

fn random_scenario(seed: u64) -> Held {
    let mut r = Random::new(seed);
    let longest = if r.once_in(50) { 256 } else { 20 };
    let board = generate::board(&mut r, longest);
    generate::scenario(&mut r, board)
}

fn written(held: &Held) -> Vec<u8> {
    let mut out = vec![0; 20 + 20 * held.board.size()];
    let reply = scenario::write(&held.board, held.ticks, held.ground, &mut out);
    assert_eq!(reply.number, 0);
    out.truncate(reply.count as usize);
    out
}

/// What the library reads in the file.
fn held_in(file: &[u8]) -> Held {
    let (mut slow, mut cells, mut begins) = (vec![0; 65_536], vec![0; 65_536], vec![0; 65_536]);
    let s = scenario::read(file, &mut slow, &mut cells, &mut begins);
    assert_eq!(s.number, 0);
    let (width, height, storeys) = (s.width, s.height, s.storeys);
    slow.truncate(size_of([width, height, storeys]) as usize);
    cells.truncate(s.starts as usize);
    begins.truncate(s.starts as usize);
    Held { ticks: s.ticks, ground: s.ground, board: Board { width, height, storeys, slow, cells, begins } }
}

#[test]
fn files_that_the_library_wrote_are_drawn_and_made_again() {
    let files: Vec<Vec<u8>> = (70_000_000..70_001_000).map(|seed| written(&random_scenario(seed))).collect();
    let made = many(&["text", "file", "text"], &files);
    for (i, (file, made)) in files.iter().zip(made.chunks(3)).enumerate() {
        assert_eq!(&made[1], file, "seed {}", 70_000_000 + i);
        assert_eq!(made[0], made[2], "seed {}", 70_000_000 + i);
    }
}

/// A cell as a map draws it: its slowness, and its start's time where its letter says one.
type Cell = (u32, Option<u32>);

/// A slowness as people write it: an equal pair is one number mostly, and may be two.
fn word_for(r: &mut Random, slowness: u32) -> String {
    match parts(slowness) {
        [g, h] if g == h && !r.once_in(4) => g.to_string(),
        [g, h] => format!("{}:{}", g, h),
    }
}

/// A map as the script's head tells people to draw one. Some starts are letters, some are lines.
fn drawn(r: &mut Random, held: &Held) -> String {
    let board = &held.board;
    let mut text = format!("// a remark\nground {}\n\nticks {}\n", word_for(r, held.ground), held.ticks);
    let mut cells: Vec<Cell> = board.slow.iter().map(|&slow| (slow, None)).collect();
    let by_numbers = r.once_in(4);
    for (&cell, &begin) in board.cells.iter().zip(&board.begins) {
        if by_numbers || r.once_in(2) {
            let (row, column) = (cell / board.width, cell % board.width);
            text += &format!("start {} {} {}", column, row % board.height, begin);
            // the lowest storey need not be named
            if row >= board.height || r.once_in(8) {
                text += &format!(" storey {}", row / board.height);
            }
            text.push('\n');
        } else {
            cells[cell as usize].1 = Some(begin);
        }
    }
    let mut letters = cells.clone();
    letters.sort_unstable();
    letters.dedup();
    let letter = |cell: &Cell| {
        let place = letters.binary_search(cell).expect("a letter");
        char::from_u32(0x4E00 + place as u32).expect("a sign")
    };
    text += if by_numbers { "map numbers\n" } else { "" };
    for cell in letters.iter().filter(|_| !by_numbers) {
        let start = cell.1.map_or(String::new(), |time| format!(" start {}", time));
        text += &format!("{} = {}{}\n", letter(cell), word_for(r, cell.0), start);
    }
    text += if by_numbers { "" } else { "map\n" };
    for (i, row) in (0..).zip(cells.chunks(board.width as usize)) {
        if i > 0 && i % board.height == 0 {
            text += &format!("storey {}\n", i / board.height);
        }
        if by_numbers {
            let numbers: Vec<String> = row.iter().map(|cell| word_for(r, cell.0)).collect();
            text += &numbers.join(" ");
        } else {
            text.extend(row.iter().map(letter));
        }
        text.push('\n');
    }
    text
}

#[test]
fn the_library_reads_what_was_drawn() {
    let scenarios: Vec<Held> = (71_000_000..71_001_000).map(random_scenario).collect();
    let mut r = Random::new(71);
    let maps: Vec<Vec<u8>> = scenarios.iter().map(|held| drawn(&mut r, held).into_bytes()).collect();
    for (i, (held, file)) in scenarios.iter().zip(many(&["file"], &maps)).enumerate() {
        assert_eq!(&held_in(&file), held, "seed {}", 71_000_000 + i);
    }
}

/// A map's head; what a test draws comes behind it.
const HEAD: &str = "ticks 10\nground 10\n. = 10\n";

#[test]
fn remarks_spaces_line_ends_and_a_byte_order_mark_do_no_harm() {
    let plain = format!("{}# = 0\nS = 10 start 3\nstart 1 1 7\nmap\nS.#\n...\n", HEAD);
    let want = made("file", plain.as_bytes());
    for drawn in [
        format!("\u{FEFF}{}", plain),
        plain.replace('\n', "\r\n"),
        plain.replace('\n', "\r"),
        plain.replace('\n', " // a remark = 4\n"),
        plain.replace('\n', " \t\n\n"),
        plain.lines().map(|line| format!("  {}\n//\n", line)).collect(),
        plain.replace("ticks 10", &format!("  ticks\t{}10", "0".repeat(5_000))),
        plain.trim_end().to_string(),
    ] {
        assert_eq!(made("file", drawn.as_bytes()), want, "{:?}", drawn);
    }
}

/// The script's complaint of each input is one line, and begins with what stands beside it.
fn assert_complaints(way: &str, cases: &[(Vec<u8>, &str)]) {
    let inputs: Vec<Vec<u8>> = cases.iter().map(|(input, _)| input.clone()).collect();
    for ((input, why), told) in cases.iter().zip(many(&[way], &inputs)) {
        let (input, told) = (String::from_utf8_lossy(input), String::from_utf8_lossy(&told));
        assert!(told.starts_with(why) && told.lines().count() == 1, "{}\n{}\nand not {}", input, told, why);
    }
    let (input, why) = &cases[0];
    assert_complains(&run(&mut map(way), input), "map.py", why);
}

/// A script's complaint is one line that begins with its name; nothing is printed beside it.
fn assert_complains(output: &Output, script: &str, why: &str) {
    let told = told(output);
    assert!(output.status.code() == Some(1) && output.stdout.is_empty(), "{}: {}", output.status, told);
    assert!(told.starts_with(&format!("{}: ", script)) && told.contains(why), "{}\nand not {}", told, why);
    assert_eq!(told.lines().count(), 1, "{}", told);
}

#[test]
fn the_script_says_which_line_of_a_map_it_refuses_and_why() {
    let digits = format!("# = {}", "9".repeat(5_000));
    let wide = format!("map\n{}", ".".repeat(257));
    let high = format!("map\n{}", ".\n".repeat(257));
    let ninth: String = (0..9).map(|storey| format!("storey {}\n.\n", storey)).collect();
    let ninth = ninth.replacen("storey 0", "map", 1);
    let cases = [
        ("turns 4", "line 4: not a line of a map's head; rows stand behind a line `map`: turns 4"),
        ("turns // so", "line 4: not a line of a map's head; rows stand behind a line `map`: turns // so"),
        ("map digits", "line 4: not a line"),
        ("ticks", "line 4: `ticks` has one number behind it: ticks"),
        ("ground 10 20", "line 4: `ground` has one slowness behind it: ground 10 20"),
        ("ticks 10", "line 4: `ticks` is given twice: ticks 10"),
        ("ground 20", "line 4: `ground` is given twice: ground 20"),
        (". = 20", "line 4: `.` is given twice: . = 20"),
        ("# = zero", "line 4: slowness `zero` is not a number from 0 to 4,095: # = zero"),
        ("# = -1", "line 4: slowness `-1` is not a number from 0 to 4,095: # = -1"),
        ("# = 4096", "line 4: slowness `4096` is not a number from 0 to 4,095: # = 4096"),
        ("# = ٣", "line 4: slowness `٣` is not a number from 0 to 4,095: # = ٣"),
        (&digits, "line 4: slowness `99999999999999999999` is not a number from 0 to 4,095: # = 999"),
        ("# = 4096:0", "line 4: slowness `4096` is not a number from 0 to 4,095: # = 4096:0"),
        ("# = 10:4096", "line 4: slowness `4096` is not a number from 0 to 4,095: # = 10:4096"),
        ("# = 10:0", "line 4: slowness `10:0` has one number that is 0, and a wall has two: # = 10:0"),
        ("# = 0:10 start 0", "line 4: slowness `0:10` has one number that is 0, and a wall has two: # = 0:10 start 0"),
        ("# = 10:", "line 4: slowness `` is not a number from 0 to 4,095: # = 10:"),
        ("# = 1:2:3", "line 4: slowness `2:3` is not a number from 0 to 4,095: # = 1:2:3"),
        ("# = 10 20", "line 4: a letter is `LETTER = SLOWNESS` or `LETTER = SLOWNESS start TIME`: # = 10 20"),
        ("# = 0 at 4", "line 4: a letter is `LETTER = SLOWNESS` or `LETTER = SLOWNESS start TIME`: # = 0 at 4"),
        (
            "S = 9 start 1000001",
            "line 4: start time `1000001` is not a number from 0 to 1,000,000: S = 9 start 1000001",
        ),
        ("/ = 10", "line 4: `/` is no letter: two of them begin a remark: / = 10"),
        ("start 0 0", "line 4: a start is `start COLUMN ROW TIME` or `start COLUMN ROW TIME storey STOREY`: start 0 0"),
        ("start 0 0 5 1", "line 4: a start is `start COLUMN ROW TIME` or `start COLUMN ROW TIME storey STOREY`: start"),
        ("start 0 0 5 storey 8\nmap\n.", "line 4: storey `8` is not a number from 0 to 7: start 0 0 5 storey 8"),
        ("start 0 0 5 storey 1\nmap\n.", "line 4: storey 1 is off the board, whose last one is 0: start 0 0 5 storey"),
        ("start 0 0 1000001\nmap\n.", "line 4: start time `1000001` is not a number from 0 to 1,000,000: start 0 0 1"),
        ("start 256 0 0\nmap\n.", "line 4: column `256` is not a number from 0 to 255: start 256 0 0"),
        ("start 2 0 0\nmap\n..", "line 4: column 2 is off the board, which is 2 wide: start 2 0 0"),
        ("start 0 1 0\nmap\n..", "line 4: row 1 is off the board, which is 1 high: start 0 1 0"),
        ("start 0 0 0\nstart 0 0 1\nmap\n..", "line 5: the cell has a start already: start 0 0 1"),
        ("S = 10 start 0\nstart 1 0 1\nmap\n.S", "line 5: the cell has a start already: start 1 0 1"),
        ("map\n..\n.#", "line 6: the head has no line for `#`: .#"),
        ("map\n..\n. .", "line 6: a space between the letters of a row: . ."),
        ("map\n..\n\n.", "line 7: a row of 1 cells, the first has 2: ."),
        ("map numbers\n1 2\n3 4096", "line 6: slowness `4096` is not a number from 0 to 4,095: 3 4096"),
        ("map numbers\n1 2:3\n0:4 3", "line 6: slowness `0:4` has one number that is 0, and a wall has two: 0:4 3"),
        ("map numbers\n1 2\n3", "line 6: a row of 1 cells, the first has 2: 3"),
        (&wide, "line 5: width `257` is not a number from 1 to 256: ...."),
        (&high, "line 261: height `257` is not a number from 1 to 256: ."),
        ("map", "there are no rows behind the line `map`"),
        ("", "there is no line `map`"),
        ("map\n..\nstorey 2\n..", "line 6: the storey that comes next is 1: storey 2"),
        ("map\nstorey 1\n..", "line 5: there are no rows behind the line `map`: storey 1"),
        ("map\n..\nstorey 1\n...", "line 7: a row of 3 cells, the first has 2: ..."),
        ("map\n..\nstorey 1\n..\n..", "line 8: a row more than the 1 of storey 0: .."),
        ("map\n..\n..\nstorey 1\n..\nstorey 2", "line 9: storey 1 has 1 rows, storey 0 has 2: storey 2"),
        ("map\n..\n..\nstorey 1\n..", "storey 1 has 1 rows, storey 0 has 2"),
        (&ninth, "line 20: storey `8` is not a number from 0 to 7: storey 8"),
        ("f = 10:20\nmap\n.f\nstorey 1\n..", "slowness `10:20` is two numbers; with 2 storeys or more it is one"),
    ];
    assert_complaints("file", &cases.map(|(text, why)| (format!("{}{}\n", HEAD, text).into_bytes(), why)));
}

#[test]
fn the_script_says_what_is_wrong_with_ticks_and_ground() {
    let cases = [
        ("ticks 0", "line 1: ticks `0` is not a number from 1 to 65,535: ticks 0"),
        ("ticks 65536", "line 1: ticks `65536` is not a number from 1 to 65,535: ticks 65536"),
        ("ground 4096", "line 1: ground `4096` is not a number from 0 to 4,095: ground 4096"),
        ("ground 10:4096", "line 1: ground `4096` is not a number from 0 to 4,095: ground 10:4096"),
        ("ground 0:7", "line 1: ground `0:7` has one number that is 0, and a wall has two: ground 0:7"),
        ("ticks 10\n. = 1\nmap\n.", "the head has no line `ground`"),
        ("ground 10\n. = 1\nmap\n.", "the head has no line `ticks`"),
        ("", "the head has no line `ticks`"),
    ];
    assert_complaints("file", &cases.map(|(text, why)| (text.as_bytes().to_vec(), why)));
}

/// The ends of each range are fine.
#[test]
fn the_largest_and_the_least_of_everything_are_drawn() {
    let wide = format!("ticks 65535\nground 4095:1\n. = 0\nS = 4095 start 1000000\nmap\n{}S\n", ".".repeat(255));
    let high = format!("ticks 1\nground 0\n. = 0\nstart 0 255 0\nmap\n{}", ".\n".repeat(256));
    let storeys: String = (1..8).map(|storey| format!("storey {}\n{}", storey, ".\n".repeat(256))).collect();
    let highest = format!("{}{}", high, storeys).replace("start 0 255 0", "start 0 255 0 storey 7");
    for (drawn, sides) in [(wide, [0, 1, 1, 0, 1, 0]), (high, [1, 0, 0, 1, 1, 0]), (highest, [1, 0, 0, 1, 8, 0])] {
        let file = made("file", drawn.as_bytes());
        assert_eq!(file[..6], sides);
        assert_eq!(made("file", &made("text", &file)), file);
    }
}

/// One number is the same both ways, and a pair whose numbers are equal is drawn as one.
#[test]
fn two_numbers_are_drawn_where_they_differ() {
    let drawn = |pairs: &str| format!("ticks 10\nground 10\na = {}\nmap\na\n", pairs);
    let [one, two, other] = ["20", "20:20", "20:30"].map(|pairs| made("file", drawn(pairs).as_bytes()));
    assert_eq!(one, two);
    assert_eq!(held_in(&one).board.slow, [equal(20)]);
    assert_eq!(held_in(&other).board.slow, [pair(20, 30)]);
    assert_eq!(made("text", &two), drawn("20").into_bytes());
    assert_eq!(made("text", &other), drawn("20:30").into_bytes());
    let numbers = "ticks 10\nground 5:6\nmap numbers\n5:6 5 6 6:5 0 0:0\n";
    let held = held_in(&made("file", numbers.as_bytes()));
    assert_eq!(held.ground, pair(5, 6));
    assert_eq!(held.board.slow, [pair(5, 6), equal(5), equal(6), pair(6, 5), 0, 0]);
}

/// Width, height, storeys, ticks, the ground's two numbers, then the counts of runs and starts; a run is of a first
/// cell, a length and two numbers.
fn file(head: [u16; 6], runs: &[(u32, u32, [u16; 2])], starts: &[[u32; 2]]) -> Vec<u8> {
    let mut file: Vec<u8> = head.iter().flat_map(|number| number.to_le_bytes()).collect();
    file.extend([runs.len(), starts.len()].iter().flat_map(|&count| (count as u32).to_le_bytes()));
    for (first, length, slowness) in runs {
        file.extend([first, length].iter().flat_map(|number| number.to_le_bytes()));
        file.extend(slowness.iter().flat_map(|number| number.to_le_bytes()));
    }
    file.extend(starts.iter().flatten().flat_map(|number| number.to_le_bytes()));
    file
}

#[test]
fn the_script_says_what_it_cannot_draw_of_a_file() {
    let (good, house, five) = ([2, 2, 1, 10, 10, 20], [2, 2, 2, 10, 10, 10], [5, 5]);
    made("text", &file(good, &[(1, 2, five)], &[[0, 0], [3, 7]]));
    made("text", &file(house, &[(1, 6, five)], &[[0, 0], [7, 7]]));
    let cases = [
        (b"short".to_vec(), "a file of 5 bytes is too short for a head"),
        (file([65_535; 6], &[], &[]), "width `65535` is not a number from 1 to 256"),
        (file([1, 257, 1, 10, 10, 10], &[], &[]), "height `257` is not a number from 1 to 256"),
        (file([0, 1, 1, 10, 10, 10], &[], &[]), "width `0` is not a number from 1 to 256"),
        (file([2, 2, 0, 10, 10, 10], &[], &[]), "storeys `0` is not a number from 1 to 8"),
        (file([2, 2, 9, 10, 10, 10], &[], &[]), "storeys `9` is not a number from 1 to 8"),
        (file([256, 129, 2, 10, 10, 10], &[], &[]), "cells `66048` is not a number from 1 to 65,536"),
        (file([2, 2, 1, 0, 10, 10], &[], &[]), "ticks `0` is not a number from 1 to 65,535"),
        (file([2, 2, 1, 10, 4_096, 0], &[], &[]), "ground `4096` is not a number from 0 to 4,095"),
        (file([2, 2, 1, 10, 10, 4_096], &[], &[]), "ground `4096` is not a number from 0 to 4,095"),
        (file([2, 2, 1, 10, 10, 0], &[], &[]), "ground `10:0` has one number that is 0, and a wall has two"),
        (file([2, 2, 2, 10, 10, 20], &[], &[]), "slowness `10:20` is two numbers; with 2 storeys or more it is one"),
        (file(house, &[(1, 6, [5, 6])], &[]), "slowness `5:6` is two numbers; with 2 storeys or more it is one"),
        (file(house, &[(1, 8, five)], &[]), "run 0, counted from 0, passes the board's end"),
        (file(house, &[], &[[8, 0]]), "start 0, counted from 0, is off the board"),
        ([file(good, &[], &[]), vec![0]].concat(), "the file is not as long as its head says"),
        (file(good, &[(0, 1, [4_096, 5])], &[]), "slowness `4096` is not a number from 0 to 4,095"),
        (file(good, &[(0, 1, [5, 4_096])], &[]), "slowness `4096` is not a number from 0 to 4,095"),
        (file(good, &[(0, 1, [0, 5])], &[]), "slowness `0:5` has one number that is 0, and a wall has two"),
        (file(good, &[(0, 1, five), (3, 2, five)], &[]), "run 1, counted from 0, passes the board's end"),
        (file(good, &[(1, u32::MAX, five)], &[]), "run 0, counted from 0, passes the board's end"),
        (
            file(good, &[(1, 2, five), (2, 1, [5, 6])], &[]),
            "run 1, counted from 0, begins before the end of the one before",
        ),
        (file(good, &[], &[[4, 0]]), "start 0, counted from 0, is off the board"),
        (file(good, &[], &[[2, 0], [1, 0], [4, 0], [5, 0]]), "start 2, counted from 0, is off the board"),
        (file(good, &[], &[[1, 0], [1, 1]]), "start 1, counted from 0, is not above the one before"),
        (file(good, &[], &[[0, 1_000_001], [3, 0], [2, 0], [1, 0]]), "start 2, counted from 0, is not above the one"),
        (file(good, &[], &[[1, 1_000_001]]), "start time `1000001` is not a number from 0 to 1,000,000"),
    ];
    assert_complaints("text", &cases);
}

#[test]
fn the_script_names_the_start_that_the_library_names() {
    let mut r = Random::new(72_000_000);
    let mut starts = || (0..r.within(2, 6)).map(|_| [r.below(11), 0]).collect::<Vec<_>>();
    let files: Vec<Vec<u8>> = (0..1_000).map(|_| file([3, 3, 1, 10, 10, 20], &[], &starts())).collect();
    let mut tally = Tally::default();
    for (file, told) in files.iter().zip(many(&["text"], &files)) {
        let s = scenario::read(file, &mut [0; 9], &mut [0; 6], &mut [0; 6]);
        let told = String::from_utf8_lossy(&told);
        match s.number {
            7 => assert_eq!(told, format!("start {}, counted from 0, is off the board", s.place)),
            18 => assert_eq!(told, format!("start {}, counted from 0, is not above the one before", s.place)),
            _ => assert!(told.starts_with("ticks 10\n"), "{}", told),
        }
        tally.note(s.number);
    }
    tally.assert_each(&[7, 18], 40);
}

#[test]
fn the_script_says_what_it_is_called_with() {
    for words in ["neither", ""] {
        assert_complains(&run(&mut map(words), &[]), "map.py", "say `file` for a file from a map, `text` for");
    }
}

#[test]
fn the_scripts_say_how_they_are_called() {
    for (mut script, name) in [(map("--help"), "map.py file"), (refusal(&["--help"]), "refusal.py 9")] {
        assert!(printed(&mut script, &[]).contains(&format!("\n    python3 {}", name)), "{:?}", script);
    }
}

/// A full device is a complaint of one line; a reader who has had enough is none.
#[test]
fn output_that_cannot_be_written_ends_the_scripts_badly_and_without_a_traceback() {
    let slow = (0..65_536).map(|cell| equal(cell % 4_096)).collect();
    let board = Board { width: 256, height: 256, storeys: 1, slow, cells: vec![1], begins: vec![0] };
    let held = Held { ticks: 10, ground: equal(1), board };
    let drawn = made("text", &written(&held));
    let shown = rings(&fs::read(repository().join("examples/maze.scenario")).expect("a scenario")).into_bytes();
    for (mut script, name, input) in [
        (map("text"), "map.py", written(&held)),
        (map("file"), "map.py", drawn),
        (map("--help"), "map.py", Vec::new()),
        (refusal(&[]), "refusal.py", shown),
        (refusal(&["9"]), "refusal.py", Vec::new()),
    ] {
        assert_complains(&run_into_full(&mut script, &input), name, "No space left on device\n");
        let unread = run_unread(&mut script, &input);
        assert!(unread.status.code() == Some(1) && unread.stderr.is_empty(), "{:?}: {}", script, told(&unread));
    }
}

#[test]
fn the_lines_of_rings_are_passed_on_and_refusals_get_their_words() {
    for path in examples(".rings") {
        let lines = fs::read(&path).expect("the lines of rings");
        let output = run(&mut refusal(&[]), &lines);
        if lines.starts_with(b"refused") {
            assert_eq!((told(&output).as_str(), output.status.code()), ("refused 9: start on a wall\n", Some(1)));
        } else {
            assert!(output.status.success() && output.stdout == lines, "{}: {}", path.display(), told(&output));
        }
    }
    for (words, input, why) in [
        (vec![], "", "nothing came in"),
        (vec![], "refused 19\n", "`19` is not a number of the refusal table"),
        (vec!["16"], "", "`16` is not a number of the refusal table"),
        (vec!["nine"], "", "`nine` is not a number of the refusal table"),
        (vec!["9", "9"], "", "say one number"),
    ] {
        assert_complains(&run(&mut refusal(&words), input.as_bytes()), "refusal.py", why);
    }
}
