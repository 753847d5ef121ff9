//! The pages that people read first: every snippet of the README runs as pasted, and the scenario page has the bytes
//! and the lines of a real file.

use second_solver::board::Board;
use second_solver::declared::{files, read, repository};
use second_solver::pages::{blocks, rows};
use second_solver::programs::{run, told};
use second_solver::rule::{equal, pair};
use second_solver::scenario::{judge, Held, HEAD};
use std::collections::BTreeMap;
use std::fs;
use std::path::PathBuf;
use std::process::Command;

/// A file that a block is to be saved as: its first line names it in a comment.
fn saved_as(block: &str) -> Option<PathBuf> {
    let first = block.lines().next()?;
    let name = first.trim_start_matches(['/', '*', '#', ' ']).trim_end_matches([' ', '*', '/']);
    name.starts_with("target/").then(|| repository().join(name))
}

/// All files outside of target/, .git/ and the crates' out/, with when they were last written.
fn tree() -> BTreeMap<PathBuf, std::time::SystemTime> {
    let mut found = BTreeMap::new();
    for entry in fs::read_dir(repository()).expect("the repository") {
        let path = entry.expect("an entry").path();
        let name = path.file_name().expect("a name").to_string_lossy().into_owned();
        let below = match path.is_dir() {
            true if name == "target" || name == ".git" => Vec::new(),
            true => files(&path, ""),
            false => vec![path],
        };
        found.extend(below.into_iter().map(|file| {
            let written = fs::metadata(&file).and_then(|about| about.modified()).expect("a file's time");
            (file, written)
        }));
    }
    found
}

/// `.ci/run` runs this very test, and `bench/run` measures for minutes. All else is run in order from the
/// repository's folder: files are saved where their first line says, commands must end well, and a block of text
/// behind them is what they print. Nothing is left outside of target/ and the crates' out/.
#[test]
fn every_snippet_of_the_readme_runs_as_pasted() {
    let before = tree();
    let (mut saved, mut ran, mut compared) = (0, 0, 0);
    let mut printed = None;
    for (word, block) in blocks(&read("README.md")) {
        match (word.as_str(), saved_as(&block)) {
            ("c" | "rust" | "toml", Some(path)) => {
                fs::create_dir_all(path.parent().expect("a folder")).expect("a folder for a snippet");
                fs::write(path, block).expect("a snippet's file");
                saved += 1;
            }
            ("sh", None) if block.starts_with(".ci/run") || block.starts_with("bench/run") => {}
            ("sh", None) => {
                let output = run(Command::new("sh").args(["-euc", &block]).current_dir(repository()), &[]);
                assert!(output.status.success(), "{}{}", block, told(&output));
                printed = Some(String::from_utf8(output.stdout).expect("text"));
                ran += 1;
            }
            ("text", None) => {
                assert_eq!(printed.take(), Some(block), "what the block above it prints");
                compared += 1;
            }
            (word, _) => panic!("a block of `{}` that is not run:\n{}", word, block),
        }
    }
    assert!(saved >= 3 && ran >= 5 && compared >= 2, "{} saved, {} run, {} compared", saved, ran, compared);
    assert_eq!(tree(), before, "files outside of target/");
}

/// The rows of a page's tables that begin with an offset and bytes in hex.
fn rows_of_bytes(page: &str) -> Vec<(usize, Vec<u8>)> {
    let byte = |hex: &str| u8::from_str_radix(hex, 16).expect("a byte in hex");
    let offset_and_bytes = |row: Vec<&str>| {
        let hex = row[1].strip_prefix('`')?.strip_suffix('`')?;
        Some((row[0].parse().ok()?, hex.split(' ').map(byte).collect()))
    };
    rows(page).into_iter().filter_map(offset_and_bytes).collect()
}

/// The first table is the file examples/three-by-three.scenario; the second is what follows the head where there are
/// two runs.
#[test]
fn the_scenario_page_has_the_bytes_of_its_files() {
    let rows = rows_of_bytes(&read("docs/SCENARIO.md"));
    let (mut bytes, mut at) = (vec![Vec::new()], 0);
    for (offset, row) in rows {
        if offset < at {
            bytes.push(Vec::new());
        }
        at = offset;
        let file: &mut Vec<u8> = bytes.last_mut().expect("a file");
        if file.is_empty() {
            file.resize(offset, 0);
        }
        assert_eq!(file.len(), offset, "an offset of the page");
        file.extend(row);
    }
    assert_eq!(bytes.len(), 2, "files on the page");
    assert_eq!(bytes[0], fs::read(repository().join("examples/three-by-three.scenario")).expect("the example"));
    let mut second = bytes.remove(1);
    second[..HEAD].copy_from_slice(&bytes[0][..HEAD]);
    second[12] = 2;
    let (ground, furrow) = (equal(10), pair(10, 30));
    let slow = vec![ground, ground, ground, ground, 0, furrow, furrow, ground, ground];
    let board = Board { width: 3, height: 3, storeys: 1, slow, cells: vec![0], begins: vec![0] };
    assert_eq!(judge(&second, None), Ok(Held { ticks: 10, ground, board }));
}

/// The scenario page shows one block: what `rings` prints for the file of its first table.
#[test]
fn the_scenario_page_has_the_lines_of_its_file() {
    let shown = blocks(&read("docs/SCENARIO.md"));
    assert_eq!(shown, [("text".to_string(), read("examples/three-by-three.rings"))]);
}

#[test]
fn no_line_of_a_page_is_longer_than_120_characters() {
    let pages = [
        "README.md",
        "CONTRIBUTING.md",
        "docs/SCENARIO.md",
        "examples/README.md",
        "examples/late-ground.md",
        "include/murgolab.h",
    ];
    let notes = fs::read_dir(repository().join("docs/landings")).expect("the notes of landings");
    let notes: Vec<PathBuf> = notes.map(|note| note.expect("a note").path()).collect();
    assert!(!notes.is_empty());
    for page in pages.map(|page| repository().join(page)).iter().chain(&notes) {
        for (place, line) in fs::read_to_string(page).expect("a page").lines().enumerate() {
            assert!(line.chars().count() <= 120, "{}:{}: {}", page.display(), place + 1, line);
        }
    }
}
