//! The refusal table stands in the header, in the README, in the wrapper and in the words of the examples, and the
//! reader's part of it on the scenario page. The header's is the one that the others are held to: numbers, names where
//! they are given, and words.
//! The one order in which causes are looked for is defined in crates/eikonal/specs/Order.antt, with numbers to come.
//! The tests' own order, the pages that show it and the README's table of calls are held to that.

use second_solver::damage::ORDER;
use second_solver::declared::{folded, read, refusals, repository, Refusal};
use second_solver::pages::{rows, section};
use second_solver::programs::printed;
use std::process::Command;

/// Numbers and words of the table's lines, without the first, which is no refusal.
fn numbered() -> Vec<(u32, String)> {
    refusals().into_iter().skip(1).map(|line| (line.number, line.words)).collect()
}

/// 16, 17, 19, 20 and 22 are for causes to come.
#[test]
fn the_header_has_a_name_and_words_for_every_number() {
    let table = refusals();
    assert_eq!((table[0].name.as_str(), table[0].words.as_str()), ("MURGOLAB_ACCEPTED", "accepted"));
    assert!(table.iter().map(|line| line.number).eq((0..=15).chain([18, 21, 23])), "{:?}", table);
    for line in &table {
        assert!(line.name.starts_with("MURGOLAB_") && !line.words.is_empty(), "{:?}", line);
        assert!(table.iter().all(|other| other == line || (other.name != line.name && other.words != line.words)));
    }
}

/// The rows `| number | words |` of a page's section.
fn numbered_in(page: &str, name: &str) -> Vec<(u32, String)> {
    let page = read(page);
    let number_and_words = |row: Vec<&str>| Some((row[0].parse().ok()?, folded(row[1])));
    rows(section(&page, name)).into_iter().filter_map(number_and_words).collect()
}

#[test]
fn the_readme_has_the_same_table() {
    assert_eq!(numbered_in("README.md", "Refusal numbers"), numbered());
}

/// The scenario page has those that the reader gives, in the order in which it looks for them.
#[test]
fn the_scenario_page_has_the_same_words() {
    let table = numbered_in("docs/SCENARIO.md", "What is refused");
    assert_eq!(table.iter().map(|line| line.0).collect::<Vec<_>>(), [1, 2, 3, 5, 21, 23, 6, 7, 18, 8, 9, 14]);
    assert!(table.iter().all(|line| numbered().contains(line)), "{:?}", table);
}

/// The name of a refusal in Rust: `FileLength` for `MURGOLAB_FILE_LENGTH`.
fn variant(line: &Refusal) -> String {
    let words = line.name.trim_start_matches("MURGOLAB_").split('_');
    words.map(|word| format!("{}{}", &word[..1], word[1..].to_lowercase())).collect()
}

/// The string literals of code, each with the name or number before it. Those that stand side by side are one literal,
/// as in C.
fn named_literals(code: &str) -> Vec<(String, String)> {
    let code: Vec<&str> = code.lines().filter(|line| !line.trim_start().starts_with("//")).collect();
    let mut found: Vec<(String, String)> = Vec::new();
    for (place, part) in code.join("\n").split('"').enumerate() {
        if place % 2 == 1 {
            found.last_mut().expect("a name before a literal").1 += part;
        } else if !part.trim().is_empty() {
            let mut names = part.split(|sign: char| !sign.is_alphanumeric() && sign != '_');
            let name = names.rfind(|name| !name.is_empty()).unwrap_or("");
            found.push((name.to_string(), String::new()));
        }
    }
    found
}

/// Each name or number is followed by its words, in the table's order; other literals may stand between.
fn assert_named(path: &str, table: &[(String, String)]) {
    let mut literals = named_literals(&read(path));
    literals.retain(|(name, literal)| !literal.is_empty() && table.iter().any(|(known, _)| known == name));
    assert_eq!(literals, table, "{}", path);
}

#[test]
fn the_wrapper_has_the_same_names_and_words() {
    let table: Vec<_> = refusals().iter().skip(1).map(|line| (variant(line), line.words.clone())).collect();
    assert_named("wrapper/src/refusal.rs", &table);
}

/// What examples/shell.c and examples/tablet.c print.
#[test]
fn the_examples_have_the_same_numbers_and_words() {
    let table: Vec<_> = refusals().into_iter().map(|line| (line.number.to_string(), line.words)).collect();
    assert_named("examples/refusals.h", &table);
}

#[test]
fn the_script_says_the_same_words() {
    for line in refusals() {
        let mut script = Command::new("python3");
        script.arg(repository().join("examples/refusal.py")).arg(line.number.to_string());
        assert_eq!(printed(&mut script, &[]), format!("{}: {}\n", line.number, line.words));
    }
}

/// The numbers of the definition `order = 1 ∷ 2 ∷ .. ∷ []`, which begins a line and may go on over the next.
fn order_in(source: &str) -> Vec<u32> {
    let source = format!("\n{}", source);
    let (_, behind) = source.split_once("\norder =").expect("the definition of the order");
    let (line, _) = behind.split_once("[]").expect("the end of the order");
    let mut numbers: Vec<&str> = line.split('∷').map(str::trim).collect();
    assert_eq!(numbers.pop(), Some(""), "an order ends with `∷ []`");
    numbers_of(numbers)
}

fn numbers_of<'a>(words: impl IntoIterator<Item = &'a str>) -> Vec<u32> {
    let number = |word: &str| word.parse().unwrap_or_else(|_| panic!("{:?} is no number", word));
    words.into_iter().map(number).collect()
}

fn defined_order() -> Vec<u32> {
    order_in(&read("crates/eikonal/specs/Order.antt"))
}

/// The order without the numbers that are not in the table yet.
fn order_of_today() -> Vec<u32> {
    let table = numbered();
    defined_order().into_iter().filter(|number| table.iter().any(|line| line.0 == *number)).collect()
}

#[test]
fn the_definition_of_the_order_is_read() {
    let one_line =
        "use lib.{order}\n\n-- order = 9 ∷ []\npub order : List ℕ\norder = 1 ∷ 15 ∷ 3 ∷ []\n\nlast = 4 ∷ []\n";
    assert_eq!(order_in(one_line), [1, 15, 3]);
    assert_eq!(order_in("order =\n    21 ∷ 2 ∷\n    7 ∷ []"), [21, 2, 7]);
}

#[test]
fn the_order_has_no_number_twice() {
    let order = defined_order();
    for (place, number) in order.iter().enumerate() {
        assert!(!order[..place].contains(number), "{} stands twice", number);
    }
}

#[test]
fn the_tests_have_the_numbers_in_the_order_that_is_defined() {
    assert_eq!(ORDER.to_vec(), order_of_today());
}

/// The numbers in backticks behind the words that say what they are for.
fn order_shown_in(page: &str) -> Vec<u32> {
    let text = read(page);
    let words: Vec<&str> = text.split_whitespace().filter(|word| !["*", "///"].contains(word)).collect();
    let text = words.join(" ");
    let parts: Vec<&str> = text.split("Of several causes the one that stands first in this line is given: `").collect();
    assert_eq!(parts.len(), 2, "{} shows the order once", page);
    numbers_of(parts[1].split('`').next().expect("the numbers").split(' '))
}

#[test]
fn the_pages_show_the_order_that_is_defined() {
    for page in ["README.md", "include/murgolab.h", "wrapper/src/refusal.rs", "docs/DECISIONS.md"] {
        assert_eq!(order_shown_in(page), order_of_today(), "{}", page);
    }
}

/// The last column of the table of calls has the numbers that a call is refused by.
#[test]
fn the_readme_has_the_numbers_of_each_call_in_the_order_that_is_defined() {
    let (readme, order) = (read("README.md"), order_of_today());
    let mut calls = rows(section(&readme, "Calls"));
    assert_eq!(calls[0].last(), Some(&"Refused by"));
    calls.retain(|row| row[0].starts_with("`murgolab_"));
    assert!(!calls.is_empty());
    for row in calls {
        let numbers = numbers_of(row.last().expect("a column").split(' '));
        let in_order: Vec<u32> = order.iter().copied().filter(|number| numbers.contains(number)).collect();
        assert_eq!(numbers, in_order, "{}", row[0]);
    }
}
