//! The header beside the proved source: the same functions, parameters and structs, in the same order.
//! What compiles against a header that differs would call the archive with the wrong words.
//! And the header alone: it compiles as C and as C++, and says by which numbers each call is refused.
//! And the proved source alone: its exports take whatever they are handed.

use second_solver::damage::ORDER;
use second_solver::declared::{declared_in, exported, exports, exports_in, header, read, refusals, structs_in};
use second_solver::programs::{compile, empty_folder, printed};
use std::collections::BTreeSet;
use std::fmt::Debug;
use std::fs;
use std::process::Command;

/// Both have the same names, and under each name the same.
fn assert_same<'a, T: PartialEq + Debug + 'a>(
    what: [&str; 2],
    one: impl IntoIterator<Item = (&'a String, &'a T)>,
    other: impl IntoIterator<Item = (&'a String, &'a T)>,
) {
    let (one, other): (Vec<_>, Vec<_>) = (one.into_iter().collect(), other.into_iter().collect());
    let names = |list: &[(&'a String, &T)]| list.iter().map(|(name, _)| name.to_string()).collect::<Vec<_>>();
    assert_eq!(names(&one), names(&other), "names in {} and in {}", what[0], what[1]);
    for ((name, a), (_, b)) in one.iter().zip(&other) {
        assert_eq!(a, b, "{} in {} and in {}", name, what[0], what[1]);
    }
}

#[test]
fn the_header_declares_what_the_source_exports() {
    let (header, exported) = (header(), exported());
    assert!(!exported.functions.is_empty() && !exported.structs.is_empty());
    assert_same(["the header", "the source"], &header.functions, &exported.functions);
    assert_same(["the header", "the source"], &header.structs, &exported.structs);
}

/// Nothing holds a caller in C or Rust to a `requires`, and without an `ensures` it is promised nothing. A call has no
/// other kind of clause either.
#[test]
fn every_export_has_an_ensures_and_no_requires() {
    let exports = exports();
    assert!(!exports.is_empty());
    for export in exports {
        assert!(export.clauses.contains(&"ensures".to_string()), "{} has no `ensures`", export.name);
        for kind in &export.clauses {
            assert_eq!(kind, "ensures", "{} has another clause", export.name);
        }
    }
}

/// Braces and names of other clauses may stand in a clause, in a comment or in the body.
#[test]
fn the_clauses_of_exports_are_read_by_kind() {
    let source = r#"
        #[unsafe(no_mangle)]
        pub extern "C" fn plain(x: u32) -> Reply
            ensures { Says x result }
        {
            other(x)
        }
        #[unsafe(no_mangle)]
        pub extern "C" fn in_braces(x: &[u32]) -> eikonal::Reply
            // requires { nothing }
            ensures now { f {x.now} (λ {y}. { y {result} }) }
            ensures put { requires { ensures {} } }
        {
            let requires = { 1 };
            requires { ensures }
        }
        #[unsafe(no_mangle)]
        pub extern "C" fn asking(x: u32, y: u32) -> u32
            requires { x < {y} }
            ensures { result < y }
        { y }
        #[unsafe(no_mangle)]
        pub extern "C" fn asking_by_name(x: u32) -> u32
            ensures least { x ≤ result } requires small { x < 5 }
        { x }
        #[unsafe(no_mangle)]
        pub extern "C" fn starred(x: u32) -> u32
            requires* { ⌜ x < 5 ⌝ }
            ensures* least { ⌜ x ≤ result ⌝ }
        { x }
        #[unsafe(no_mangle)]
        pub extern "C" fn silent(x: u32) -> u32 {
            ensures { x }
        }
        #[unsafe(no_mangle)]
        pub extern "C" fn haunted(x: u32) -> u32
            ghost top: { ℕ }
            ensures { result ≡ top }
        { x }"#;
    let read: Vec<_> = exports_in(source).into_iter().map(|export| (export.name, export.clauses.join(" "))).collect();
    let typed = [
        ("plain", "ensures"),
        ("in_braces", "ensures ensures"),
        ("asking", "requires ensures"),
        ("asking_by_name", "ensures requires"),
        ("starred", "requires ensures"),
        ("silent", ""),
        ("haunted", "ghost ensures"),
    ];
    assert_eq!(read, typed.map(|(name, kinds)| (name.to_string(), kinds.to_string())));
}

#[test]
fn the_tests_declare_every_call_as_the_header_does() {
    assert_same(["the header", "tests/src/ffi"], &header().functions, &declared_in("tests/src/ffi"));
}

/// The wrapper has no use for plain start lists.
#[test]
fn the_wrapper_declares_every_call_over_records_as_the_header_does() {
    let mut header = header();
    header.functions.retain(|name, _| !name.ends_with("_plain"));
    assert_same(["the header", "the wrapper"], &header.functions, &declared_in("wrapper/src"));
}

#[test]
fn the_structs_of_rust_code_are_those_of_the_header() {
    for folder in ["tests/src", "wrapper/src"] {
        assert_same(["the header", folder], &header().structs, &structs_in(folder, ".rs"));
    }
}

#[test]
fn the_readme_names_every_call_and_no_other() {
    let header = header();
    let readme = read("README.md");
    let words = readme.split(|sign: char| !sign.is_alphanumeric() && sign != '_');
    let named: BTreeSet<&str> = words.filter(|word| word.starts_with("murgolab_")).collect();
    let calls: BTreeSet<&str> = header.functions.keys().map(String::as_str).collect();
    let structs: BTreeSet<&str> = header.structs.keys().map(String::as_str).collect();
    assert_eq!(&named - &structs, calls);
}

/// Included twice and linked, so that C++ finds the names that C gave them.
#[test]
fn the_header_compiles_alone_as_c_and_as_cpp() {
    let folder = empty_folder(env!("CARGO_TARGET_TMPDIR"), "header");
    let include = "#include \"murgolab.h\"\n".repeat(2);
    let main = "int main(void) { return MURGOLAB_PAIR(10, 4095) == 10 + 65536 * 4095u
        && MURGOLAB_LEFT == 1 && MURGOLAB_RIGHT == 2 && MURGOLAB_ABOVE == 4 && MURGOLAB_BELOW == 4 * 2
        && MURGOLAB_OVER == 16 && MURGOLAB_UNDER == 16 * 2
        && murgolab_local_rule(10, 10, 0, 0, 0, 0, 0, 0).sides == (MURGOLAB_LEFT | MURGOLAB_ABOVE | MURGOLAB_OVER)
        && murgolab_diagonal(4096).number == MURGOLAB_SLOWNESS ? 0 : 1; }\n";
    for (compiler, standard, ending) in
        [("cc", "-std=c99", "c"), ("cc", "-std=c11", "c"), ("c++", "-std=c++11", "cpp"), ("c++", "-std=c++17", "cpp")]
    {
        let (source, program) = (folder.join("alone").with_extension(ending), folder.join("alone"));
        fs::write(&source, format!("{}{}", include, main)).expect("a file");
        compile([compiler, standard], &source, &program);
        printed(&mut Command::new(program), &[]);
    }
}

/// The numbers behind `Refused by` in the comment that stands directly before the call's declaration.
fn refused_by(header: &str, call: &str) -> Vec<u32> {
    let before = header.split(&format!(" {}(", call)).next().expect("the text before the call");
    let (comments, answer) = before.rsplit_once("*/\n").expect("a comment");
    assert!(!answer.contains(char::is_whitespace), "{} has no comment of its own", call);
    let comment = comments.rsplit("/*").next().expect("the comment");
    numbers(comment.split("Refused by ").nth(1).unwrap_or_else(|| panic!("{}: {}", call, comment)))
}

/// The numbers with which a text begins; `7 to 9` is 7 8 9.
fn numbers(text: &str) -> Vec<u32> {
    let mut found: Vec<u32> = Vec::new();
    let mut up_to = false;
    for word in text.split_whitespace() {
        match word.trim_end_matches(&['.', ',', ';', ':'][..]).parse() {
            Ok(number) if up_to => found.extend(found[found.len() - 1] + 1..=number),
            Ok(number) => found.push(number),
            Err(_) if word != "to" => break,
            Err(_) => {}
        }
        up_to = word == "to";
    }
    found
}

#[test]
fn the_header_says_by_which_numbers_each_call_is_refused() {
    let text = read("include/murgolab.h");
    for call in header().functions.keys() {
        let numbers = refused_by(&text, call);
        assert!(!numbers.is_empty(), "{} has no numbers", call);
        let in_order: Vec<u32> = ORDER.into_iter().filter(|number| numbers.contains(number)).collect();
        assert_eq!(numbers, in_order, "{} looks for them in another order", call);
        assert_eq!(numbers.contains(&7), numbers.contains(&18), "{} judges starts by 7 and 18, or not at all", call);
        let takes_pairs = numbers.contains(&5) && call != "murgolab_diagonal";
        let judges = [21, 23].map(|number| numbers.contains(&number));
        assert_eq!(judges, [takes_pairs; 2], "{} judges pairs by 5, 21 and 23, or not at all", call);
        assert_eq!(numbers, refused_by(&text, call.trim_end_matches("_plain")), "{} with plain lists", call);
    }
}

/// The tests' order of the numbers has those of the table, each once.
#[test]
fn every_number_of_the_table_has_its_place_in_the_order() {
    let mut sorted = ORDER;
    sorted.sort_unstable();
    assert_eq!(sorted.to_vec(), refusals().iter().skip(1).map(|line| line.number).collect::<Vec<_>>());
}

/// The table has a row of each call over records, which begins with its name and ends with its numbers.
#[test]
fn the_readme_says_the_same_numbers_of_each_call() {
    let (text, readme) = (read("include/murgolab.h"), read("README.md"));
    for call in header().functions.keys().filter(|call| !call.ends_with("_plain")) {
        let is_row = |line: &&str| {
            line.strip_prefix(&format!("| `{}", call)).map_or(false, |rest| rest.starts_with(&['`', '('][..]))
        };
        let row = readme.lines().find(is_row).unwrap_or_else(|| panic!("{} has no row", call));
        let last = row.trim_end_matches(&['|', ' '][..]).rsplit('|').next().expect("a column");
        assert_eq!(numbers(last), refused_by(&text, call), "{}", call);
    }
}

#[test]
fn header_pkg_config_file_and_wrapper_have_one_version() {
    let version = |path: &str, before: &str, behind: &str| {
        let text = read(path);
        let line = text.lines().find_map(|line| line.strip_prefix(before)?.strip_suffix(behind));
        line.unwrap_or_else(|| panic!("{} has no version", path)).to_string()
    };
    let header = version("include/murgolab.h", "#define MURGOLAB_VERSION \"", "\"");
    assert_eq!(version("murgolab.pc.in", "Version: ", ""), header);
    assert_eq!(version("wrapper/Cargo.toml", "version = \"", "\""), header);
}
