//! What the archive is made of.

use second_solver::declared::repository;
use second_solver::programs::printed;
use std::process::Command;

/// The lines in which a tool of the linker's tells what the archive has.
fn told_by(tool: &str, word: &str) -> String {
    printed(Command::new(tool).arg(word).arg(repository().join("target/staticlib/libmurgolab.a")), &[])
}

/// The first two words of a line.
fn two_words(line: &str) -> [&str; 2] {
    [0, 1].map(|word| line.split_whitespace().nth(word).unwrap_or_else(|| panic!("{}", line)))
}

/// So no call can allocate, keep anything between two calls or meet another thread's: the archive has code and
/// constants alone, and calls nobody but the two that copy and fill memory.
#[test]
fn the_archive_has_no_variables_and_calls_no_allocator() {
    let lines = told_by("nm", "--format=posix");
    // `libmurgolab.a[murgolab.o]:`, then a name and a kind a line
    let symbols: Vec<[&str; 2]> = lines.lines().filter(|line| !line.ends_with(':')).map(two_words).collect();
    assert!(symbols.contains(&["murgolab_march", "T"]), "{}", lines);
    for [name, kind] in symbols {
        let fine = match kind {
            "T" | "t" | "R" | "r" => true,
            "U" => ["memcpy", "memset"].contains(&name),
            _ => false,
        };
        assert!(fine, "{} of kind {}", name, kind);
    }
}

/// The cheap tablet has the picture sheet in the same storage, so D is kept for 256 slownesses alone. The compiler
/// writes a table as constants and as code that copies them, so both count: 1,346 bytes when this was written, and
/// 16,131 with a table of 4,096.
#[test]
fn constants_and_the_code_of_d_take_little_storage() {
    let lines = told_by("size", "--format=sysv");
    // a section's name and size a line
    let sections: Vec<[&str; 2]> = lines.lines().filter(|line| line.starts_with('.')).map(two_words).collect();
    let kept = |name: &str| [".rodata", ".data"].iter().any(|kind| name.starts_with(kind)) || name.contains("diagonal");
    assert!(sections.iter().any(|[name, _]| *name == ".text.murgolab_diagonal"), "{}", lines);
    let sizes = sections.iter().filter(|[name, _]| kept(name)).map(|[_, size]| size.parse::<u32>().expect("a size"));
    let bytes: u32 = sizes.sum();
    assert!(bytes <= 2_048, "{} bytes", bytes);
}

/// Called for every cell that hears, a function costs a march much, and the compiler makes a call of one that grows past
/// its limit (docs/DECISIONS.md, Card 12): of the front these alone may be calls.
#[test]
fn what_a_neighbours_hearing_goes_through_is_compiled_into_its_callers() {
    let lines = told_by("nm", "--format=posix");
    let calls: Vec<&str> =
        lines.lines().filter(|line| line.starts_with("front::")).map(|line| two_words(line)[0]).collect();
    assert!(calls.contains(&"front::drain::drain"), "{}", lines);
    for name in calls {
        let may = ["front::drain::drain", "front::spread::relax", "front::strip::drain_strip"];
        assert!(may.contains(&name), "{} is a call", name);
    }
}
