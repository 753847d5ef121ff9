//! The header's calls from C, in a program that is compiled with every warning an error.

use second_solver::declared::{header, read};
use second_solver::programs::{compiled, empty_folder, printed, valgrind};
use std::path::PathBuf;
use std::process::Command;

const SOURCE: &str = "tests/c/calls.c";

/// The program in a folder of the test's own.
fn calls(test: &str) -> PathBuf {
    compiled(SOURCE, &empty_folder(env!("CARGO_TARGET_TMPDIR"), test))
}

fn assert_nothing_wrong(told: &str) {
    assert!(told.ends_with(" checks, 0 wrong\n") && !told.starts_with("0 "), "{}", told);
}

#[test]
fn calls_from_c_answer_and_leave_what_they_should_and_write_beside_no_list() {
    assert_nothing_wrong(&printed(Command::new(calls("calls")).arg("8"), &[]));
}

/// Lists that end where their memory ends. The gate installs valgrind; without it this fails.
#[test]
fn calls_from_c_touch_nothing_but_their_lists() {
    assert_nothing_wrong(&printed(valgrind(&calls("calls_valgrind")).arg("0"), &[]));
}

#[test]
fn every_call_of_the_header_is_called_from_c() {
    let source = read(SOURCE);
    for name in header().functions.keys() {
        assert!(source.contains(&format!("{}(", name)), "{} is not called", name);
    }
}
