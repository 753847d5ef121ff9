//! `bench/run` and `bench/against` turn down words of no use with one plain line, before anything is built or measured.

use second_solver::declared::repository;
use second_solver::programs::{printed, run, told};
use std::process::Command;

fn bench(script: &str) -> Command {
    Command::new(repository().join("bench").join(script))
}

#[test]
fn words_of_no_use_are_turned_down() {
    let runs = "RUNS is a whole number from 1 to 9999, not";
    let cases: [(&str, &[&str], &str); 12] = [
        ("run", &["0"], runs),
        ("run", &["-1"], runs),
        ("run", &["word"], runs),
        ("run", &[""], runs),
        ("run", &["2.5"], runs),
        ("run", &["10000"], runs),
        ("run", &["1", "1"], "see bench/run --help"),
        ("against", &[], "see bench/against --help"),
        ("against", &["HEAD", "0"], runs),
        ("against", &["HEAD", "-1"], runs),
        ("against", &["HEAD", "word"], runs),
        ("against", &["no such commit"], "there is no commit 'no such commit'"),
    ];
    for (script, words, why) in cases {
        let output = run(bench(script).args(words), &[]);
        let told = told(&output);
        assert_eq!(output.status.code(), Some(2), "{} {:?}: {}", script, words, told);
        assert!(output.stdout.is_empty() && told.lines().count() == 1, "{} {:?}: {}", script, words, told);
        assert!(told.starts_with("bench/") && told.contains(why), "{} {:?}: {}", script, words, told);
    }
}

#[test]
fn help_names_every_form() {
    for (script, forms) in [("run", ["[RUNS]", "--worst"]), ("against", ["COMMIT", "[RUNS]"])] {
        let help = printed(bench(script).arg("--help"), &[]);
        assert!(forms.iter().all(|form| help.contains(form)), "{}: {}", script, help);
    }
}
