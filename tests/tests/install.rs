//! `install.sh`, and a C program that finds what it installs by pkg-config.

use second_solver::declared::{read, repository};
use second_solver::pages::blocks;
use second_solver::programs::{empty_folder, printed, run, told};
use std::ffi::OsString;
use std::fs;
use std::path::{Path, PathBuf};
use std::process::{Command, Output};

const FILES: [&str; 3] = ["include/murgolab.h", "lib/libmurgolab.a", "lib/pkgconfig/murgolab.pc"];

/// The README's C example.
fn readme_example() -> String {
    let example = blocks(&read("README.md")).into_iter().find(|(word, _)| word == "c");
    example.expect("an example in C").1
}

fn folder(test: &str) -> PathBuf {
    empty_folder(env!("CARGO_TARGET_TMPDIR"), test)
}

/// What a shell does in a folder; it must end well.
fn sh(folder: &Path, command: &str) {
    printed(Command::new("sh").args(["-euc", command]).current_dir(folder), &[]);
}

/// A folder beside `folder` with the programs that the script calls, and no kit among them.
fn tools(folder: &Path) -> PathBuf {
    let tools = folder.with_extension("tools");
    fs::create_dir_all(&tools).expect("a folder");
    let called = "bash cat cmp cp dirname find install mkdir mv sed sha256sum sort xargs";
    sh(&tools, &format!("for tool in {}; do ln -sf \"$(command -v $tool)\" .; done", called));
    tools
}

/// `install.sh`, called in `folder`. Without a kit it takes the archive as it is: the tests do not prove it anew.
fn install(folder: &Path) -> Command {
    let mut install = Command::new(repository().join("install.sh"));
    install.current_dir(folder).env_remove("DESTDIR").env("PATH", tools(folder));
    install
}

/// Compiles the README's example as the README says, in a folder of its own, over what is installed below `prefix`.
fn assert_found(test: &str, prefix: &Path) {
    let folder = folder(test);
    fs::write(folder.join("example.c"), readme_example()).expect("a file");
    let compile = "cc -Wall -Wextra -Werror example.c $(pkg-config --cflags --libs murgolab)";
    let mut sh = Command::new("sh");
    sh.args(["-euc", compile]).current_dir(&folder).env("PKG_CONFIG_PATH", prefix.join("lib/pkgconfig"));
    printed(&mut sh, &[]);
    assert_eq!(printed(&mut Command::new(folder.join("a.out")), &[]), "9 cells; the last at 34\nfrom left and above\n");
}

fn is_installed(folder: &Path) -> [bool; 3] {
    FILES.map(|path| folder.join(path).is_file())
}

#[test]
fn the_readmes_c_example_compiles_and_runs_from_any_prefix() {
    let folder = folder("install");
    let absolute = folder.join("absolute");
    for prefix in ["here/prefix", "here/../beside/", "A-b_c.d+e,f=g@h~0", absolute.to_str().expect("a name")] {
        printed(install(&folder).arg(prefix), &[]);
        assert_eq!(is_installed(&folder.join(prefix)), [true; 3], "{}", prefix);
        assert_found("install_example", &folder.join(prefix));
    }
}

/// As packages are made: installed apart, moved to their place later.
#[test]
fn destdir_goes_before_the_prefix_and_is_not_in_the_pkg_config_file() {
    let folder = folder("install_destdir");
    let (stage, prefix) = (folder.join("a stage & more"), folder.join("place"));
    printed(install(&folder).env("DESTDIR", &stage).arg(&prefix), &[]);
    assert!(!prefix.exists());
    let staged = stage.join(prefix.strip_prefix("/").expect("an absolute folder"));
    assert_eq!(is_installed(&staged), [true; 3]);
    fs::rename(staged, &prefix).expect("both on one device");
    fs::remove_dir_all(stage).expect("a folder to go");
    assert_found("install_destdir_example", &prefix);
}

fn assert_refused(output: &Output, status: i32, why: &str) {
    assert_eq!(output.status.code(), Some(status), "{}", told(output));
    assert!(output.stdout.is_empty() && told(output).contains(why), "{}", told(output));
}

/// pkg-config would hand these on in another form, so that `cc` finds nothing.
#[test]
fn prefixes_with_other_signs_are_refused_and_nothing_is_written() {
    let folder = folder("install_refused");
    for sign in ["&", "|", "\\", " ", "$", "#", "'", "\"", "%", ";", "*", "(", ":", "\n", "\t", "é"] {
        let output = run(install(&folder).arg(format!("a{}b", sign)), &[]);
        assert_refused(&output, 1, "a prefix has plain letters");
        assert!(told(&output).contains(&format!("a{}b\n", sign)), "{}", told(&output));
    }
    assert_eq!(fs::read_dir(&folder).expect("the folder").count(), 0);
}

/// A folder outside of the repository, which goes with what is in it: `rt ci` refuses sources and a crates.txt that
/// stand below the repository's own, in target/ too.
struct Apart(PathBuf);

impl Apart {
    fn new(test: &str) -> Apart {
        let name = format!("murgolab-{}-{}", test, std::process::id());
        Apart(empty_folder(&std::env::temp_dir().to_string_lossy(), &name))
    }
}

impl Drop for Apart {
    fn drop(&mut self) {
        let _ = fs::remove_dir_all(&self.0);
    }
}

/// A copy of what the scripts need in `folder`, with a kit whose `rt` notes where it was called. It makes an archive of
/// nothing, or fails where there is a file `broken`. The answer is a PATH with the kit, and one without.
fn copy_with_kit(folder: &Path) -> [std::ffi::OsString; 2] {
    let make = format!(
        "mkdir -p kit tools crates/murgolab/src crates/murgolab_c include; touch crates.txt crates/murgolab/src/lib.rt
        cp '{0}/install.sh' '{0}/murgolab.pc.in' .; cp '{0}/tools/build' tools/; cp '{0}/include/murgolab.h' include/
        printf '#!/bin/sh\n[ $1 != version ] || exit 0\necho ${{PWD##*/}} $* >>../../calls\n' >kit/rt
        printf '[ ! -e ../../broken ] || exit 1\nmkdir -p out\n>out/libmurgolab_c.a\n' >>kit/rt
        chmod +x kit/rt",
        repository().display()
    );
    fs::create_dir(folder).expect("a folder");
    sh(folder, &make);
    let (tools, kit) = (tools(folder), folder.join("kit"));
    [[tools.clone(), kit].to_vec(), vec![tools]].map(|path| std::env::join_paths(path).expect("folders"))
}

#[test]
fn the_archive_is_made_where_it_is_missing_or_old_and_a_kit_is_there() {
    let apart = Apart::new("install_archive");
    let folder = apart.0.join("copy");
    let [with, without] = copy_with_kit(&folder);
    let install = |with_kit: bool| {
        let mut install = Command::new(folder.join("install.sh"));
        let path = if with_kit { &with } else { &without };
        run(install.arg("prefix").current_dir(&folder).env_remove("DESTDIR").env("PATH", path), &[])
    };
    assert_refused(&install(false), 1, "there is no archive");
    let old = "echo >>crates/murgolab/src/lib.rt; touch -d '2 seconds' crates/murgolab/src/lib.rt";
    for (before, with_kit, made) in [("", true, 1), ("", true, 1), (old, false, 1), (old, true, 2)] {
        sh(&folder, before);
        let output = install(with_kit);
        assert!(output.status.success() && output.stdout.is_empty(), "{}", told(&output));
        assert_eq!(read(folder.join("calls")), "murgolab_c lib\n".repeat(made), "{} {}", before, with_kit);
        assert_eq!(is_installed(&folder.join("prefix")), [true; 3]);
    }
}

/// `tools/build` proves again what another source, another file beside it or another archive may have altered, and
/// leaves the archive where it was where that fails.
#[test]
fn what_is_as_it_was_is_not_built_again_and_what_fails_is_named() {
    let apart = Apart::new("install_build");
    let folder = apart.0.join("copy");
    let [with, without] = copy_with_kit(&folder);
    let build = |path: &OsString| {
        let mut build = Command::new(folder.join("tools/build"));
        run(build.arg("archive").current_dir(&folder).env("PATH", path), &[])
    };
    assert_refused(&build(&without), 1, "there is no `rt`");
    let altered =
        ["crates.txt", "crates/murgolab/src/lib.rt", "crates/murgolab/b.antt", "target/staticlib/libmurgolab.a"];
    for (made, before) in [""].into_iter().chain(altered).enumerate() {
        if !before.is_empty() {
            sh(&folder, &format!("echo >>{}", before));
        }
        for _ in 0..2 {
            let output = build(&with);
            assert!(output.status.success() && output.stdout.is_empty(), "{}", told(&output));
            assert_eq!(read(folder.join("calls")), "murgolab_c lib\n".repeat(made + 1), "{}", before);
            assert_eq!(read(folder.join("target/staticlib/libmurgolab.a")), "", "{}", before);
        }
    }
    sh(&folder, "echo >>crates.txt; echo kept >target/staticlib/libmurgolab.a; touch broken");
    for _ in 0..2 {
        assert_refused(&build(&with), 1, "the crate murgolab_c is not proved or not built");
        assert_eq!(read(folder.join("target/staticlib/libmurgolab.a")), "kept\n");
    }
    assert_refused(&run(Command::new(folder.join("tools/build")).arg("all").env("PATH", &with), &[]), 2, "usage: ");
}

#[test]
fn the_script_says_how_it_is_called() {
    let folder = folder("install_usage");
    let help = printed(install(&folder).arg("--help"), &[]);
    assert!(help.starts_with("usage: ") && help.contains("DESTDIR"), "{}", help);
    let calls: [&[&str]; 4] = [&[], &[""], &["--prefix=/usr"], &["a", "b"]];
    for words in calls {
        assert_refused(&run(install(&folder).args(words), &[]), 2, "usage: ");
    }
    assert_eq!(fs::read_dir(&folder).expect("the folder").count(), 0);
}
