//! Programs that the tests compile and run.

use crate::declared::repository;
use std::fs::{self, File};
use std::io::{ErrorKind, Write};
use std::path::{Path, PathBuf};
use std::process::{Command, Output, Stdio};

/// Runs the command with `input` on its standard input. Nobody minds a program that reads no further.
pub fn run(command: &mut Command, input: &[u8]) -> Output {
    ended(command, input, Stdio::piped(), true)
}

/// The same, with what it prints going to a device that has no room left.
pub fn run_into_full(command: &mut Command, input: &[u8]) -> Output {
    let full = File::options().write(true).open("/dev/full").expect("/dev/full");
    ended(command, input, full.into(), true)
}

/// The same, with a pipe behind it that nobody reads any more.
pub fn run_unread(command: &mut Command, input: &[u8]) -> Output {
    ended(command, input, Stdio::piped(), false)
}

fn ended(command: &mut Command, input: &[u8], out: Stdio, is_read: bool) -> Output {
    let piped = command.stdin(Stdio::piped()).stdout(out).stderr(Stdio::piped());
    let mut child = piped.spawn().unwrap_or_else(|e| panic!("{:?} cannot be run: {}", command, e));
    if !is_read {
        drop(child.stdout.take());
    }
    let (mut pipe, input) = (child.stdin.take().expect("a pipe"), input.to_vec());
    let writer = std::thread::spawn(move || match pipe.write_all(&input) {
        Err(e) if e.kind() != ErrorKind::BrokenPipe => panic!("a pipe: {}", e),
        _ => {}
    });
    let output = child.wait_with_output().expect("a program's end");
    writer.join().expect("the pipe's writer");
    output
}

/// What a program printed; it must have ended well.
pub fn printed(command: &mut Command, input: &[u8]) -> String {
    let output = run(command, input);
    assert!(output.status.success(), "{:?}: {}\n{}", command, output.status, told(&output));
    String::from_utf8(output.stdout).expect("text")
}

pub fn told(output: &Output) -> String {
    format!("{}{}", String::from_utf8_lossy(&output.stdout), String::from_utf8_lossy(&output.stderr))
}

/// A C program of the repository, compiled over the header and the archive into `folder`.
pub fn compiled(source: &str, folder: &Path) -> PathBuf {
    let program = folder.join(Path::new(source).file_stem().expect("a file's name"));
    compile(["cc", "-std=c99"], &repository().join(source), &program);
    program
}

/// Compiles a program over the header and the archive, every warning an error.
pub fn compile([compiler, standard]: [&str; 2], source: &Path, program: &Path) {
    let repository = repository();
    let mut command = Command::new(compiler);
    command.args([standard, "-pedantic", "-Wall", "-Wextra", "-Werror", "-g", "-O1", "-I"]);
    command.arg(repository.join("include")).arg(source);
    command.arg(repository.join("target/staticlib/libmurgolab.a")).arg("-o").arg(program);
    printed(&mut command, &[]);
}

/// An empty folder for a test, below the one that cargo has for them.
pub fn empty_folder(below: &str, name: &str) -> PathBuf {
    let folder = Path::new(below).join(name);
    if folder.exists() {
        fs::remove_dir_all(&folder).expect("an old folder to go");
    }
    fs::create_dir_all(&folder).expect("a folder");
    folder
}

/// The program under valgrind: an error or a leak ends it badly.
pub fn valgrind(program: &Path) -> Command {
    let mut valgrind = Command::new("valgrind");
    valgrind.args(["--quiet", "--error-exitcode=99", "--leak-check=full", "--errors-for-leak-kinds=all"]);
    valgrind.arg(program);
    valgrind
}
