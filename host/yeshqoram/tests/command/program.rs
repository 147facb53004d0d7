//! The program, run.

use std::fs;
use std::io::Write;
use std::path::{Path, PathBuf};
use std::process::{Child, Command, Output, Stdio};

pub const PROGRAM: &str = env!("CARGO_BIN_EXE_yeshqoram");
pub const LISTING: &str = "S\t1\tAC\nL\t1\t+\t1\t+\t0M\nP\tp\t1+,1+,1+\t*\n";
pub const FOLDED: &str = "S\t1\tAC\nS\t2\tACACAC\nP\tp\t2+\t*\n";

pub fn run(args: &[&str], input: &[u8]) -> Output {
    finish(Command::new(PROGRAM).args(args), input)
}

/// A line of the shell, in which `$yeshqoram` is the program; the folder is the
/// one it runs in.
pub fn shell(folder: &Path, line: &str, input: &[u8]) -> Output {
    let mut command = Command::new("sh");
    command.args(["-c", line]).current_dir(folder);
    finish(command.env("yeshqoram", PROGRAM), input)
}

/// Starts a command with the three streams at hand.
pub fn start(command: &mut Command) -> Child {
    command
        .stdin(Stdio::piped())
        .stdout(Stdio::piped())
        .stderr(Stdio::piped())
        .spawn()
        .expect("the program starts")
}

fn finish(command: &mut Command, input: &[u8]) -> Output {
    let mut child = start(command);
    // The program may end before it has read all: that is no failure here.
    let _ = child.stdin.take().expect("a pipe").write_all(input);
    child.wait_with_output().expect("the program ends")
}

/// An empty folder of the test's own.
pub fn folder(name: &str) -> PathBuf {
    let folder = Path::new(env!("CARGO_TARGET_TMPDIR")).join(name);
    let _ = fs::remove_dir_all(&folder);
    fs::create_dir_all(&folder).expect("a folder of our own");
    folder
}

pub fn stdout(output: &Output) -> String {
    String::from_utf8_lossy(&output.stdout).into_owned()
}

pub fn stderr(output: &Output) -> String {
    String::from_utf8_lossy(&output.stderr).into_owned()
}

/// A unit of 524,000 bases in a run of 174,000: folded, it has 91,176,524,019
/// bytes.
pub fn huge() -> Vec<u8> {
    let mut text = b"S\t1\t".to_vec();
    text.extend(std::iter::repeat_n(b'A', 524_000));
    text.extend(b"\nL\t1\t+\t1\t+\t0M\nP\tp\t1+");
    text.extend(b",1+".repeat(173_999));
    text.extend(b"\t*\n");
    text
}
