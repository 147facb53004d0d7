//! Exit statuses where a stream is closed, full, or left by its reader.

use crate::program::{folder, run, shell, start, stderr, stdout, FOLDED, LISTING, PROGRAM};
use std::io::Write;
use std::path::Path;
use std::process::Command;

/// A line of the shell fails with status 2.
fn fails(folder: &Path, line: &str) -> String {
    let output = shell(folder, line, LISTING.as_bytes());
    assert_eq!(output.status.code(), Some(2), "{line}");
    stderr(&output)
}

#[test]
fn full_devices() {
    let folder = folder("full");
    for command in [
        "report",
        "normalize",
        "spell 0",
        "paths",
        "--help",
        "--version",
    ] {
        let said = fails(&folder, &format!("$yeshqoram {command} > /dev/full"));
        assert!(said.starts_with("yeshqoram: standard output: "), "{said}");
    }
    fails(&folder, "$yeshqoram normalize --stats 2> /dev/full");
    // A refusal is one, though its words are lost.
    let line = "$yeshqoram spell 9 2> /dev/full";
    let refused = shell(&folder, line, LISTING.as_bytes());
    assert_eq!(refused.status.code(), Some(1));
}

#[test]
fn closed_streams() {
    let folder = folder("closed");
    for command in [
        "report",
        "normalize",
        "normalize --note",
        "spell 0",
        "paths",
        "--help",
    ] {
        let said = fails(&folder, &format!("$yeshqoram {command} >&-"));
        assert_eq!(said, "yeshqoram: standard output: it is closed\n");
    }
    fails(&folder, "$yeshqoram normalize -o /dev/stdout >&-");
    fails(&folder, "$yeshqoram normalize --stats 2>&-");
    let said = fails(&folder, "$yeshqoram report <&-");
    assert_eq!(said, "yeshqoram: standard input: it is closed\n");
    // What is not written to may be closed.
    let line = "$yeshqoram normalize -o out.gfa >&- 2>&- && cat out.gfa";
    let done = shell(&folder, line, LISTING.as_bytes());
    assert_eq!(stdout(&done), FOLDED);
}

/// Standard output that is open for reading only.
#[test]
fn a_stream_that_takes_nothing() {
    let folder = folder("takes-nothing");
    let said = fails(&folder, "$yeshqoram report 1< /dev/null");
    assert!(said.starts_with("yeshqoram: standard output: "), "{said}");
}

#[test]
fn a_reader_that_leaves() {
    let mut text = b"S\t1\t".to_vec();
    text.extend(std::iter::repeat_n(b'A', 500_000));
    text.extend(b"\nP\tp\t1+\n");
    for args in [&["spell", "0"][..], &["normalize"]] {
        let mut child = start(Command::new(PROGRAM).args(args));
        drop(child.stdout.take());
        child.stdin.take().unwrap().write_all(&text).unwrap();
        let output = child.wait_with_output().unwrap();
        assert_eq!(output.status.code(), Some(141));
        assert_eq!(stderr(&output), "");
    }
    let head = shell(&folder("head"), "$yeshqoram spell 0 | head -c 3", &text);
    assert_eq!((stdout(&head), stderr(&head)), ("AAA".into(), "".into()));
}

#[test]
fn refusals_and_wrong_commands() {
    assert_eq!(run(&["report"], b"S\n").status.code(), Some(1));
    assert_eq!(run(&["reports"], b"").status.code(), Some(2));
}
