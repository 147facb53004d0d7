//! Memory that is short is told, and ends no program half way.

use crate::program::{folder, huge, shell, stderr, LISTING};
use std::os::unix::process::ExitStatusExt;

#[test]
fn an_answer_that_no_memory_holds() {
    let line = "ulimit -v 4000000; exec $yeshqoram normalize --room 100000000000";
    let output = shell(&folder("huge"), line, &huge());
    assert_eq!(output.status.code(), Some(2));
    let said = stderr(&output);
    assert_eq!(
        said,
        "yeshqoram: there is no memory for 91176524019 bytes\n"
    );
}

/// From a little more memory than the program starts in up to enough of it.
#[test]
fn little_memory() {
    let folder = folder("little");
    let mut text = LISTING.as_bytes().to_vec();
    for number in 0..60_000 {
        text.extend(format!("P\t{number}\t1+,1+\n").into_bytes());
    }
    text.truncate(1_048_576);
    text.truncate(text.iter().rposition(|&byte| byte == b'\n').unwrap() + 1);
    for command in ["report", "normalize --note", "spell --name 59999", "paths"] {
        let (mut short, mut done) = (0, 0);
        for kilobytes in (2_000..80_000).step_by(1_000) {
            let limited = |kilobytes, command: &str| {
                format!("ulimit -v {kilobytes} && exec $yeshqoram {command}")
            };
            let starts = shell(&folder, &limited(kilobytes - 500, "--version"), b"");
            if !starts.status.success() {
                continue;
            }
            let output = shell(&folder, &limited(kilobytes, command), &text);
            match output.status.code() {
                Some(0) => done += 1,
                Some(2) if stderr(&output).contains("memory") => short += 1,
                status => panic!(
                    "{command}, {kilobytes} kB: {status:?}, signal {:?}, {}",
                    output.status.signal(),
                    stderr(&output)
                ),
            }
        }
        assert!(short > 0 && done > 0, "{command}: {short} and {done}");
    }
}
