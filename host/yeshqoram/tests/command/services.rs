//! What the services print, wrong commands, and files read and written.

use crate::program::{folder, run, stderr, stdout, FOLDED, LISTING};
use std::fs;
use std::path::Path;

#[test]
fn the_three_services() {
    let normalized = run(&["normalize"], LISTING.as_bytes());
    assert_eq!(stdout(&normalized), FOLDED);
    assert_eq!(normalized.status.code(), Some(0));
    assert_eq!(
        stdout(&run(&["normalize", "--cap", "1"], LISTING.as_bytes())),
        LISTING
    );
    assert_eq!(
        stdout(&run(&["spell", "0"], LISTING.as_bytes())),
        "ACACAC\n"
    );
    let report = stdout(&run(&["report"], LISTING.as_bytes()));
    assert!(report.starts_with("direct_self_loop_edges=1\n"));
    assert!(report.ends_with("max_repeat_run_path=p\n"));
    let totals = stdout(&run(&["report", "--top", "0"], LISTING.as_bytes()));
    assert!(!totals.contains("node=1"));
}

#[test]
fn counters_and_note() {
    let output = run(&["normalize", "--stats"], LISTING.as_bytes());
    assert_eq!(stdout(&output), FOLDED);
    assert!(stderr(&output).contains("path_steps_before=3\npath_steps_after=1\n"));
    let note = stdout(&run(&["normalize", "--note"], LISTING.as_bytes()));
    assert!(note.contains("Folded runs: 1\nSegments they are on: 1\nPaths that have one: 1 of 1\n"));
    assert!(note.contains("\n1\t3\t1\n"), "{note}");
    assert!(note.contains("\n0\tp\t3\t1\t2\t6\n"), "{note}");
    assert!(note.contains("crates/normalize/specs/Served.antt"));
    let whole = stdout(&run(
        &["normalize", "--note", "--cap", "1"],
        LISTING.as_bytes(),
    ));
    assert!(whole.contains("Nothing is folded"));
    assert!(whole.contains("\n0\tp\t3\t3\t0\t6\n"), "{whole}");
}

#[test]
fn wrong_commands() {
    for args in [
        &[][..],
        &["fold"],
        &["report", "--cap", "1"],
        &["normalize", "--cap"],
        &["normalize", "--cap", "many"],
        &["spell"],
        &["spell", "first"],
        &["report", "a", "b"],
        &["report", "--no-such-option"],
        &["normalize", "--cap=many"],
        &["normalize", "--stats=1"],
        &["normalize", "--cap="],
        &["spell", "--name"],
        &["spell", "--name", "p", "a", "b"],
        &["paths", "--room", "1"],
        &["normalize", "--note", "-o", "-"],
    ] {
        let output = run(args, b"");
        assert_eq!(output.status.code(), Some(2), "{args:?}");
        assert!(stderr(&output).contains("--help"), "{args:?}");
    }
    assert!(stdout(&run(&["--help"], b"")).starts_with("usage: yeshqoram"));
    assert!(stdout(&run(&["--version"], b"")).starts_with("yeshqoram 1"));
}

#[test]
fn values_joined_to_their_options() {
    let text = LISTING.as_bytes();
    assert_eq!(stdout(&run(&["normalize", "--cap=1"], text)), LISTING);
    assert_eq!(stdout(&run(&["normalize", "--cap=2"], text)), FOLDED);
    assert_eq!(stdout(&run(&["spell", "--name=p"], text)), "ACACAC\n");
    let totals = stdout(&run(&["report", "--top=0"], text));
    assert!(!totals.contains("node=1"));
    let small = run(&["normalize", "--room=10"], text);
    assert!(stderr(&small).contains("refused (22)"));
    for output in ["--output=-", "-o=-"] {
        assert_eq!(stdout(&run(&["normalize", output], text)), FOLDED);
    }
    // The name of a file may hold the sign.
    let folder = folder("joined");
    let file = folder.join("a=b.gfa");
    fs::write(&file, LISTING).unwrap();
    let read = run(&["normalize", file.to_str().unwrap()], b"");
    assert_eq!(stdout(&read), FOLDED);
}

#[test]
fn files_are_replaced_whole_or_left() {
    let folder = folder("replaced");
    let input = folder.join("in.gfa");
    let output = folder.join("out.gfa");
    fs::write(&input, LISTING).unwrap();
    fs::write(&output, "as it was").unwrap();
    let (from, to) = (input.to_str().unwrap(), output.to_str().unwrap());

    let refused = run(&["spell", "9", "-o", to, from], b"");
    assert_eq!(refused.status.code(), Some(1));
    assert_eq!(fs::read_to_string(&output).unwrap(), "as it was");

    let done = run(&["normalize", "-o", to, from], b"");
    assert_eq!(done.status.code(), Some(0), "{}", stderr(&done));
    assert_eq!(fs::read_to_string(&output).unwrap(), FOLDED);

    // In place: the input is the output.
    let done = run(&["normalize", "-o", from, from], b"");
    assert_eq!(done.status.code(), Some(0));
    assert_eq!(fs::read_to_string(&input).unwrap(), FOLDED);

    let names: Vec<_> = fs::read_dir(&folder).unwrap().collect();
    assert_eq!(names.len(), 2, "nothing is left beside the files");
}

#[test]
fn files_that_cannot_be_read_or_written() {
    let folder = folder("unreadable");
    let missing = folder.join("missing.gfa");
    let no_folder = folder.join("no/out.gfa");
    for args in [
        ["report", missing.to_str().unwrap()].as_slice(),
        ["report", folder.to_str().unwrap()].as_slice(),
        ["normalize", "-o", no_folder.to_str().unwrap()].as_slice(),
        ["normalize", "-o", folder.to_str().unwrap()].as_slice(),
    ] {
        let output = run(args, LISTING.as_bytes());
        assert_eq!(output.status.code(), Some(2), "{args:?}");
        assert!(stderr(&output).starts_with("yeshqoram: "), "{args:?}");
    }
    if Path::new("/dev/full").exists() {
        let full = run(&["normalize", "-o", "/dev/full"], LISTING.as_bytes());
        assert_eq!(full.status.code(), Some(2));
    }
}

#[test]
fn long_texts() {
    let mut text = LISTING.as_bytes().to_vec();
    text.resize(1_048_576, b'#');
    let output = run(&["spell", "0"], &text);
    assert_eq!(stdout(&output), "ACACAC\n");
    text.push(b'#');
    let output = run(&["spell", "0"], &text);
    assert_eq!(output.status.code(), Some(1));
    assert!(stderr(&output).contains("refused (1)"));
    let small = run(&["normalize", "--room", "10"], LISTING.as_bytes());
    assert_eq!(small.status.code(), Some(1));
    assert!(stderr(&small).contains("refused (22)"));
}
