//! Refusals in words: the number is the library's, the words and the place are
//! the command line's.

use crate::program::{run, stderr, LISTING};
use crate::rng::Rng;
use crate::{damage, graphs};
use std::process::Output;
use yeshqoram::{least_work, Answer};

/// The line that a refusal shows, and the part of it over the carets.
fn marked(output: &Output) -> (String, String) {
    let said = stderr(output);
    let mut lines = said.lines().skip(1);
    let (line, carets) = (lines.next().unwrap(), lines.next().unwrap());
    let start = carets.find('^').unwrap();
    let part = line[start..].chars().take(carets.trim().len()).collect();
    (line.trim().to_string(), part)
}

#[test]
fn refusals_in_words_with_a_caret() {
    let text = "S\t1\tAC\nL\t1\t+\t1\t+\t0M\nP\tp\t1+,1+,9+\t*\n";
    let output = run(&["normalize"], text.as_bytes());
    assert_eq!(output.status.code(), Some(1));
    assert!(output.stdout.is_empty());
    let said = stderr(&output);
    assert!(said.contains("refused (18): a path step names no segment"));
    let mut lines = said.lines().skip(1);
    let (line, carets) = (lines.next().unwrap(), lines.next().unwrap());
    assert!(line.contains("line 3"));
    assert_eq!(carets.find('^'), line.rfind('9'));
    assert_eq!(carets.trim(), "^");

    let high = run(&["report"], b"H\nS\t1\t\xc3\n");
    assert_eq!(high.status.code(), Some(1));
    assert!(stderr(&high).contains("refused (2)"));
    assert!(stderr(&high).contains("line 2, byte 5"));

    let bad_line = run(&["report"], b"H\nS\t1\n");
    assert!(stderr(&bad_line).contains("refused (5)"));
    assert!(stderr(&bad_line).contains("line 2"));

    let none = run(&["spell", "7"], LISTING.as_bytes());
    assert_eq!(none.status.code(), Some(1));
    assert!(stderr(&none).contains("refused (21)"));
}

/// The bad part of a line is marked, and its first byte counted from 1.
#[test]
fn the_bad_part_of_a_line() {
    let cases = [
        (6, "S\tab\tA\nS\tc\tA\nS\tab\tC\n", "line 3, byte 3", "ab"),
        (9, "L\t1\tx\t1\t+\t*\n", "line 1, byte 5", "x"),
        (11, "L\t1\t+\t1\t+-\t*\n", "line 1, byte 9", "+-"),
        (13, "H\nP\tp\t1+,,22,3+\t*\n", "line 2, byte 9", "22"),
        (13, "P\tp\t1+,-\n", "line 1, byte 8", "-"),
        (15, "W\ts\t1\tc\t0\t1\tx>1><2\n", "line 1, byte 16", ">"),
        (16, "W\ts\t1\tc\t0\t1\tabc\n", "line 1, byte 13", "abc"),
        (17, "W\ts\t1\tc\t0\t1\t>1<\tx\r\n", "line 1, byte 15", "<"),
    ];
    for (number, text, place, part) in cases {
        for command in [&["report"][..], &["normalize"], &["spell", "0"], &["paths"]] {
            let output = run(command, text.as_bytes());
            assert_eq!(output.status.code(), Some(1), "{text}");
            let said = stderr(&output);
            assert!(said.contains(&format!("refused ({number}): ")), "{said}");
            let (line, found) = marked(&output);
            assert!(line.starts_with(&format!("{place}: ")), "{said}");
            assert_eq!(found, part, "{said}");
        }
    }
}

/// A step far into a long line is shown with what stands around it.
#[test]
fn a_bad_step_far_from_the_start() {
    let text = format!("P\tp\t{}77,1+\n", "1+,".repeat(9_000));
    let output = run(&["report"], text.as_bytes());
    let (line, part) = marked(&output);
    assert!(line.starts_with("line 1, byte 27005: "), "{line}");
    assert_eq!(part, "77");
    assert!(line.len() < 150);
}

#[test]
fn the_earlier_line_of_a_segment_id() {
    let text = "H\nS\t1\tA\nS\t2\tA\nP\t1\t*\nS\t1\tC\n";
    let said = stderr(&run(&["report"], text.as_bytes()));
    assert!(said.contains("already read, on line 2\n"), "{said}");
    assert!(said.contains("line 5"), "{said}");
}

#[test]
fn how_many_paths_there_are() {
    let cases = [
        ("", "the text has no path"),
        (LISTING, "the text has one path, number 0"),
        (
            "P\tp\t*\nW\ts\t1\tc\t0\t1\t*\nP\tq\t\n",
            "the text has 3 paths, numbers 0 to 2",
        ),
    ];
    for (text, words) in cases {
        let output = run(&["spell", "18446744073709551615"], text.as_bytes());
        assert_eq!(output.status.code(), Some(1));
        let said = stderr(&output);
        assert!(said.contains("refused (21)"), "{said}");
        assert!(said.contains(words), "{said}");
    }
}

#[test]
fn files_that_are_no_plain_text() {
    let cases: [(&[u8], &str); 4] = [
        (b"\x1f\x8b\x08\x00", "gzip"),
        (b"\xef\xbb\xbfH\n", "byte order mark of UTF-8"),
        (b"\xfe\xff\x00H", "byte order mark of UTF-16"),
        (b"\xff\xfeH\x00", "byte order mark of UTF-16"),
    ];
    for (text, words) in cases {
        let mut long = text.to_vec();
        long.resize(1_048_577, b' ');
        for (text, number) in [(text, 2), (&long, 1)] {
            let output = run(&["report"], text);
            assert_eq!(output.status.code(), Some(1));
            let said = stderr(&output);
            assert!(said.contains(&format!("refused ({number})")), "{said}");
            assert!(said.contains(words), "{said}");
        }
    }
    let other = stderr(&run(&["report"], b"H\xef\xbb\xbf\n"));
    assert!(!other.contains("byte order mark"), "{other}");
}

/// The number is the library's, and so is the line that is shown.
#[test]
fn damaged_texts() {
    let mut seen = [0; 23];
    for number in 0..1_500 {
        let mut rng = Rng::new(17, number);
        let good = graphs::text(&mut rng);
        let text = damage::damaged(&mut rng, &good);
        let answer = library(&text);
        let output = run(&["spell", "0"], &text);
        let said = stderr(&output);
        seen[answer.number] += 1;
        assert_eq!(output.status.code(), Some(i32::from(answer.number > 0)));
        if answer.number > 0 {
            assert!(said.contains(&format!("refused ({}): ", answer.number)));
        }
        if answer.line > 0 {
            assert!(said.contains(&format!("\n  line {}, byte ", answer.line)));
        }
        if matches!(answer.number, 13 | 15 | 17) {
            bad_step(answer.number, &marked(&output).1);
        }
    }
    for number in [2, 3, 5, 6, 7, 9, 11, 13, 14, 15, 16, 17, 18, 19, 21] {
        assert!(seen[number] > 0, "no text is refused as {number}");
    }
}

fn library(text: &[u8]) -> Answer {
    let mut out = vec![0; 65_536];
    let mut work = vec![0; least_work(text.len())];
    yeshqoram::spell_path(text, 0, &mut out, &mut work)
}

/// What is marked is no step: it has no name, or no orientation.
fn bad_step(number: usize, part: &str) {
    let oriented = part.ends_with(['+', '-']);
    match number {
        13 => assert!(part.len() == 1 || !oriented, "{part}"),
        _ => assert!(part == ">" || part == "<", "{part}"),
    }
}
