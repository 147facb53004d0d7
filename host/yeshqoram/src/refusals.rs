//! Refusals in words, with the place that they name.

use crate::failure::Failure;
use crate::fault;
use crate::lines::{fields, lines};
use crate::shown::{line_of, shown};
use yeshqoram::Answer;

/// What a number says (document 01, "Refused calls").
fn words(number: usize) -> &'static str {
    match number {
        1 => "the text is longer than 1,048,576 bytes",
        2 => "a byte of 128 or more: only 7-bit text is read",
        3 => "a carriage return that is not followed at once by a line feed",
        4 => "the work area is too short",
        5 => "an S line with fewer than 3 fields",
        6 => "a segment ID that was already read",
        7 => "an L line with fewer than 6 fields",
        8 => "an L line whose from-orientation is empty",
        9 => "an L line whose from-orientation is not a single + or -",
        10 => "an L line whose to-orientation is empty",
        11 => "an L line whose to-orientation is not a single + or -",
        12 => "a P line with fewer than 3 fields",
        13 => "a P line with a malformed step",
        14 => "a W line with fewer than 7 fields",
        15 => "a W line whose walk has an empty step",
        16 => "a W line whose walk has no oriented step",
        17 => "a W line whose walk has an empty last step",
        18 => "a path step names no segment",
        19 => "a path step's segment has the sequence *",
        21 => "no path has that number",
        22 => "the answer is longer than the room for it",
        _ => "refused",
    }
}

pub fn refused(answer: &Answer, text: &[u8]) -> Failure {
    let mut message = format!("refused ({}): {}", answer.number, words(answer.number));
    match answer.number {
        1 | 2 => message += no_text(text),
        21 => message += &how_many_paths(text),
        _ => {}
    }
    if let Some((line, _)) = answer
        .line
        .checked_sub(1)
        .and_then(|at| lines(text).nth(at))
    {
        if let Some(earlier) = earlier(answer.number, text, line) {
            message += &format!(", on line {earlier}");
        }
        let place = fault::place(answer.number, line);
        message += &shown(answer.line, line, place.start, place.len());
    } else if matches!(answer.number, 2 | 3 | 18 | 19) {
        let (number, line, start) = line_of(text, answer.from);
        message += &shown(number, line, answer.from - start, answer.length.max(1));
    }
    Failure::Refused(message)
}

/// A refusal as 22, with what the answer needs.
pub fn too_long(need: usize, most: usize) -> Failure {
    Failure::Refused(format!(
        "refused (22): {}: it has {need} bytes, and --room allows {most}",
        words(22)
    ))
}

fn earlier(number: usize, text: &[u8], line: &[u8]) -> Option<usize> {
    (number == 6).then(|| fault::earlier(text, line)).flatten()
}

fn how_many_paths(text: &[u8]) -> String {
    let path = |line| matches!(fields(line)[0], Some(b"P" | b"W"));
    match lines(text).filter(|&(line, _)| path(line)).count() {
        0 => ": the text has no path".to_string(),
        1 => ": the text has one path, number 0".to_string(),
        paths => format!(": the text has {paths} paths, numbers 0 to {}", paths - 1),
    }
}

/// What a file is that begins as no text does.
fn no_text(text: &[u8]) -> &'static str {
    match text {
        [0x1f, 0x8b, ..] => "; the file is compressed by gzip: unpack it first",
        [0xef, 0xbb, 0xbf, ..] => {
            "; the file begins with a byte order mark of UTF-8: save it without one"
        }
        [0xfe, 0xff, ..] | [0xff, 0xfe, ..] => {
            "; the file begins with a byte order mark of UTF-16: save it as plain ASCII"
        }
        _ => "",
    }
}
