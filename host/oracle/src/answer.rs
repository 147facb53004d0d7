//! The services, and their refusals in document 01's order.

// A refusal is an answer too, so it is as large as one.
#![allow(clippy::result_large_err)]

use crate::gfa_self_loops::{
    normalize_repeat_self_loops, NormalizeSelfLoopsConfig, NormalizeSelfLoopsStats, Reading,
};
use crate::locate::{first_bad_step, Paths};
use crate::print::{has_ties, in_order, print};
use std::io;

/// The longest text that is not refused as 1.
pub const LONGEST_TEXT: usize = 1_048_576;

/// An answer: number 0 is acceptance, and its length the bytes of output.
#[derive(Clone, Debug, Default, Eq, PartialEq)]
pub struct Answer {
    pub number: usize,
    pub line: usize,
    pub from: usize,
    pub length: usize,
    pub output: Vec<u8>,
    pub stats: [usize; 14],
}

impl Answer {
    fn plain(number: usize) -> Self {
        Answer {
            number,
            ..Answer::default()
        }
    }

    fn at(number: usize, from: usize) -> Self {
        Answer {
            from,
            ..Answer::plain(number)
        }
    }

    fn accepted(output: Vec<u8>, stats: [usize; 14], room: usize) -> Self {
        if output.len() > room {
            return Answer::plain(22);
        }
        Answer {
            length: output.len(),
            output,
            stats,
            ..Answer::default()
        }
    }
}

/// The report with at most `top_n` nodes, into `room` bytes, with a work area
/// of `work` words.
pub fn report(text: &[u8], top_n: usize, room: usize, work: usize) -> Answer {
    answered(report_text(text, top_n, room, work))
}

/// The normalized text under a cap; cap 0 is no cap.
pub fn normalize(text: &[u8], cap: usize, room: usize, work: usize) -> Answer {
    answered(normalized(text, cap, room, work))
}

/// The sequence that path `k` spells.
pub fn spell(text: &[u8], k: usize, room: usize, work: usize) -> Answer {
    answered(spelled(text, k, room, work))
}

/// Does the Rust leave the order of the report's first `top_n` nodes to chance?
pub fn tied_by_chance(text: &[u8], top_n: usize) -> bool {
    std::str::from_utf8(text)
        .ok()
        .and_then(|text| Reading::new(text).ok())
        .is_some_and(|reading| has_ties(&reading.report(usize::MAX).top_nodes, top_n))
}

fn answered(answer: Result<Answer, Answer>) -> Answer {
    answer.unwrap_or_else(|refusal| refusal)
}

fn report_text(text: &[u8], top_n: usize, room: usize, work: usize) -> Result<Answer, Answer> {
    let text = admitted(text, work)?;
    let reading = read(text)?;
    let mut report = reading.report(usize::MAX);
    in_order(&mut report.top_nodes, &reading.first_self_links());
    report.top_nodes.truncate(top_n);
    Ok(Answer::accepted(print(&report), [0; 14], room))
}

fn normalized(text: &[u8], cap: usize, room: usize, work: usize) -> Result<Answer, Answer> {
    let text = admitted(text, work)?;
    let reading = read(text)?;
    let config = NormalizeSelfLoopsConfig { max_unit_len: cap };
    let result = normalize_repeat_self_loops(text, &config)
        .map_err(|error| bad_spelling(&error, &reading, text, Paths::All))?;
    let stats = counters(&result.stats);
    Ok(Answer::accepted(result.gfa.into_bytes(), stats, room))
}

fn spelled(text: &[u8], k: usize, room: usize, work: usize) -> Result<Answer, Answer> {
    let text = admitted(text, work)?;
    let reading = read(text)?;
    let sequence = reading
        .spell(k)
        .ok_or_else(|| Answer::plain(21))?
        .map_err(|error| bad_spelling(&error, &reading, text, Paths::Only(k)))?;
    Ok(Answer::accepted(sequence, [0; 14], room))
}

/// The text, unless it is refused before it is read: 1; 2 and 3 by smallest
/// offset; 4.
fn admitted(text: &[u8], work: usize) -> Result<&str, Answer> {
    if text.len() > LONGEST_TEXT {
        return Err(Answer::plain(1));
    }
    for (offset, &byte) in text.iter().enumerate() {
        if byte >= 128 {
            return Err(Answer::at(2, offset));
        }
        if byte == b'\r' && text.get(offset + 1) != Some(&b'\n') {
            return Err(Answer::at(3, offset));
        }
    }
    if work < 4 * text.len() + 64 {
        return Err(Answer::plain(4));
    }
    Ok(std::str::from_utf8(text).expect("bytes below 128 are UTF-8"))
}

/// The Rust's reading, or its refusal of a line: 5 to 17.
fn read(text: &str) -> Result<Reading, Answer> {
    Reading::new(text).map_err(|error| {
        bad_line(&error.to_string()).unwrap_or_else(|| panic!("the Rust says: {error}"))
    })
}

fn bad_line(message: &str) -> Option<Answer> {
    let (line, reason) = message
        .strip_prefix("invalid GFA at line ")?
        .split_once(": ")?;
    let number = match reason {
        "S line has fewer than 3 fields" => 5,
        "duplicate segment ID" => 6,
        "L line has fewer than 6 fields" => 7,
        "L from orientation is empty" => 8,
        "L from orientation must be '+' or '-'" => 9,
        "L to orientation is empty" => 10,
        "L to orientation must be '+' or '-'" => 11,
        "P line has fewer than 3 fields" => 12,
        "P line has malformed path step" => 13,
        "W line has fewer than 7 fields" => 14,
        "W line has empty path step" => 15,
        "W line has no oriented path steps" => 16,
        "W line has empty final path step" => 17,
        _ => return None,
    };
    Some(Answer {
        line: line.parse().ok()?,
        ..Answer::plain(number)
    })
}

/// The Rust's refusal of a step, 18 or 19, with the place of the name; or 20.
fn bad_spelling(error: &io::Error, reading: &Reading, text: &str, paths: Paths) -> Answer {
    let message = error.to_string();
    if message == "self-loop normalization changed one or more GFA path spellings" {
        return Answer::plain(20);
    }
    let (number, name) = bad_name(&message).unwrap_or_else(|| panic!("the Rust says: {message}"));
    let place = first_bad_step(text, reading, paths)
        .unwrap_or_else(|| panic!("no bad step is found, yet the Rust says: {message}"));
    let unknown = reading.sequence(name).is_none();
    assert_eq!(&text[place.clone()], name, "the Rust says: {message}");
    assert_eq!(unknown, number == 18, "the Rust says: {message}");
    Answer {
        length: place.len(),
        ..Answer::at(number, place.start)
    }
}

fn bad_name(message: &str) -> Option<(usize, &str)> {
    let quoted = |head, tail| message.strip_prefix(head)?.strip_suffix(tail);
    let unknown = quoted("path references unknown segment '", "'").map(|name| (18, name));
    let missing =
        || quoted("segment '", "' is missing an explicit sequence").map(|name| (19, name));
    unknown.or_else(missing)
}

/// The fourteen counters, in the Rust's order.
fn counters(stats: &NormalizeSelfLoopsStats) -> [usize; 14] {
    [
        stats.input_direct_self_loop_edges,
        stats.output_direct_self_loop_edges,
        stats.input_adjacent_same_node_path_steps,
        stats.output_adjacent_same_node_path_steps,
        stats.input_adjacent_same_step_path_steps,
        stats.output_adjacent_same_step_path_steps,
        stats.normalized_nodes,
        stats.collapsed_runs,
        stats.created_segments,
        stats.added_links,
        stats.removed_self_loop_links,
        stats.paths_changed,
        stats.path_steps_before,
        stats.path_steps_after,
    ]
}
