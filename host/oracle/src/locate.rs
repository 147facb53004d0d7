//! Where a step's name stands in a text that the Rust has read: its error only
//! says the name.

use crate::gfa_self_loops::Reading;
use std::ops::Range;

/// The paths that are spelled.
pub enum Paths {
    All,
    Only(usize),
}

/// The place of the first step, paths in text order, that has no sequence.
pub fn first_bad_step(text: &str, reading: &Reading, paths: Paths) -> Option<Range<usize>> {
    let lists = split(text, 0..text.len(), "\n")
        .into_iter()
        .filter_map(|line| step_names(text, line));
    let mut steps: Box<dyn Iterator<Item = Range<usize>>> = match paths {
        Paths::All => Box::new(lists.flatten()),
        Paths::Only(k) => Box::new(lists.skip(k).take(1).flatten()),
    };
    steps.find(|name| matches!(reading.sequence(&text[name.clone()]), None | Some("*")))
}

/// The places of the names of a line's steps; nothing where it is no path.
fn step_names(text: &str, line: Range<usize>) -> Option<Vec<Range<usize>>> {
    let ended = &text[line.clone()];
    let length = ended.strip_suffix('\r').unwrap_or(ended).len();
    let fields = split(text, line.start..line.start + length, "\t");
    match &text[fields[0].clone()] {
        "P" => Some(list_names(text, fields[2].clone())),
        "W" => Some(walk_names(text, fields[6].clone())),
        _ => None,
    }
}

/// The names of a P list: each item that is not empty, but for its last byte.
fn list_names(text: &str, field: Range<usize>) -> Vec<Range<usize>> {
    if &text[field.clone()] == "*" {
        return Vec::new();
    }
    let mut items = split(text, field, ",");
    items.retain(|item| !item.is_empty());
    items
        .into_iter()
        .map(|item| item.start..item.end - 1)
        .collect()
}

/// The names of a walk: what stands after each `>` or `<`.
fn walk_names(text: &str, field: Range<usize>) -> Vec<Range<usize>> {
    split(text, field, "><").into_iter().skip(1).collect()
}

/// The parts of a range of the text between any of the separators.
fn split(text: &str, range: Range<usize>, separators: &str) -> Vec<Range<usize>> {
    let mut start = range.start;
    text[range]
        .split(|byte| separators.contains(byte))
        .map(|part| {
            let place = start..start + part.len();
            start = place.end + 1;
            place
        })
        .collect()
}
