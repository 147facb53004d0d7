//! Large texts of several shapes, for tests of size and for measuring.

use std::fmt::Write;

#[derive(Clone, Copy, Debug, Eq, PartialEq)]
pub enum Shape {
    /// Many segments, one path in pairs of steps.
    Segments,
    /// Many links, of which some are self-links.
    Links,
    /// A few segments, paths of many steps in short runs.
    LongPaths,
    /// One unit, few runs of many steps.
    LongRuns,
    /// Names of which 64 each become the same new name.
    Clashes,
    /// Names that share their first 40 bytes and differ in the last 4.
    Beginnings,
    /// Names that all have one sum, so that all are in one slot.
    OneSlot,
    /// Many segments, every line with CRLF.
    Crlf,
    /// Many segments and steps, no self-link.
    NothingToFold,
}

impl Shape {
    pub const ALL: [Shape; 9] = [
        Shape::Segments,
        Shape::Links,
        Shape::LongPaths,
        Shape::LongRuns,
        Shape::Clashes,
        Shape::Beginnings,
        Shape::OneSlot,
        Shape::Crlf,
        Shape::NothingToFold,
    ];

    pub fn name(self) -> &'static str {
        match self {
            Shape::Segments => "segments",
            Shape::Links => "links",
            Shape::LongPaths => "long-paths",
            Shape::LongRuns => "long-runs",
            Shape::Clashes => "clashes",
            Shape::Beginnings => "beginnings",
            Shape::OneSlot => "one-slot",
            Shape::Crlf => "crlf",
            Shape::NothingToFold => "nothing-to-fold",
        }
    }

    pub fn by_name(name: &str) -> Option<Self> {
        Shape::ALL.into_iter().find(|shape| shape.name() == name)
    }
}

/// A text of exactly so many bytes: as much of the shape as fits, and a comment.
pub fn text(shape: Shape, bytes: usize) -> Vec<u8> {
    let mut text = match shape {
        Shape::Segments => nodes(bytes, "\n", &numbered, true),
        Shape::Links => links(bytes),
        Shape::LongPaths => paths(bytes, 3),
        Shape::LongRuns => paths(bytes, bytes / 16),
        Shape::Clashes => nodes(bytes, "\n", &clashing, true),
        Shape::Beginnings => nodes(bytes, "\n", &beginning, true),
        Shape::OneSlot => nodes(bytes, "\n", &one_sum, true),
        Shape::Crlf => nodes(bytes, "\r\n", &numbered, true),
        Shape::NothingToFold => nodes(bytes, "\n", &numbered, false),
    }
    .into_bytes();
    assert!(text.len() <= bytes);
    if text.len() < bytes {
        text.push(b'#');
        text.resize(bytes, b'.');
    }
    text
}

fn numbered(number: usize) -> String {
    number.to_string()
}

/// `g`, a group, and two bytes that a new name does not keep.
fn clashing(number: usize) -> String {
    const MARKS: &[u8; 8] = b"!$%&()/?";
    let mark = |place: usize| char::from(MARKS[number / place % 8]);
    format!("g{}{}{}", number / 64, mark(8), mark(1))
}

/// A cultivar and a chromosome, 40 bytes, and a number of 4 digits: up to 10,000
/// are distinct.
fn beginning(number: usize) -> String {
    format!(
        "Hordeum_vulgare.Morex.V3.chromosome_5H.p{:04}",
        number % 10_000
    )
}

/// Thirteen pairs of bytes, each one of two by a bit of the number: 33 * 66 + 121
/// is 33 * 67 + 88, so that all 8,192 names have one sum.
fn one_sum(number: usize) -> String {
    let pair = |bit: usize| if number >> bit & 1 == 0 { "By" } else { "CX" };
    (0..13).map(pair).collect()
}

/// Segments, their self-links if asked for, and a path that visits each twice.
fn nodes(bytes: usize, end: &str, name: &dyn Fn(usize) -> String, loops: bool) -> String {
    const PATH: &str = "P\tp\t";
    let mut lines = String::new();
    let mut steps = Vec::new();
    let mut listed = PATH.len() + end.len();
    for number in 0.. {
        let id = name(number);
        let mut node = format!("S\t{id}\tAC{end}");
        if loops {
            write!(node, "L\t{id}\t+\t{id}\t+\t0M{end}").expect("a string takes all");
        }
        let step = format!("{id}+,{id}+,");
        if lines.len() + node.len() + listed + step.len() > bytes {
            break;
        }
        lines += &node;
        listed += step.len();
        steps.push(step);
    }
    if !steps.is_empty() {
        lines = lines + PATH + steps.concat().trim_end_matches(',') + end;
    }
    lines
}

/// A ring of 1000 nodes, links of it over and over, each tenth a self-link.
fn links(bytes: usize) -> String {
    let mut text = String::from("S\t0\tAC\nP\tp\t0+,0+\n");
    for number in 0.. {
        let from = number % 1000;
        let to = if number % 10 == 0 {
            from
        } else {
            (from + 1) % 1000
        };
        let line = format!("L\t{from}\t+\t{to}\t+\t0M\n");
        if text.len() + line.len() > bytes {
            break;
        }
        text += &line;
    }
    cut(text, bytes)
}

/// Four segments and paths of up to 10,000 runs, each of so many equal steps.
fn paths(bytes: usize, run: usize) -> String {
    let mut text: String = (1..=4)
        .map(|id| format!("S\t{id}\tACGT\nL\t{id}\t+\t{id}\t+\t0M\n"))
        .collect();
    for path in 0.. {
        let head = format!("P\tp{path}\t");
        let left = bytes.saturating_sub(text.len() + head.len());
        // A step has three bytes; the last comma becomes the line feed.
        let runs = left.checked_div(3 * run).unwrap_or(0).min(10_000);
        if runs == 0 {
            break;
        }
        let steps: String = (0..runs).map(|number| equal_steps(number, run)).collect();
        text = text + &head + steps.trim_end_matches(',') + "\n";
    }
    cut(text, bytes)
}

fn equal_steps(number: usize, run: usize) -> String {
    let sign = if number % 3 == 2 { '-' } else { '+' };
    format!("{}{sign},", 1 + number % 4).repeat(run)
}

/// The whole lines that fit.
fn cut(mut text: String, bytes: usize) -> String {
    if text.len() > bytes {
        let lines = text[..bytes].rfind('\n').map_or(0, |last| last + 1);
        text.truncate(lines);
    }
    text
}

#[cfg(test)]
mod tests {
    use super::*;
    use crate::{Case, Service};
    use oracle::LONGEST_TEXT;

    #[test]
    fn shapes_are_what_they_say() {
        for shape in Shape::ALL {
            for bytes in [0, 1, 30, 100, 2048, LONGEST_TEXT] {
                let text = text(shape, bytes);
                assert_eq!(text.len(), bytes);
                let mut case = Case::new(Service::Normalize, 0, text);
                case.room = 1 << 24;
                let answer = case.answer();
                assert_eq!(answer.number, 0, "{shape:?} {bytes}");
                if bytes >= 2048 {
                    let folds = shape != Shape::NothingToFold;
                    assert_eq!(answer.stats[6] > 0, folds, "{shape:?} {bytes}");
                }
            }
        }
    }

    #[test]
    fn beginnings_are_shared() {
        for number in [0, 7, 4_200, 9_999] {
            let name = beginning(number);
            assert_eq!(name.len(), 44);
            assert_eq!(name[..40], beginning(0)[..40]);
        }
    }

    #[test]
    fn names_of_one_slot_have_one_sum() {
        let sum = |name: &str| {
            name.bytes().fold(5381u32, |sum, byte| {
                sum.wrapping_mul(33).wrapping_add(u32::from(byte))
            })
        };
        let mut names: Vec<String> = (0..8192).map(one_sum).collect();
        assert!(names.iter().all(|name| sum(name) == sum(&names[0])));
        names.sort();
        names.dedup();
        assert_eq!(names.len(), 8192);
    }

    #[test]
    fn clashing_names_are_distinct() {
        let mut names: Vec<String> = (0..1000).map(clashing).collect();
        names.sort();
        names.dedup();
        assert_eq!(names.len(), 1000);
    }
}
