//! The part of a refused line that is at fault: the service names the line.

use crate::lines::{field, fields, lines};
use std::ops::Range;

/// The place in the line; all of it where no part is worse than the others.
pub fn place(number: usize, line: &[u8]) -> Range<usize> {
    match number {
        6 => field(line, 1),
        8 | 9 => field(line, 2),
        10 | 11 => field(line, 4),
        13 => within(line, field(line, 2), bad_item),
        15 => within(line, field(line, 6), empty_step),
        16 => field(line, 6),
        17 => within(line, field(line, 6), |walk| walk.len() - 1..walk.len()),
        _ => 0..line.len(),
    }
}

/// The number of the line that has the segment ID of a later one.
pub fn earlier(text: &[u8], line: &[u8]) -> Option<usize> {
    let id = fields(line)[1];
    lines(text)
        .position(|(line, _)| fields(line)[0] == Some(b"S") && fields(line)[1] == id)
        .map(|place| place + 1)
}

fn within(line: &[u8], part: Range<usize>, find: fn(&[u8]) -> Range<usize>) -> Range<usize> {
    let found = find(&line[part.clone()]);
    part.start + found.start..part.start + found.end
}

/// The first step of a list that has no name, or no orientation at its end.
fn bad_item(list: &[u8]) -> Range<usize> {
    let mut start = 0;
    for item in list.split(|&byte| byte == b',') {
        if let Some((last, name)) = item.split_last() {
            if name.is_empty() || !b"+-".contains(last) {
                return start..start + item.len();
            }
        }
        start += item.len() + 1;
    }
    0..list.len()
}

/// The first orientation of a walk that another follows at once.
fn empty_step(walk: &[u8]) -> Range<usize> {
    walk.windows(2)
        .position(|pair| pair.iter().all(|byte| b"<>".contains(byte)))
        .map_or(0..walk.len(), |at| at..at + 1)
}
