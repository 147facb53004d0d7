//! Lines and fields of a text.

use std::ops::Range;

/// The lines with their starts, without their ends.
pub fn lines(text: &[u8]) -> impl Iterator<Item = (&[u8], usize)> {
    let mut start = 0;
    text.split_inclusive(|&byte| byte == b'\n')
        .map(move |line| {
            let at = start;
            start += line.len();
            let line = line.strip_suffix(b"\n").unwrap_or(line);
            (line.strip_suffix(b"\r").unwrap_or(line), at)
        })
}

/// The first seven fields of a line.
pub fn fields(line: &[u8]) -> [Option<&[u8]>; 7] {
    let mut fields = line.split(|&byte| byte == b'\t');
    std::array::from_fn(|_| fields.next())
}

/// Where a field stands in its line, the first being 0; the line's end if there
/// is none.
pub fn field(line: &[u8], number: usize) -> Range<usize> {
    let mut fields = line.split(|&byte| byte == b'\t');
    let start: usize = fields
        .by_ref()
        .take(number)
        .map(|field| field.len() + 1)
        .sum();
    match fields.next() {
        Some(field) => start..start + field.len(),
        None => line.len()..line.len(),
    }
}
