//! A place in a text, shown with carets under it.

/// The number, the bytes and the start of the line that holds an offset.
pub fn line_of(text: &[u8], offset: usize) -> (usize, &[u8], usize) {
    let start = text[..offset]
        .iter()
        .rposition(|&byte| byte == b'\n')
        .map_or(0, |end| end + 1);
    let number = text[..start].iter().filter(|&&byte| byte == b'\n').count() + 1;
    let line = text[start..]
        .split(|&byte| byte == b'\n')
        .next()
        .unwrap_or_default();
    (number, line, start)
}

/// How many bytes of a line are shown before the place, and from it on.
const BEFORE: usize = 40;
const AFTER: usize = 60;

/// A part of the line, and carets under `length` bytes of it from `column` on;
/// at least one.
pub fn shown(number: usize, line: &[u8], column: usize, length: usize) -> String {
    let first = column.saturating_sub(BEFORE);
    let last = line.len().min(column.saturating_add(AFTER));
    let place = column.min(last);
    let end = place.saturating_add(length).clamp(place, last);
    let head = format!("  line {number}, byte {}: ", column + 1);
    let before = printed(&line[first..place]);
    let marked = printed(&line[place..end]).len().max(1);
    format!(
        "\n{head}{}\n{}{}",
        printed(&line[first..last]),
        " ".repeat(head.len() + before.len()),
        "^".repeat(marked)
    )
}

/// Bytes as they are printed: a blank for a tab, and no control byte.
fn printed(bytes: &[u8]) -> String {
    let mut text = String::new();
    for &byte in bytes {
        match byte {
            b'\t' => text.push(' '),
            b' '..=b'~' => text.push(char::from(byte)),
            _ => text += &format!("\\x{byte:02x}"),
        }
    }
    text
}
