//! Damaged copies of good texts.

use crate::rng::Rng;

const BYTES: &[u8] = b"\t\t\n\r+-,*><#SLPWH1 A\x00\x7f\x80\xe9\xff";

/// A copy with one to three small damages.
pub fn damaged(rng: &mut Rng, text: &[u8]) -> Vec<u8> {
    let mut text = text.to_vec();
    for _ in 0..=rng.below(3) {
        damage(rng, &mut text);
    }
    text
}

fn damage(rng: &mut Rng, text: &mut Vec<u8>) {
    let byte = BYTES[rng.below(BYTES.len())];
    let at = rng.below(text.len() + 1);
    match rng.below(7) {
        0 | 1 if at < text.len() => text[at] = byte,
        2 if at < text.len() => drop(text.remove(at)),
        3 => cut_line(text, at),
        4 => swap_lines(rng, text),
        _ => text.insert(at, byte),
    }
}

/// Removes the rest of the line at a place.
fn cut_line(text: &mut Vec<u8>, at: usize) {
    let rest = text[at..].iter().position(|&byte| byte == b'\n');
    text.drain(at..rest.map_or(text.len(), |length| at + length));
}

fn swap_lines(rng: &mut Rng, text: &mut Vec<u8>) {
    let mut lines: Vec<&[u8]> = text.split_inclusive(|&byte| byte == b'\n').collect();
    if lines.len() > 1 {
        let (a, b) = (rng.below(lines.len()), rng.below(lines.len()));
        lines.swap(a, b);
        *text = lines.concat();
    }
}
