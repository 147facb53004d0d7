//! How many bytes an answer has that there was too little room for. It may be
//! longer than any memory, so it is not made: the service answers for a text
//! in which what makes it long is short, and the difference is added.

use crate::failure::Failure;
use crate::folded::folded;
use crate::graph::Graph;
use crate::lines::{field, fields, lines};
use crate::memory::{self, push, Page};
use yeshqoram::{least_work, Answer, NO_CAP};

pub fn spell_path(text: &[u8], path: usize) -> Result<usize, Failure> {
    let graph = Graph::new(text)?;
    let path = graph.paths.get(path);
    Ok(path.and_then(|path| graph.bases(path)).unwrap_or(0))
}

/// Sequences become as short as the cap allows: what is folded, and all else
/// of the output, stays.
pub fn normalize(text: &[u8], cap: usize) -> Result<usize, Failure> {
    let short = rewritten(text, |line| {
        Ok(match fields(line) {
            [Some(b"S"), _, Some(sequence), ..] => Some((2, shortened(sequence, cap).to_string())),
            _ => None,
        })
    })?;
    let output = answer(&short, |out, work| {
        yeshqoram::normalize(&short, cap.min(1), out, work).answer
    })?;
    let (before, after, full) = (Graph::new(&short)?, Graph::new(&output)?, Graph::new(text)?);
    // One new segment for each segment and length: its unit has one base here.
    let mut runs = folded(&before, &after)?;
    runs.dedup();
    let more = |name| full.length(name).map_or(0, |unit| unit - 1);
    let repeated: usize = runs.iter().map(|&(name, length)| length * more(name)).sum();
    Ok(output.len() + (text.len() - short.len()) + repeated)
}

/// A sequence that is as much above or below cap 1 as the other one is above
/// or below its cap.
fn shortened(sequence: &[u8], cap: usize) -> &'static str {
    match sequence {
        b"" => "",
        b"*" => "*",
        _ if cap == NO_CAP || sequence.len() <= cap => "A",
        _ => "AA",
    }
}

/// The length of a short name: a number of just so many digits.
const NAME: usize = 9;

/// Names of paths that are not shorter than a short name become one.
pub fn report(text: &[u8], top_n: usize) -> Result<usize, Failure> {
    let mut lengths = Vec::new();
    let short = rewritten(text, |line| {
        let (place, name) = match fields(line) {
            [Some(b"P"), Some(name), ..] => (1, name),
            [Some(b"W"), _, _, Some(name), ..] => (3, name),
            _ => return Ok(None),
        };
        if name.len() < NAME {
            return Ok(None);
        }
        push(&mut lengths, name.len())?;
        Ok(Some((place, format!("{:0NAME$}", lengths.len() - 1))))
    })?;
    let output = answer(&short, |out, work| {
        yeshqoram::report(&short, top_n, out, work)
    })?;
    let named = lines(&output)
        .filter_map(|(line, _)| line.strip_prefix(b"max_repeat_run_path="))
        .filter(|name| name.len() == NAME);
    let more: usize = named.map(|name| lengths[decimal(name)] - NAME).sum();
    Ok(output.len() + more)
}

fn decimal(digits: &[u8]) -> usize {
    digits
        .iter()
        .fold(0, |number, digit| 10 * number + usize::from(digit - b'0'))
}

/// The text with one field of some lines, each given by its number, replaced.
fn rewritten(
    text: &[u8],
    mut change: impl FnMut(&[u8]) -> Result<Option<(usize, String)>, Failure>,
) -> Result<Vec<u8>, Failure> {
    let mut page = Page::default();
    let mut copied = 0;
    for (line, start) in lines(text) {
        if let Some((number, new)) = change(line)? {
            let place = field(line, number);
            page.put(&text[copied..start + place.start])?;
            page.put(new)?;
            copied = start + place.end;
        }
    }
    page.put(&text[copied..])?;
    Ok(page.0)
}

/// The answer for a shortened text, which is some sixty times as long at most.
fn answer(text: &[u8], call: impl Fn(&mut [u8], &mut [u32]) -> Answer) -> Result<Vec<u8>, Failure> {
    let mut work = memory::zeros(least_work(text.len()))?;
    let mut room = 8 * text.len() + 65_536;
    loop {
        let mut out = memory::zeros(room)?;
        let answer = call(&mut out, &mut work);
        if answer.number != 22 {
            out.truncate(answer.length);
            return Ok(out);
        }
        room *= 2;
    }
}
