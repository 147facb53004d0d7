//! The services with room of their own, as much as the answer needs.

use crate::failure::Failure;
use crate::{memory, need, refusals};
use yeshqoram::{least_work, Answer, Normalized, Stats};

pub fn report(text: &[u8], top_n: usize, most: usize) -> Result<Vec<u8>, Failure> {
    serve(
        text,
        most,
        |out, work| (yeshqoram::report(text, top_n, out, work), ()),
        || need::report(text, top_n),
    )
    .map(|(bytes, ())| bytes)
}

pub fn spell_path(text: &[u8], path: usize, most: usize) -> Result<Vec<u8>, Failure> {
    serve(
        text,
        most,
        |out, work| (yeshqoram::spell_path(text, path, out, work), ()),
        || need::spell_path(text, path),
    )
    .map(|(bytes, ())| bytes)
}

pub fn normalize(text: &[u8], cap: usize, most: usize) -> Result<(Vec<u8>, Stats), Failure> {
    serve(
        text,
        most,
        |out, work| {
            let Normalized { answer, stats } = yeshqoram::normalize(text, cap, out, work);
            (answer, stats)
        },
        || need::normalize(text, cap),
    )
}

/// Is the text one that can be read? No path has the number that is asked for.
pub fn readable(text: &[u8]) -> Result<(), Failure> {
    let mut work = memory::zeros(least_work(text.len()))?;
    let answer = yeshqoram::spell_path(text, usize::MAX, &mut [], &mut work);
    match answer.number {
        21 => Ok(()),
        _ => Err(refusals::refused(&answer, text)),
    }
}

/// Calls with room that is mostly enough; if it is not, with what is needed,
/// unless that is more than `most`.
fn serve<T>(
    text: &[u8],
    most: usize,
    call: impl Fn(&mut [u8], &mut [u32]) -> (Answer, T),
    need: impl Fn() -> Result<usize, Failure>,
) -> Result<(Vec<u8>, T), Failure> {
    let mut work = memory::zeros(least_work(text.len()))?;
    let mut room = (4 * text.len() + 65_536).min(most);
    loop {
        let mut out = memory::zeros(room)?;
        let (answer, more) = call(&mut out, &mut work);
        match answer.number {
            0 => {
                out.truncate(answer.length);
                return Ok((out, more));
            }
            22 => {
                drop(out);
                room = match need() {
                    Ok(need) if need > most => return Err(refusals::too_long(need, most)),
                    Ok(need) if need > room => need,
                    Err(failure) if room < most => return Err(failure),
                    // It is refused, though its length is not known.
                    _ => return Err(refusals::refused(&answer, text)),
                };
            }
            _ => return Err(refusals::refused(&answer, text)),
        }
    }
}
