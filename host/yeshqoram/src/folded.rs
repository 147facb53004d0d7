//! The runs that a normalization folded.

use crate::failure::Failure;
use crate::graph::{runs, Graph};
use crate::memory::push;

/// A segment and the length of a run on it.
pub type Run<'a> = (&'a [u8], usize);

/// The runs that became one step, in order; equal ones stand together. A run
/// that is kept has its own name again: no new segment has that of an old one.
pub fn folded<'a>(before: &Graph<'a>, after: &Graph<'_>) -> Result<Vec<Run<'a>>, Failure> {
    let mut folded = Vec::new();
    for (old, new) in before.paths.iter().zip(&after.paths) {
        let mut at = 0;
        for ((name, _), length) in runs(&old.steps) {
            if new.steps.get(at).is_some_and(|step| step.0 == name) {
                at += length;
            } else {
                push(&mut folded, (name, length))?;
                at += 1;
            }
        }
    }
    folded.sort_unstable();
    Ok(folded)
}
