//! The Rust's own functions and nothing more, for measuring: each answers how
//! many things it gave, so that the work is not left out.

use crate::gfa_self_loops::{
    diagnose_gfa_with_top_n, normalize_repeat_self_loops, NormalizeSelfLoopsConfig, Reading,
};

/// The nodes of the report.
pub fn report(text: &str, top_n: usize) -> usize {
    diagnose_gfa_with_top_n(text, top_n).map_or(0, |report| report.top_nodes.len())
}

/// The bytes of the normalized text.
pub fn normalize(text: &str, cap: usize) -> usize {
    let config = NormalizeSelfLoopsConfig { max_unit_len: cap };
    normalize_repeat_self_loops(text, &config).map_or(0, |result| result.gfa.len())
}

/// The bases of path `k`.
pub fn spell(text: &str, k: usize) -> usize {
    let reading = Reading::new(text).ok();
    let bases = reading.and_then(|reading| reading.spell(k));
    bases.and_then(Result::ok).map_or(0, |bases| bases.len())
}
