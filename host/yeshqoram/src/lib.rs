//! The services of Yeshqoram. What each returns and leaves in the two buffers
//! is proved, on every input: nothing has to be tested before a call.
//!
//! - The answer's number is 0, or says why the call was refused.
//! - `out`: the answer fills its front and the rest is unchanged; on a refusal
//!   all of it is unchanged.
//! - `work` is all zero after every call.

mod boundary;

/// The longest text that is not refused as 1.
pub const LONGEST_TEXT: usize = 1_048_576;

/// No cap: a segment of any length may be folded.
pub const NO_CAP: usize = 0;

/// The least work area, in words, for a text of so many bytes: a smaller one is
/// refused as 4.
pub fn least_work(text_length: usize) -> usize {
    4 * text_length + 64
}

/// Number 0 is acceptance, its length the bytes written. A refusal has its
/// number, and the line (from 1), or the place (from 0) and the length, of what
/// is refused; a field that is not named is 0.
#[repr(C)]
#[derive(Clone, Copy, Debug, Default, Eq, PartialEq)]
pub struct Answer {
    pub number: usize,
    pub line: usize,
    pub from: usize,
    pub length: usize,
}

/// The counters of a normalization; all are 0 on a refusal.
#[repr(C)]
#[derive(Clone, Copy, Debug, Default, Eq, PartialEq)]
pub struct Stats {
    pub input_direct_self_loop_edges: usize,
    pub output_direct_self_loop_edges: usize,
    pub input_adjacent_same_node_path_steps: usize,
    pub output_adjacent_same_node_path_steps: usize,
    pub input_adjacent_same_step_path_steps: usize,
    pub output_adjacent_same_step_path_steps: usize,
    pub normalized_nodes: usize,
    pub collapsed_runs: usize,
    pub created_segments: usize,
    pub added_links: usize,
    pub removed_self_loop_links: usize,
    pub paths_changed: usize,
    pub path_steps_before: usize,
    pub path_steps_after: usize,
}

impl Stats {
    /// The counters with their names, in the order of the Rust.
    pub fn named(&self) -> [(&'static str, usize); 14] {
        [
            (
                "input_direct_self_loop_edges",
                self.input_direct_self_loop_edges,
            ),
            (
                "output_direct_self_loop_edges",
                self.output_direct_self_loop_edges,
            ),
            (
                "input_adjacent_same_node_path_steps",
                self.input_adjacent_same_node_path_steps,
            ),
            (
                "output_adjacent_same_node_path_steps",
                self.output_adjacent_same_node_path_steps,
            ),
            (
                "input_adjacent_same_step_path_steps",
                self.input_adjacent_same_step_path_steps,
            ),
            (
                "output_adjacent_same_step_path_steps",
                self.output_adjacent_same_step_path_steps,
            ),
            ("normalized_nodes", self.normalized_nodes),
            ("collapsed_runs", self.collapsed_runs),
            ("created_segments", self.created_segments),
            ("added_links", self.added_links),
            ("removed_self_loop_links", self.removed_self_loop_links),
            ("paths_changed", self.paths_changed),
            ("path_steps_before", self.path_steps_before),
            ("path_steps_after", self.path_steps_after),
        ]
    }
}

/// What a normalization returns.
#[repr(C)]
#[derive(Clone, Copy, Debug, Default, Eq, PartialEq)]
pub struct Normalized {
    pub answer: Answer,
    pub stats: Stats,
}

/// Reports on a text, with the first `top_n` nodes.
pub fn report(text: &[u8], top_n: usize, out: &mut [u8], work: &mut [u32]) -> Answer {
    // Each address is that of a slice of the length beside it, and the two
    // buffers are borrowed for this call alone.
    unsafe {
        boundary::yeshqoram_report(
            text.as_ptr(),
            text.len(),
            top_n,
            out.as_mut_ptr(),
            out.len(),
            work.as_mut_ptr(),
            work.len(),
        )
    }
}

/// Folds the runs of a text on self-looped segments of at most `cap` bases;
/// cap 0 is no cap.
pub fn normalize(text: &[u8], cap: usize, out: &mut [u8], work: &mut [u32]) -> Normalized {
    // As above.
    unsafe {
        boundary::yeshqoram_normalize(
            text.as_ptr(),
            text.len(),
            cap,
            out.as_mut_ptr(),
            out.len(),
            work.as_mut_ptr(),
            work.len(),
        )
    }
}

/// Spells path `k`, counted from 0.
pub fn spell_path(text: &[u8], k: usize, out: &mut [u8], work: &mut [u32]) -> Answer {
    // As above.
    unsafe {
        boundary::yeshqoram_spell_path(
            text.as_ptr(),
            text.len(),
            k,
            out.as_mut_ptr(),
            out.len(),
            work.as_mut_ptr(),
            work.len(),
        )
    }
}
