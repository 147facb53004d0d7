//! The original Rust as the judge of our definitions: each service of document
//! 01 with its whole answer. The answer is the Rust's wherever the Rust has
//! one; document 01 adds the refusals 1 to 4, 21 and 22, the place of a bad
//! name, and the order of unknown nodes that tie in the report.

mod answer;
mod locate;
mod print;
pub mod timed;

#[cfg(test)]
mod tests;

mod graph {
    include!(concat!(env!("OUT_DIR"), "/graph.rs"));
}

/// The module itself, and a way in to its private functions.
#[allow(dead_code, clippy::all)]
mod gfa_self_loops {
    include!(concat!(env!("OUT_DIR"), "/gfa_self_loops.rs"));

    /// A text as the Rust reads it.
    pub struct Reading(ParsedGfa);

    impl Reading {
        pub fn new(text: &str) -> io::Result<Self> {
            parse_gfa(text).map(Reading)
        }

        pub fn report(&self, top_n: usize) -> SelfLoopReport {
            diagnose_parsed_gfa(&self.0, top_n)
        }

        /// The bytes of path `k`; nothing where there is no such path.
        pub fn spell(&self, k: usize) -> Option<io::Result<Vec<u8>>> {
            let path = self.0.paths.get(k)?;
            Some(spell_path_steps(
                path.steps(),
                &self.0.segment_sequences,
                None,
            ))
        }

        pub fn sequence(&self, name: &str) -> Option<&str> {
            self.0.segment_sequences.get(name).map(String::as_str)
        }

        /// The number of each node's first self-link.
        pub fn first_self_links(&self) -> HashMap<&str, usize> {
            let mut first = HashMap::new();
            for (number, link) in self.0.links.iter().enumerate() {
                if link.key.from == link.key.to {
                    first.entry(link.key.from.as_str()).or_insert(number);
                }
            }
            first
        }
    }
}

pub use answer::{normalize, report, spell, tied_by_chance, Answer, LONGEST_TEXT};
