//! Segments and paths of a text that the service has accepted.

use crate::failure::Failure;
use crate::lines::{fields, lines};
use crate::memory::push;
use std::collections::HashMap;

/// A step: the name of its segment, and whether its orientation is -.
pub type Step<'a> = (&'a [u8], bool);

pub struct Path<'a> {
    pub name: &'a [u8],
    pub steps: Vec<Step<'a>>,
}

pub struct Graph<'a> {
    /// The length of each sequence; none of one that is `*`.
    lengths: HashMap<&'a [u8], Option<usize>>,
    pub paths: Vec<Path<'a>>,
}

impl<'a> Graph<'a> {
    pub fn new(text: &'a [u8]) -> Result<Self, Failure> {
        let mut graph = Graph {
            lengths: HashMap::new(),
            paths: Vec::new(),
        };
        for (line, _) in lines(text) {
            graph.read(line)?;
        }
        Ok(graph)
    }

    fn read(&mut self, line: &'a [u8]) -> Result<(), Failure> {
        match fields(line) {
            [Some(b"S"), Some(id), Some(sequence), ..] => {
                self.lengths.try_reserve(1)?;
                self.lengths
                    .insert(id, (sequence != b"*").then_some(sequence.len()));
                Ok(())
            }
            [Some(b"P"), Some(name), Some(list), ..] => {
                let steps = p_steps(list)?;
                push(&mut self.paths, Path { name, steps })
            }
            [Some(b"W"), _, _, Some(name), _, _, Some(walk)] => {
                let steps = w_steps(walk)?;
                push(&mut self.paths, Path { name, steps })
            }
            _ => Ok(()),
        }
    }

    /// How many bases a segment has; none if there is no such segment, or its
    /// sequence is `*`.
    pub fn length(&self, name: &[u8]) -> Option<usize> {
        self.lengths.get(name).copied().flatten()
    }

    /// How many bases a path spells; none if that of a step is not known.
    pub fn bases(&self, path: &Path) -> Option<usize> {
        path.steps.iter().map(|(name, _)| self.length(name)).sum()
    }

    /// The same as a figure or a word.
    pub fn bases_in_words(&self, path: &Path) -> String {
        self.bases(path)
            .map_or_else(|| "unknown".to_string(), |bases| bases.to_string())
    }
}

fn p_steps(field: &[u8]) -> Result<Vec<Step<'_>>, Failure> {
    let mut steps = Vec::new();
    if field != b"*" {
        for item in field.split(|&byte| byte == b',') {
            if let Some((&orientation, name)) = item.split_last() {
                push(&mut steps, (name, orientation == b'-'))?;
            }
        }
    }
    Ok(steps)
}

fn w_steps(walk: &[u8]) -> Result<Vec<Step<'_>>, Failure> {
    let mark = |byte: &u8| b"<>".contains(byte);
    let mut steps = Vec::new();
    let mut rest = walk;
    while let Some(place) = rest.iter().position(mark) {
        let name = &rest[place + 1..];
        let end = name.iter().position(mark).unwrap_or(name.len());
        push(&mut steps, (&name[..end], rest[place] == b'<'))?;
        rest = &name[end..];
    }
    Ok(steps)
}

/// Maximal runs of equal steps, with their lengths.
pub fn runs<'a, 'b>(steps: &'b [Step<'a>]) -> impl Iterator<Item = (Step<'a>, usize)> + 'b {
    steps.chunk_by(|a, b| a == b).map(|run| (run[0], run.len()))
}
