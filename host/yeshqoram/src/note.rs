//! The release note of a normalization.

use crate::failure::Failure;
use crate::folded::{folded, Run};
use crate::graph::Graph;
use crate::memory::Page;
use yeshqoram::Stats;

/// What was folded, and what became of each path; then what is proved of it.
pub fn note(text: &[u8], output: &[u8], cap: usize, stats: &Stats) -> Result<Vec<u8>, Failure> {
    let (before, after) = (Graph::new(text)?, Graph::new(output)?);
    let mut note = Page::default();
    note.put("Release note\n\n")?;
    match cap {
        0 => note.put("Cap: none\n")?,
        _ => note.put(format!("Cap: segments of at most {cap} bases\n"))?,
    }
    if stats.normalized_nodes == 0 {
        note.put("Nothing is folded: the text is returned byte for byte.\n")?;
    } else {
        totals(&mut note, stats, before.paths.len())?;
        segments(&mut note, &folded(&before, &after)?)?;
    }
    paths(&mut note, &before, &after)?;
    note.put(PROVED)?;
    Ok(note.0)
}

fn totals(note: &mut Page, stats: &Stats, paths: usize) -> Result<(), Failure> {
    note.put(format!(
        "\
Folded runs: {}
Segments they are on: {}
Paths that have one: {} of {paths}
New segments: {}
New links: {}
Links removed: {}
",
        stats.collapsed_runs,
        stats.normalized_nodes,
        stats.paths_changed,
        stats.created_segments,
        stats.added_links,
        stats.removed_self_loop_links,
    ))
}

fn segments(note: &mut Page, folded: &[Run]) -> Result<(), Failure> {
    note.put("\nsegment\trun length\truns\n")?;
    for equal in folded.chunk_by(|a, b| a == b) {
        let (name, length) = equal[0];
        note.row(&[name, figure(length).as_ref(), figure(equal.len()).as_ref()])?;
    }
    Ok(())
}

fn paths(note: &mut Page, before: &Graph, after: &Graph) -> Result<(), Failure> {
    note.put("\npath\tname\tsteps before\tsteps after\tlost steps\tbases\n")?;
    for (number, (old, new)) in before.paths.iter().zip(&after.paths).enumerate() {
        note.row(&[
            figure(number).as_ref(),
            old.name,
            figure(old.steps.len()).as_ref(),
            figure(new.steps.len()).as_ref(),
            figure(old.steps.len() - new.steps.len()).as_ref(),
            after.bases_in_words(new).as_ref(),
        ])?;
    }
    if after.paths.iter().any(|path| after.bases(path).is_none()) {
        note.put(UNKNOWN)?;
    }
    Ok(())
}

fn figure(number: usize) -> String {
    number.to_string()
}

const UNKNOWN: &str = "
Bases are unknown where a step names no segment, or one with the sequence *: such a path cannot be spelled.
";

const PROVED: &str = "
Proved of the text that was written, read again at any length: each path spells exactly the bases that it
spelled before; it has lost exactly the steps of its folded runs, which is also its fall in adjacent equal
steps; and a looser cap folds at least as much. The statement is `Normalized` in
crates/normalize/specs/Served.antt (its parts `kept`: `spells`, `lost`, `fallen`), and `calls-monotone` in
crates/normalize/proofs/Demand.antt. The figures down to the links removed are the proved statistics; those of the
two tables are counted by the command line from the two texts.
";
