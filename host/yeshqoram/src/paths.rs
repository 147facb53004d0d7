//! The paths of a text: a list of them, and one by its name.

use crate::failure::Failure;
use crate::graph::Graph;
use crate::memory::Page;

/// A line for each path: its number, its name, its steps, and its bases where
/// they are known.
pub fn list(text: &[u8]) -> Result<Vec<u8>, Failure> {
    let graph = Graph::new(text)?;
    let mut page = Page::default();
    page.put("path\tname\tsteps\tbases\n")?;
    for (number, path) in graph.paths.iter().enumerate() {
        page.row(&[
            number.to_string().as_ref(),
            path.name,
            path.steps.len().to_string().as_ref(),
            graph.bases_in_words(path).as_ref(),
        ])?;
    }
    Ok(page.0)
}

/// How many numbers of paths with one name are told.
const TOLD: usize = 10;

/// The number of the path that has a name: there must be one and no other.
pub fn number(text: &[u8], name: &[u8]) -> Result<usize, Failure> {
    let graph = Graph::new(text)?;
    let having = || {
        let paths = graph.paths.iter().enumerate();
        paths.filter_map(|(number, path)| (path.name == name).then_some(number))
    };
    let shown = String::from_utf8_lossy(name);
    match having().count() {
        0 => Err(Failure::Refused(format!(
            "no path has the name {shown}; yeshqoram paths lists them"
        ))),
        1 => Ok(having().next().unwrap_or_default()),
        several => {
            let numbers: Vec<String> = having().take(TOLD).map(|at| at.to_string()).collect();
            let more = if several > TOLD { ", .." } else { "" };
            Err(Failure::Refused(format!(
                "{several} paths have the name {shown}: numbers {}{more}; spell one by its number",
                numbers.join(", "),
            )))
        }
    }
}
