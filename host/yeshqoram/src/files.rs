//! The text that a command reads.

use crate::failure::Failure;
use crate::streams::Stream;
use std::fs::File;
use std::io::Read;
use std::path::Path;
use yeshqoram::LONGEST_TEXT;

/// A text: of one that is too long only so much that the service refuses it.
pub fn read(file: Option<&Path>) -> Result<Vec<u8>, Failure> {
    let most = LONGEST_TEXT as u64 + 1;
    let mut text = Vec::new();
    match file {
        None => Stream::Input.open(),
        Some(path) => File::open(path),
    }
    .and_then(|file| file.take(most).read_to_end(&mut text))
    .map_err(|error| Failure::Wrong(format!("{}: {error}", name(file))))?;
    Ok(text)
}

fn name(file: Option<&Path>) -> String {
    file.map_or_else(
        || Stream::Input.name().to_string(),
        |path| path.display().to_string(),
    )
}
