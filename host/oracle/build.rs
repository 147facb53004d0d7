//! Takes the original Rust from its own folder into the build, so that none of
//! it is copied into this repository: all of gfa_self_loops.rs, unchanged, and
//! the complement out of graph.rs. A relative folder is taken from this crate's.

use std::path::{Path, PathBuf};
use std::{env, fs, process};

const FOLDER: &str = "YESHQORAM_RUST";
const DEFAULT: &str = "../../../shared/docs/src";
const COMPLEMENT: [&str; 2] = ["complement_base", "reverse_complement"];

fn main() {
    println!("cargo:rerun-if-env-changed={FOLDER}");
    let folder = PathBuf::from(env::var(FOLDER).unwrap_or_else(|_| DEFAULT.to_string()));
    let out = PathBuf::from(env::var("OUT_DIR").expect("cargo sets OUT_DIR"));
    let module = read(&folder.join("src/gfa_self_loops.rs"));
    let graph = read(&folder.join("src/graph.rs"));
    write(&out.join("gfa_self_loops.rs"), &module);
    let complement: Vec<String> = COMPLEMENT.iter().map(|name| cut(&graph, name)).collect();
    write(&out.join("graph.rs"), &complement.join("\n"));
}

/// One function of a source text: from its `fn` line to the next line that is
/// a closing brace.
fn cut(source: &str, name: &str) -> String {
    let head = format!("fn {name}(");
    let mut lines = source
        .lines()
        .skip_while(|line| line.starts_with(' ') || !line.contains(&head))
        .peekable();
    if lines.peek().is_none() {
        fail(&format!("graph.rs has no function {name}"));
    }
    let mut function = String::new();
    for line in lines {
        function.push_str(line);
        function.push('\n');
        if line == "}" {
            break;
        }
    }
    function
}

fn read(path: &Path) -> String {
    println!("cargo:rerun-if-changed={}", path.display());
    fs::read_to_string(path).unwrap_or_else(|error| {
        fail(&format!(
            "the original Rust is not at {} ({error}): set {FOLDER} to the folder that holds its src/",
            path.display()
        ))
    })
}

fn write(path: &Path, text: &str) {
    fs::write(path, text).unwrap_or_else(|error| fail(&format!("{}: {error}", path.display())));
}

fn fail(message: &str) -> ! {
    eprintln!("oracle: {message}");
    process::exit(1);
}
