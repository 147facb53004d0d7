//! Links the proved library. `rt lib` in crates/exports writes it; a relative
//! folder is taken from this crate's.

use std::path::PathBuf;
use std::{env, process};

const FOLDER: &str = "YESHQORAM_LIBRARY";
const DEFAULT: &str = "../../crates/exports/out";
const ARCHIVE: &str = "libexports.a";

fn main() {
    println!("cargo:rerun-if-env-changed={FOLDER}");
    let folder = PathBuf::from(env::var(FOLDER).unwrap_or_else(|_| DEFAULT.to_string()));
    let archive = folder.join(ARCHIVE);
    println!("cargo:rerun-if-changed={}", archive.display());
    let Ok(folder) = folder.canonicalize() else {
        fail(&archive.display().to_string());
    };
    if !archive.is_file() {
        fail(&archive.display().to_string());
    }
    println!("cargo:rustc-link-search=native={}", folder.display());
    println!("cargo:rustc-link-lib=static=exports");
}

fn fail(archive: &str) -> ! {
    eprintln!("yeshqoram: there is no {archive}: `rt lib` in crates/exports writes it, or set {FOLDER} to its folder");
    process::exit(1);
}
