//! tools/test without the Rust: a failure where CI is set, and elsewhere a
//! clear word that the runs against it are skipped.

use crate::program::{folder, stdout};
use std::os::unix::fs::symlink;
use std::path::{Path, PathBuf};
use std::process::{Command, Output};

fn found(program: &str) -> PathBuf {
    let folders = ["/bin", "/usr/bin", "/usr/local/bin"];
    let mut paths = folders.iter().map(|folder| Path::new(folder).join(program));
    paths.find(|path| path.exists()).expect(program)
}

/// The script with no program at hand but `dirname`: it ends at its first step.
fn script(name: &str, set: &[(&str, &str)]) -> Output {
    let empty = folder(name);
    symlink(found("dirname"), empty.join("dirname")).unwrap();
    let root = Path::new(env!("CARGO_MANIFEST_DIR")).join("../..");
    Command::new(found("bash"))
        .arg(root.join("tools/test"))
        .env_clear()
        .env("PATH", &empty)
        .env("YESHQORAM_RUST", &empty)
        .envs(set.iter().copied())
        .output()
        .expect("bash starts")
}

#[test]
fn with_ci_the_missing_rust_is_a_failure() {
    let output = script("gate-ci", &[("CI", "true")]);
    assert_eq!(output.status.code(), Some(1));
    let said = stdout(&output);
    assert!(said.contains("failed: the Rust is not at hand"), "{said}");
    assert!(!said.contains("== crates"), "{said}");
}

#[test]
fn without_ci_the_skipped_runs_are_told() {
    for set in [&[][..], &[("CI", "")]] {
        let said = stdout(&script("gate", set));
        assert!(
            said.contains("demand 2's runs against the Rust are skipped"),
            "{said}"
        );
        assert!(said.contains("== crates"), "{said}");
    }
}
