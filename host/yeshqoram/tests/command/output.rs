//! `-o`: no bytes are lost, whatever it names.

use crate::program::{folder, run, shell, stderr, stdout, FOLDED, LISTING};
use std::fs::{self, Permissions};
use std::os::unix::fs::{symlink, MetadataExt, PermissionsExt};
use std::path::Path;

fn read(path: &Path) -> String {
    fs::read_to_string(path).expect("a file")
}

fn mode(path: &Path) -> u32 {
    fs::metadata(path).expect("a file").mode() & 0o7777
}

/// A stream that appends to a file is written to at its end, by any name.
#[test]
fn streams_by_their_names() {
    let folder = folder("streams");
    let log = folder.join("log");
    for line in [
        "$yeshqoram normalize -o - >> log",
        "$yeshqoram normalize -o /dev/stdout >> log",
        "$yeshqoram normalize -o /dev/fd/1 >> log",
        "$yeshqoram normalize -o /proc/self/fd/1 >> log",
        "$yeshqoram normalize -o log >> log",
        "$yeshqoram normalize -o /dev/stderr 2>> log",
        "$yeshqoram normalize -o /dev/fd/3 3>> log",
    ] {
        fs::write(&log, "as it was\n").unwrap();
        let done = shell(&folder, line, LISTING.as_bytes());
        assert_eq!(done.status.code(), Some(0), "{line}: {}", stderr(&done));
        assert_eq!(read(&log), format!("as it was\n{FOLDED}"), "{line}");
    }
    assert_eq!(fs::read_dir(&folder).unwrap().count(), 1);
}

#[test]
fn the_text_and_the_note_in_one_stream() {
    let folder = folder("one-stream");
    let line = "$yeshqoram normalize --note -o /dev/stdout > both";
    let done = shell(&folder, line, LISTING.as_bytes());
    assert_eq!(done.status.code(), Some(0), "{}", stderr(&done));
    assert!(read(&folder.join("both")).starts_with(&format!("{FOLDED}Release note\n")));
}

#[test]
fn a_dash_is_standard_output() {
    let folder = folder("dash");
    for command in ["normalize", "report", "spell 0", "paths"] {
        let line = format!("$yeshqoram {command} -o -");
        let done = shell(&folder, &line, LISTING.as_bytes());
        assert_eq!(done.status.code(), Some(0), "{command}");
        assert!(!done.stdout.is_empty(), "{command}");
    }
    assert_eq!(fs::read_dir(&folder).unwrap().count(), 0);
}

#[test]
fn a_write_protected_file_is_left() {
    let folder = folder("protected");
    let file = folder.join("out.gfa");
    let link = folder.join("link.gfa");
    fs::write(&file, "as it was").unwrap();
    fs::set_permissions(&file, Permissions::from_mode(0o444)).unwrap();
    symlink("out.gfa", &link).unwrap();
    for name in [&file, &link] {
        let refused = run(
            &["normalize", "-o", name.to_str().unwrap()],
            LISTING.as_bytes(),
        );
        assert_eq!(refused.status.code(), Some(2));
        assert!(stderr(&refused).contains("write-protected"));
        assert!(stderr(&refused).contains(name.to_str().unwrap()));
        assert_eq!(read(&file), "as it was");
        assert_eq!(mode(&file), 0o444);
    }
    assert_eq!(fs::read_dir(&folder).unwrap().count(), 2);
}

#[test]
fn permissions_are_kept() {
    let folder = folder("permissions");
    let file = folder.join("out.gfa");
    for bits in [0o600, 0o640, 0o666, 0o755] {
        fs::write(&file, "as it was").unwrap();
        fs::set_permissions(&file, Permissions::from_mode(bits)).unwrap();
        let done = run(
            &["normalize", "-o", file.to_str().unwrap()],
            LISTING.as_bytes(),
        );
        assert_eq!(done.status.code(), Some(0));
        assert_eq!((read(&file).as_str(), mode(&file)), (FOLDED, bits));
    }
}

/// Links to a file, to a link, to a file that is not there yet, and to nowhere.
#[test]
fn links_stay() {
    let folder = folder("links");
    fs::create_dir(folder.join("deep")).unwrap();
    fs::write(folder.join("there.gfa"), "as it was").unwrap();
    let links = [
        ("direct", "there.gfa", "there.gfa"),
        ("twice", "direct", "there.gfa"),
        ("dangling", "deep/new.gfa", "deep/new.gfa"),
        ("deep/up", "../newer.gfa", "newer.gfa"),
    ];
    for (link, names, file) in links {
        symlink(names, folder.join(link)).unwrap();
        let line = format!("$yeshqoram normalize -o {link}");
        let done = shell(&folder, &line, LISTING.as_bytes());
        assert_eq!(done.status.code(), Some(0), "{link}: {}", stderr(&done));
        assert_eq!(fs::read_link(folder.join(link)).unwrap(), Path::new(names));
        assert_eq!(read(&folder.join(file)), FOLDED, "{link}");
    }
    symlink("round", folder.join("round")).unwrap();
    symlink("no/such/folder", folder.join("lost")).unwrap();
    for link in ["round", "lost"] {
        let line = format!("$yeshqoram normalize -o {link}");
        let done = shell(&folder, &line, LISTING.as_bytes());
        assert_eq!(done.status.code(), Some(2), "{link}");
        assert!(fs::symlink_metadata(folder.join(link))
            .unwrap()
            .is_symlink());
    }
}

#[test]
fn pipes_and_devices_are_written_to() {
    let folder = folder("pipes");
    let line =
        "mkfifo pipe && { cat pipe & $yeshqoram normalize -o pipe && wait && test -p pipe; }";
    let done = shell(&folder, line, LISTING.as_bytes());
    assert_eq!(done.status.code(), Some(0), "{}", stderr(&done));
    assert_eq!(stdout(&done), FOLDED);
    let null = run(&["normalize", "-o", "/dev/null"], LISTING.as_bytes());
    assert_eq!(null.status.code(), Some(0), "{}", stderr(&null));
    assert!(null.stdout.is_empty());
}
