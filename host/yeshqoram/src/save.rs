//! What `-o` names, written so that nothing is lost.

use crate::failure::Failure;
use crate::streams::Stream;
use std::fs::{self, File, Metadata, OpenOptions};
use std::io::{self, ErrorKind, Write};
use std::os::unix::fs::{fchown, MetadataExt, OpenOptionsExt};
use std::path::{Path, PathBuf};

/// Other names of standard output.
const OUTPUT: [&str; 4] = ["-", "/dev/stdout", "/dev/fd/1", "/proc/self/fd/1"];

/// How many symbolic links are followed, one to the next.
const LINKS: usize = 40;

/// Writes to a file, or to standard output where none is named.
pub fn save(file: Option<&Path>, bytes: &[u8]) -> Result<(), Failure> {
    let Some(path) = file.filter(|path| !OUTPUT.iter().any(|name| path.as_os_str() == *name))
    else {
        return Stream::Output.write(bytes);
    };
    // What a stream already writes to is written through it: its bytes stay,
    // and so do those that come behind.
    if let Ok(found) = fs::metadata(path) {
        for stream in [Stream::Output, Stream::Error] {
            if stream.is(&found) {
                return stream.write(bytes);
            }
        }
    }
    put(path, bytes).map_err(|error| Failure::Wrong(format!("{}: {error}", path.display())))
}

fn put(path: &Path, bytes: &[u8]) -> io::Result<()> {
    match fs::metadata(path) {
        Ok(found) if found.is_dir() => Err(ErrorKind::IsADirectory.into()),
        Ok(found) if !found.is_file() => File::options().write(true).open(path)?.write_all(bytes),
        Ok(found) => match followed(path)? {
            Named::File(target) => {
                writable(&target, &found)?;
                replace(&target, Some(&found), bytes)
            }
            Named::Descriptor => File::options().append(true).open(path)?.write_all(bytes),
        },
        Err(error) if error.kind() == ErrorKind::NotFound => match followed(path)? {
            Named::File(target) => replace(&target, None, bytes),
            Named::Descriptor => Err(error),
        },
        Err(error) => Err(error),
    }
}

enum Named {
    File(PathBuf),
    /// A file that is already open, as /dev/fd/3 is: it belongs to another.
    Descriptor,
}

/// The file at the end of symbolic links, which may not be there yet.
fn followed(path: &Path) -> io::Result<Named> {
    let mut path = path.to_path_buf();
    for _ in 0..=LINKS {
        let folder = match path.parent() {
            Some(folder) if folder != Path::new("") => folder,
            _ => Path::new("."),
        };
        if fs::canonicalize(folder)
            .is_ok_and(|folder| folder.starts_with("/proc") || folder == Path::new("/dev/fd"))
        {
            return Ok(Named::Descriptor);
        }
        match fs::read_link(&path) {
            Ok(next) => path = folder.join(next),
            Err(_) => return Ok(Named::File(path)),
        }
    }
    Err(io::Error::other("too many symbolic links"))
}

/// Refuses a write-protected file: replacing it asks its folder alone.
fn writable(target: &Path, found: &Metadata) -> io::Result<()> {
    if found.permissions().readonly() {
        return Err(io::Error::other("the file is write-protected"));
    }
    File::options()
        .write(true)
        .open(target)
        .map(drop)
        .map_err(|error| match error.kind() {
            ErrorKind::PermissionDenied => io::Error::other("the file is write-protected"),
            _ => error,
        })
}

/// Puts the bytes into a new file beside the named one, which then takes its
/// name: the named file is replaced whole, or is as it was.
fn replace(target: &Path, found: Option<&Metadata>, bytes: &[u8]) -> io::Result<()> {
    let (beside, file) = beside(target, found.is_some())?;
    let done = fill(file, found, bytes).and_then(|()| fs::rename(&beside, target));
    if done.is_err() {
        // The file beside is ours alone.
        let _ = fs::remove_file(&beside);
    }
    done
}

fn fill(mut file: File, found: Option<&Metadata>, bytes: &[u8]) -> io::Result<()> {
    file.write_all(bytes)?;
    if let Some(found) = found {
        // Only the superuser can give a file away; the bits are kept by all.
        let _ = fchown(&file, Some(found.uid()), Some(found.gid()));
        file.set_permissions(found.permissions())?;
    }
    file.sync_all()
}

/// A new file in the target's folder; closed to others if the target's own
/// permissions are still to come.
fn beside(target: &Path, closed: bool) -> io::Result<(PathBuf, File)> {
    if target.file_name().is_none() {
        return Err(ErrorKind::InvalidInput.into());
    }
    let mut options = OpenOptions::new();
    options.write(true).create_new(true);
    if closed {
        options.mode(0o600);
    }
    let mut number = 0;
    loop {
        let name = format!(".yeshqoram-{}-{number}.part", std::process::id());
        let path = target.with_file_name(name);
        match options.open(&path) {
            Err(error) if error.kind() == ErrorKind::AlreadyExists && number < 100 => number += 1,
            opened => return opened.map(|file| (path, file)),
        }
    }
}
