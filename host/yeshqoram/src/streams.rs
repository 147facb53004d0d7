//! The standard streams, so that what is lost is known.

use crate::failure::Failure;
use std::fs::{File, Metadata};
use std::io::{self, ErrorKind, Write};
use std::os::fd::AsFd;
use std::os::unix::fs::MetadataExt;
use std::sync::atomic::{AtomicBool, Ordering};

#[derive(Clone, Copy)]
pub enum Stream {
    Input,
    Output,
    Error,
}

static INPUT_CLOSED: AtomicBool = AtomicBool::new(false);
static OUTPUT_CLOSED: AtomicBool = AtomicBool::new(false);
static ERROR_CLOSED: AtomicBool = AtomicBool::new(false);

/// Rust's runtime opens /dev/null in the place of a closed stream before
/// `main`, and no write to it fails: so the streams are looked at earlier.
#[used]
#[cfg_attr(target_vendor = "apple", link_section = "__DATA,__mod_init_func")]
#[cfg_attr(not(target_vendor = "apple"), link_section = ".init_array")]
static LOOK: extern "C" fn() = look;

extern "C" fn look() {
    for stream in [Stream::Input, Stream::Output, Stream::Error] {
        stream
            .closed()
            .store(stream.file().is_err(), Ordering::Relaxed);
    }
}

impl Stream {
    pub fn name(self) -> &'static str {
        match self {
            Stream::Input => "standard input",
            Stream::Output => "standard output",
            Stream::Error => "standard error",
        }
    }

    fn closed(self) -> &'static AtomicBool {
        match self {
            Stream::Input => &INPUT_CLOSED,
            Stream::Output => &OUTPUT_CLOSED,
            Stream::Error => &ERROR_CLOSED,
        }
    }

    /// The stream as a file: Rust's own handle takes a closed one for a sink.
    fn file(self) -> io::Result<File> {
        match self {
            Stream::Input => io::stdin().as_fd().try_clone_to_owned(),
            Stream::Output => io::stdout().as_fd().try_clone_to_owned(),
            Stream::Error => io::stderr().as_fd().try_clone_to_owned(),
        }
        .map(File::from)
    }

    pub fn open(self) -> io::Result<File> {
        if self.closed().load(Ordering::Relaxed) {
            return Err(io::Error::other("it is closed"));
        }
        self.file()
    }

    pub fn write(self, bytes: &[u8]) -> Result<(), Failure> {
        self.open()
            .and_then(|mut file| file.write_all(bytes))
            .map_err(|error| match (self, error.kind()) {
                (Stream::Output, ErrorKind::BrokenPipe) => Failure::Left,
                _ => Failure::Wrong(format!("{}: {error}", self.name())),
            })
    }

    /// Is it what a path was found to name?
    pub fn is(self, found: &Metadata) -> bool {
        self.open()
            .and_then(|file| file.metadata())
            .is_ok_and(|own| (own.dev(), own.ino()) == (found.dev(), found.ino()))
    }
}
