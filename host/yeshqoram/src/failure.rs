//! Why a command did not end well.

use std::collections::TryReserveError;

pub enum Failure {
    /// The text, or the path that was asked for, is refused.
    Refused(String),
    /// The command, a file or the machine is at fault.
    Wrong(String),
    /// The reader of standard output left before the end, as `head` does:
    /// nothing is said.
    Left,
}

impl Failure {
    /// The exit status; that of a reader who left is the one a shell gives a
    /// program that was ended by a broken pipe.
    pub fn status(&self) -> u8 {
        match self {
            Failure::Refused(_) => 1,
            Failure::Wrong(_) => 2,
            Failure::Left => 141,
        }
    }

    pub fn message(&self) -> Option<&str> {
        match self {
            Failure::Refused(message) | Failure::Wrong(message) => Some(message),
            Failure::Left => None,
        }
    }
}

impl From<TryReserveError> for Failure {
    fn from(_: TryReserveError) -> Self {
        Failure::Wrong("there is not enough memory".to_string())
    }
}
