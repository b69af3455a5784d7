//! Why a command ends without success: it was refused, or it was used wrongly.

use std::fmt::Display;
use std::io;

#[derive(Debug)]
pub enum Failure {
    /// Exit status 1, with these words.
    Refused(String),
    /// Exit status 2, with these words.
    Use(String),
    /// Exit status 1, without a word: whoever read the output has gone, or everything is said already.
    Quiet,
}

pub fn refused<T>(words: impl Display) -> Result<T, Failure> {
    Err(Failure::Refused(words.to_string()))
}

pub fn wrong_use<T>(words: impl Display) -> Result<T, Failure> {
    Err(Failure::Use(words.to_string()))
}

impl From<blackboxlog::Error> for Failure {
    fn from(error: blackboxlog::Error) -> Failure {
        Failure::Refused(error.to_string())
    }
}

/// A failure to write to standard output.
pub fn output(error: io::Error) -> Failure {
    if error.kind() == io::ErrorKind::BrokenPipe {
        Failure::Quiet
    } else {
        Failure::Refused(format!("standard output: {}", error))
    }
}
