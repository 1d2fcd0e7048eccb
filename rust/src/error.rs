//! The error type of the crate.
use std::fmt;

/// An error of a call. After an error nothing has changed.
#[derive(Clone, Copy, Debug, PartialEq, Eq)]
#[non_exhaustive]
pub enum Error {
    /// The allocator has no memory.
    OutOfMemory,
    /// A message can't be written as a head of HTTP/1.1, or a stored form can't be read.
    Malformed,
    /// A message has more fields than a header map holds.
    HeaderMapFull,
    /// The time is before 1900.
    DateNotPrintable,
    /// An option or a time is out of range.
    BadArgument,
}

impl Error {
    /// Returns the error for a code of `enum hcs_error`.
    pub(crate) fn of_code(code: i32) -> Error {
        match code {
            -1 => Error::OutOfMemory,
            -2 => Error::Malformed,
            -3 => Error::HeaderMapFull,
            -4 => Error::DateNotPrintable,
            _ => Error::BadArgument,
        }
    }
}

impl fmt::Display for Error {
    fn fmt(&self, f: &mut fmt::Formatter<'_>) -> fmt::Result {
        f.write_str(match self {
            Error::OutOfMemory => "out of memory",
            Error::Malformed => "a message or a stored form can't be read",
            Error::HeaderMapFull => "a message has more fields than a header map holds",
            Error::DateNotPrintable => "the time is before 1900",
            Error::BadArgument => "an option or a time is out of range",
        })
    }
}

impl std::error::Error for Error {}
