//! Why a call is refused.
use crate::sys;
use crate::words::Words;
use std::fmt;

/// Why a call is refused. The session is as it was.
#[derive(Clone, Copy, Debug, PartialEq, Eq, Hash)]
#[non_exhaustive]
pub enum Error {
    /// There is no memory for it.
    Memory,
    /// There would be more than 4,294,967,295 tokens.
    Tokens,
    /// More than 4,294,967,295 definitions would have got an id.
    Numbers,
    /// A text would have more than 4,294,967,295 bytes.
    Length,
    /// An offset is within a character.
    Boundary,
    /// The bytes are not all in the text, or end before they start.
    Range,
    /// A source has no definition of this index.
    Index,
    /// The word cannot stand for a crate.
    Root,
    /// There is no source of this number, or, of number 0, there can be none.
    Source,
    /// A word names no option for conditional compilation.
    Cfg,
}

impl Error {
    // The number of its code.
    fn code(self) -> u32 {
        match self {
            Error::Memory => 2,
            Error::Tokens => 3,
            Error::Numbers => 4,
            Error::Length => 7,
            Error::Boundary => 10,
            Error::Range => 11,
            Error::Index => 13,
            Error::Root => 16,
            Error::Source => 17,
            Error::Cfg => 19,
        }
    }
}

/// The words that the library has for the code.
///
/// ```
/// assert_eq!(filgordd::Error::Boundary.to_string(), "an offset is within a character");
/// ```
impl fmt::Display for Error {
    fn fmt(&self, f: &mut fmt::Formatter<'_>) -> fmt::Result {
        Words::of(sys::filgordd_raw_code_words, self.code()).fmt(f)
    }
}

impl std::error::Error for Error {}

const ALL: [Error; 10] = [
    Error::Memory,
    Error::Tokens,
    Error::Numbers,
    Error::Length,
    Error::Boundary,
    Error::Range,
    Error::Index,
    Error::Root,
    Error::Source,
    Error::Cfg,
];

/// `Ok` for the code 0. No other code but these comes from what this crate calls.
pub(crate) fn checked(code: u32) -> Result<(), Error> {
    if code == 0 {
        return Ok(());
    }
    match ALL.into_iter().find(|it| it.code() == code) {
        Some(error) => Err(error),
        None => unreachable!("code {code}"),
    }
}
