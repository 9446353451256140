//! Why a pattern has no tree.

use crate::call::is_newer;
use crate::ffi::CallResult;
use crate::{numbers, ParseError};
use std::fmt;

/// Why a call has no result. A later version of the crate may have more reasons, so a `match` needs an arm for others; this is
/// so for each enum that may grow.
#[derive(Debug, Clone, PartialEq, Eq)]
#[non_exhaustive]
pub enum Error {
    /// The pattern is invalid: the position of its error, and what is wrong there. A pattern has at most one error.
    ///
    /// The position is a byte offset. It is a character boundary, or one past the end of the pattern.
    ParseError(usize, ParseError),
    /// An allocation of the library failed, or one of the buffers for it. The pattern may be valid or not, and the call can
    /// be made again.
    ///
    /// While an owned tree is built, Rust's own allocations abort the process if they fail, as elsewhere in Rust.
    OutOfMemory,
    /// The library that is linked is older than the crate needs, or has another major version. `build.rs` looks at the
    /// version too, where it can run a program that is linked with the library.
    Version {
        /// The oldest version that the crate works with: major and minor. It works with a later minor version too.
        needed: (u32, u32),
        /// The version of the library: major, minor and patch.
        found: (u32, u32, u32),
    },
    /// The library is newer than the crate, and returned a number that the crate has no name for. What it numbers, such as a
    /// kind of node, is in words. A kind of error that is new is [`ParseError::Unknown`] instead.
    Unknown {
        /// What it is the number of.
        what: &'static str,
        /// The number.
        number: u32,
    },
    /// The library returned what `fancy.h` rules out, which the text says. libfancy never does: what is linked is something
    /// else.
    Library(&'static str),
}

impl Error {
    /// The position of the error in the pattern, in bytes, at most one past its end; `None` unless the pattern is invalid.
    ///
    /// ```
    /// # use fancy_syntax::{check, Flags};
    /// assert_eq!(check("é)", Flags::UNICODE).unwrap_err().position(), Some(2));
    /// ```
    pub fn position(&self) -> Option<usize> {
        match self {
            Error::ParseError(position, _) => Some(*position),
            _ => None,
        }
    }

    /// What is wrong with the pattern; `None` unless the pattern is invalid. Its `Display` writes the message.
    ///
    /// ```
    /// # use fancy_syntax::{check, Flags, ParseError};
    /// let error = check("(a", Flags::UNICODE).unwrap_err();
    /// let kind = error.kind().unwrap();
    /// assert_eq!(*kind, ParseError::UnclosedOpenParen);
    /// assert_eq!(kind.to_string(), "Opening parenthesis without closing parenthesis");
    /// ```
    pub fn kind(&self) -> Option<&ParseError> {
        match self {
            Error::ParseError(_, kind) => Some(kind),
            _ => None,
        }
    }

    /// The error that a call returned for a pattern, with the message that it wrote at the start of a buffer.
    #[cold]
    pub(crate) fn of(result: CallResult, pattern: &str, buffer: &[u8]) -> Error {
        match result.status {
            numbers::STATUS_REFUSED if result.position > pattern.len().saturating_add(1) => {
                Error::Library("the position of an error is past the pattern")
            }
            numbers::STATUS_REFUSED => match ParseError::of(result.kind, buffer.get(..result.size)) {
                Ok(kind) => Error::ParseError(result.position, kind),
                Err(error) => error,
            },
            _ => Error::of_status(result.status),
        }
    }

    /// The error for a status that says nothing of the pattern.
    #[cold]
    pub(crate) fn of_status(status: u32) -> Error {
        match status {
            numbers::STATUS_OUT_OF_MEMORY => Error::OutOfMemory,
            _ if status > numbers::LAST_STATUS => Error::unknown("a status", status),
            _ => Error::Library("a status that the call does not have"),
        }
    }

    /// The error for a number that the crate has no name for: one of a newer library, or what `fancy.h` rules out.
    #[cold]
    pub(crate) fn unknown(what: &'static str, number: u32) -> Error {
        if is_newer() {
            Error::Unknown { what, number }
        } else {
            Error::Library("a number that nothing has")
        }
    }
}

impl ParseError {
    /// The part of the message that depends on the pattern, such as `\q` in `Invalid escape: \q`; `None` for the kinds whose
    /// message is always the same. Of a kind that the crate has no name for it is the whole message.
    ///
    /// ```
    /// # use fancy_syntax::{check, Flags};
    /// let error = check(r"a\q", Flags::UNICODE).unwrap_err();
    /// assert_eq!(error.kind().unwrap().text(), Some(r"\q"));
    /// ```
    pub fn text(&self) -> Option<&str> {
        self.carried().map(String::as_str)
    }

    fn of(kind: u32, message: Option<&[u8]>) -> Result<ParseError, Error> {
        let message = message.ok_or(Error::Library("a text that is longer than its buffer"))?;
        let message = std::str::from_utf8(message).map_err(|_| Error::Library("a text that is not UTF-8"))?;
        let mut error = match ParseError::numbered(kind) {
            Some(error) => error,
            None if is_newer() => ParseError::Unknown(kind, String::new()),
            None => return Err(Error::Library("a kind of error without a name")),
        };
        let before = error.words();
        if let Some(text) = error.carried_mut() {
            *text = message
                .strip_prefix(before)
                .ok_or(Error::Library("a message that does not begin as its kind does"))?
                .to_owned();
        }
        Ok(error)
    }
}

impl fmt::Display for ParseError {
    fn fmt(&self, f: &mut fmt::Formatter<'_>) -> fmt::Result {
        f.write_str(self.words())?;
        f.write_str(self.text().unwrap_or_default())
    }
}

impl fmt::Display for Error {
    fn fmt(&self, f: &mut fmt::Formatter<'_>) -> fmt::Result {
        match self {
            Error::ParseError(position, kind) => {
                write!(f, "Parsing error at position {position}: {kind}")
            }
            Error::OutOfMemory => f.write_str("Out of memory"),
            Error::Version { needed: (major, minor), found: (found_major, found_minor, patch) } => write!(
                f,
                "libfancy {found_major}.{found_minor}.{patch} is linked, and version {major}.{minor} or a later {major} is needed"
            ),
            Error::Unknown { what, number } => {
                write!(f, "libfancy is newer than this crate, and returned {what} that it does not know: {number}")
            }
            Error::Library(what) => write!(f, "libfancy returned what its header rules out: {what}"),
        }
    }
}

impl std::error::Error for Error {}

impl std::error::Error for ParseError {}

#[cfg(test)]
mod tests {
    use super::*;
    use crate::ffi;

    #[test]
    fn messages_begin_as_those_of_the_library() {
        let mut buffer = [0; 47];
        for number in 0..100 {
            let size = ffi::error_text(number, &mut buffer).size;
            let kind = ParseError::numbered(number);
            let before = kind.as_ref().map_or("", ParseError::words);
            assert_eq!(before.as_bytes(), &buffer[..size], "{number}");
        }
    }

    #[test]
    fn what_the_crate_never_passes_is_refused_by_the_library() {
        let mut buffer = [0; 64];
        assert_eq!(ffi::message("(", 1 << 31, &mut buffer).status, numbers::STATUS_UNKNOWN_FLAG);
        assert_eq!(ffi::message("a", numbers::FLAG_WITHOUT_SPANS, &mut buffer).status, numbers::STATUS_UNKNOWN_FLAG);
        assert_eq!(ffi::print("a", 32, 256, &mut Vec::new()).status, numbers::STATUS_UNKNOWN_PRECEDENCE);
        for status in [numbers::STATUS_UNKNOWN_FLAG, numbers::STATUS_UNKNOWN_PRECEDENCE] {
            assert_eq!(Error::of_status(status), Error::Library("a status that the call does not have"));
        }
    }

    #[test]
    fn a_kind_without_a_pattern_has_its_words() {
        let kind = ParseError::InvalidEscape(r"\y".to_owned());
        assert_eq!(kind.to_string(), r"Invalid escape: \y");
        let error = Error::ParseError(3, ParseError::InvalidClass);
        assert_eq!(error.to_string(), "Parsing error at position 3: Invalid character class");
    }

    #[test]
    fn the_versions_that_meet_are_named() {
        let error = Error::Version { needed: (1, 4), found: (1, 3, 0) };
        assert_eq!(error.to_string(), "libfancy 1.3.0 is linked, and version 1.4 or a later 1 is needed");
        assert_eq!((error.position(), error.kind()), (None, None));
    }
}
