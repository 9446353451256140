//! What an engine asks besides a tree: whether references are resolved, and what its texts and its templates need.

use crate::call::{self, Extent, Text};
use crate::{error_of, ffi, numbers, Error, Flags};

/// Whether each reference of a pattern refers to a group that the pattern has, or to the whole pattern. It is not so if a back
/// reference, a condition or a call has a number above [`total_groups`](crate::GroupInfo::total_groups), or a call is an
/// [`Expr::AstNode`](crate::Expr::AstNode).
///
/// # Errors
///
/// Those of [`parse`](crate::parse).
///
/// ```
/// use fancy_syntax::{is_resolved, Flags};
/// assert!(is_resolved(r"(a)\1", Flags::UNICODE)?);
/// assert!(!is_resolved(r"(a)\2", Flags::UNICODE)?);
/// assert!(!is_resolved(r"\g<n>", Flags::UNICODE)?);
/// # Ok::<(), fancy_syntax::Error>(())
/// ```
pub fn is_resolved(pattern: &str, flags: Flags) -> Result<bool, Error> {
    call::ready()?;
    let result = ffi::is_resolved(pattern, flags.bits());
    match result.status {
        numbers::STATUS_OK => Ok(true),
        numbers::STATUS_UNRESOLVED => Ok(false),
        _ => Err(error_of(result, pattern, flags)),
    }
}

/// Writes a pattern that matches a text: under the flags, which are those that hold where it is put, it is parsed as an
/// [`Expr::Literal`](crate::Expr::Literal) for each character. What is written for a character is the same whatever stands beside
/// it.
///
/// # Errors
///
/// Those of [`parse`](crate::parse) but [`Error::ParseError`].
///
/// ```
/// use fancy_syntax::{escape, Flags};
/// assert_eq!(escape("1+1\t= 2", Flags::UNICODE)?, r"1\+1\t= 2");
/// assert_eq!(escape("a b", Flags::UNICODE | Flags::IGNORE_SPACE)?, r"a\ b");
/// # Ok::<(), fancy_syntax::Error>(())
/// ```
pub fn escape(text: &str, flags: Flags) -> Result<String, Error> {
    let write = |buffer: &mut Vec<u8>| ffi::escape(text, flags.bits(), buffer);
    match call::written(Extent::of_pattern(text), write, numbers::STATUS_OK)? {
        Text::Written(pattern) => Ok(pattern),
        Text::Not(result) => Err(Error::of_status(result.status)),
    }
}

/// Returns the id that a text begins with, as for a template of a replacement: all letters and numbers, in any script, and `_`
/// at the front. It is empty if the text begins with no id.
///
/// # Errors
///
/// Those of [`escape`].
///
/// ```
/// use fancy_syntax::parse_id;
/// assert_eq!((parse_id("year}-")?, parse_id("{year}")?), ("year", ""));
/// # Ok::<(), fancy_syntax::Error>(())
/// ```
pub fn parse_id(text: &str) -> Result<&str, Error> {
    call::ready()?;
    let result = ffi::parse_id(text);
    match result.status {
        numbers::STATUS_OK => text.get(..result.size).ok_or(Error::Library("an id that is no part of its text")),
        status => Err(Error::of_status(status)),
    }
}

/// Reads the number that a text begins with: all ASCII digits at the front. Returns how many they are, and the number; `None` if
/// there is no digit, or if the number does not fit.
///
/// # Errors
///
/// Those of [`escape`].
///
/// ```
/// use fancy_syntax::parse_decimal;
/// assert_eq!((parse_decimal("12a")?, parse_decimal("a12")?), (Some((2, 12)), None));
/// # Ok::<(), fancy_syntax::Error>(())
/// ```
pub fn parse_decimal(text: &str) -> Result<Option<(usize, usize)>, Error> {
    call::ready()?;
    let mut value = 0;
    let result = ffi::parse_decimal(text, &mut value);
    match result.status {
        numbers::STATUS_OK if result.size > text.len() => Err(Error::Library("a number that is no part of its text")),
        numbers::STATUS_OK => Ok((result.size > 0).then_some((result.size, value))),
        status => Err(Error::of_status(status)),
    }
}
