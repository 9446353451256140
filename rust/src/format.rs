//! Patterns formatted.

use crate::call::{self, Extent, Text};
use crate::{error_of, ffi, numbers, Error, Flags};

/// How [`format_pattern`] lays out a pattern.
#[derive(Debug, Clone, Copy, PartialEq, Eq, Hash)]
#[non_exhaustive]
pub enum Style {
    /// As it is: its lines stay, with their indentation.
    Kept,
    /// Over several lines, unless it is one that fits. The pattern then begins with `(?x)`, unless it is parsed under
    /// [`Flags::IGNORE_SPACE`] or sets this flag first.
    Verbose {
        /// How many characters a line may have.
        width: usize,
    },
    /// In one line: ignored whitespace goes, `(?x)` at the beginning goes, and a comment `# one` becomes `(?# one)`.
    Compact,
}

impl Style {
    /// Its number for the library, and the width.
    fn numbers(self) -> (u32, usize) {
        match self {
            Style::Kept => (numbers::STYLE_KEPT, 0),
            Style::Verbose { width } => (numbers::STYLE_VERBOSE, width),
            Style::Compact => (numbers::STYLE_COMPACT, 0),
        }
    }
}

/// Formats a pattern, and keeps how it is written: escapes, classes, names, comments, and the flags that it sets. Simpler forms
/// of quantifiers are used, and groups, flags and ignored whitespace that are not needed go. The text is parsed, under the same
/// flags, as the same tree with the same groups and names, and has the same comments except `(?#)`. A pattern that cannot be
/// formatted so is returned as it is.
///
/// # Errors
///
/// Those of [`parse`](crate::parse).
///
/// ```
/// use fancy_syntax::{format_pattern, Flags, Style};
/// let pattern = r"(?:\x41){1,}(?# one)|b|c";
/// assert_eq!(format_pattern(pattern, Flags::UNICODE, Style::Kept)?, r"\x41+(?# one)|b|c");
/// let lines = format_pattern(pattern, Flags::UNICODE, Style::Verbose { width: 16 })?;
/// assert_eq!(lines, "(?x)\n  \\x41+(?# one)\n| b\n| c");
/// assert_eq!(format_pattern(&lines, Flags::UNICODE, Style::Compact)?, r"\x41+(?# one)|b|c");
/// # Ok::<(), fancy_syntax::Error>(())
/// ```
pub fn format_pattern(pattern: &str, flags: Flags, style: Style) -> Result<String, Error> {
    let (style, width) = style.numbers();
    let write = |buffer: &mut Vec<u8>| ffi::format(pattern, flags.bits(), style, width, buffer);
    match call::written(Extent::of_pattern(pattern), write, numbers::STATUS_OK)? {
        Text::Written(text) => Ok(text),
        Text::Not(result) => Err(error_of(result, pattern, flags)),
    }
}
