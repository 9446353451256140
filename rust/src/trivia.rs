//! What no node of a tree has.

use crate::call::{guessed, ready, reserve};
use crate::ffi::{self, Trivium as Row};
use crate::{error_of, numbers, Error, Flags, Span};

/// A part of a pattern that no node of its tree has.
#[derive(Debug, Clone, PartialEq, Eq)]
pub struct Trivium {
    /// Where it is in the pattern.
    pub span: Span,
    /// What it is.
    pub kind: TriviumKind,
}

/// What a [`Trivium`] is.
#[derive(Debug, Clone, Copy, PartialEq, Eq, Hash)]
#[non_exhaustive]
pub enum TriviumKind {
    /// A comment: `(?#..)`.
    Comment,
    /// A comment from `#` through the end of its line.
    LineComment,
    /// Inline flags: `(?i)`.
    InlineFlags {
        /// The flags that hold before them.
        before: Flags,
        /// The flags that hold after them.
        after: Flags,
    },
    /// The opening of a flag group: `(?:` or `(?i:`.
    Opening {
        /// The flags that hold around the group.
        around: Flags,
        /// The flags that hold in the group.
        inside: Flags,
    },
    /// The closing parenthesis of such a group.
    Closing,
    /// A part that leaves nothing in the tree: the counts or the operators of a quantifier that has no effect in Oniguruma
    /// mode, or a part of a conditional without branches, such as `(?(` and `)|)` in `(?(1)|)`, where only the condition is
    /// left.
    Dropped,
    /// A comment inside a token: `(?#..)` after the parenthesis of a group, between the letters of flags, in the braces of a
    /// quantifier, in a hex code or in a word boundary. If the token is a `Trivium`, this comes after that one, and its span lies in
    /// that one's.
    InnerComment,
    /// The same, from `#` through the end of its line.
    InnerLineComment,
}

/// Parses a pattern under flags, and returns what no node of its tree has, in the order of the pattern: comments, inline
/// flags, the parentheses of flag groups such as `(?:a)` and `(?i:a)`, and what leaves nothing in the tree. A comment inside a
/// token, such as one in the braces of a quantifier, is of a kind of its own, and ignored whitespace is left out.
///
/// # Errors
///
/// Those of [`parse`](crate::parse).
///
/// ```
/// use fancy_syntax::{trivia, Flags, TriviumKind};
/// let found = trivia("a(?# b)(?i)c", Flags::UNICODE)?;
/// assert_eq!((found[0].span.clone(), found[0].kind), (1..7, TriviumKind::Comment));
/// let after = Flags::UNICODE | Flags::CASEI;
/// assert_eq!((found[1].span.clone(), found[1].kind), (7..11, TriviumKind::InlineFlags { before: Flags::UNICODE, after }));
/// # Ok::<(), fancy_syntax::Error>(())
/// ```
pub fn trivia(pattern: &str, flags: Flags) -> Result<Vec<Trivium>, Error> {
    ready()?;
    let (mut rows, mut count) = (Vec::new(), 0);
    guessed(&mut rows, most_usual(pattern));
    let mut result = ffi::trivia(pattern, flags.bits(), &mut rows, &mut count);
    if result.status == numbers::STATUS_BUFFER_TOO_SHORT {
        // each trivium begins at a byte of its own
        if count > pattern.len() {
            return Err(Error::Library("more trivia than bytes"));
        }
        reserve(&mut rows, count)?;
        result = ffi::trivia(pattern, flags.bits(), &mut rows, &mut count);
    }
    if result.status != numbers::STATUS_OK {
        return Err(error_of(result, pattern, flags));
    }
    if rows.len() != count {
        return Err(Error::Library("more trivia than their buffer holds"));
    }
    rows.iter().map(|row| checked_trivium(row, pattern)).collect()
}

/// How many trivia a pattern has at most, but for what leaves nothing in the tree: each of the others begins with another one of
/// these characters.
fn most_usual(pattern: &str) -> usize {
    pattern.bytes().filter(|byte| matches!(byte, b'(' | b')' | b'#')).count() + 1
}

/// The trivium of a row, if it is a part of the pattern, of some kind.
fn checked_trivium(row: &Row, pattern: &str) -> Result<Trivium, Error> {
    let span = row.start..row.stop;
    if pattern.get(span.clone()).is_none() {
        return Err(Error::Library("a trivium that is no part of the pattern"));
    }
    let (Some(before), Some(after)) = (Flags::from_bits(row.flags_before), Flags::from_bits(row.flags_after)) else {
        return Err(Error::unknown("flags", row.flags_before | row.flags_after));
    };
    let kind = match row.kind {
        numbers::TRIVIUM_COMMENT => TriviumKind::Comment,
        numbers::TRIVIUM_LINE_COMMENT => TriviumKind::LineComment,
        numbers::TRIVIUM_INLINE_FLAGS => TriviumKind::InlineFlags { before, after },
        numbers::TRIVIUM_OPENING => TriviumKind::Opening { around: before, inside: after },
        numbers::TRIVIUM_CLOSING => TriviumKind::Closing,
        numbers::TRIVIUM_DROPPED => TriviumKind::Dropped,
        numbers::TRIVIUM_INNER_COMMENT => TriviumKind::InnerComment,
        numbers::TRIVIUM_INNER_LINE_COMMENT => TriviumKind::InnerLineComment,
        kind => return Err(Error::unknown("a kind of trivium", kind)),
    };
    Ok(Trivium { span, kind })
}
