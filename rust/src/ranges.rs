//! The characters of a class, or of another node that matches one character.

use crate::call::{grow, ready};
use crate::ffi::{self, CallResult, Node, Range as Row};
use crate::{numbers, Error, Flags};
use std::ops::RangeInclusive;

/// There are no more ranges, since there is a gap between any two.
const MOST: usize = (char::MAX as usize + 2) / 2;

/// Returns the characters that a class matches: ranges in ascending order, with a gap between any two. The text is that of an
/// [`Expr::Delegate`](crate::Expr::Delegate), and read as fancy-regex reads it: under [`Flags::CASEI`], for a node with `casei`,
/// and under [`Flags::UNICODE`]; other flags change nothing. `None` if it is read as something else than a class or a character.
///
/// [`Expr::character_ranges`](crate::Expr::character_ranges) and
/// [`NodeRef::character_ranges`](crate::NodeRef::character_ranges) do this for a node.
///
/// # Errors
///
/// [`Error::ParseError`] with [`ParseError::InvalidClass`](crate::ParseError::InvalidClass) and a position in the text, if
/// fancy-regex refuses the class; else those of [`escape`](crate::escape).
///
/// ```
/// use fancy_syntax::{class_ranges, Error, Flags, ParseError};
/// assert_eq!(class_ranges("[a-cx]", Flags::UNICODE)?, Some(vec!['a'..='c', 'x'..='x']));
/// let flags = Flags::UNICODE | Flags::CASEI;
/// assert_eq!(class_ranges("[k]", flags)?, Some(vec!['K'..='K', 'k'..='k', '\u{212A}'..='\u{212A}']));
/// assert_eq!(class_ranges("[0-[a]b]", Flags::UNICODE)?, None);
/// assert_eq!(class_ranges("[z-a]", Flags::UNICODE), Err(Error::ParseError(1, ParseError::InvalidClass)));
/// # Ok::<(), fancy_syntax::Error>(())
/// ```
pub fn class_ranges(text: &str, flags: Flags) -> Result<Option<Vec<RangeInclusive<char>>>, Error> {
    read(text, |rows, count| ffi::class_ranges(text, flags.bits(), rows, count))
}

/// The same for a node, by its row.
pub(crate) fn ranges_of_row(
    row: &Node,
    texts: &[u8],
    flags: Flags,
) -> Result<Option<Vec<RangeInclusive<char>>>, Error> {
    read("", |rows, count| ffi::node_ranges(row, texts, flags.bits(), rows, count))
}

/// Makes a call with a buffer for ranges, and once more with a longer one if the first is too short. An error has a position in
/// the text.
fn read(
    text: &str,
    mut call: impl FnMut(&mut [Row], &mut usize) -> CallResult,
) -> Result<Option<Vec<RangeInclusive<char>>>, Error> {
    ready()?;
    let (mut rows, mut count) = (Vec::new(), 0);
    grow(&mut rows, 64)?;
    let mut result = call(&mut rows, &mut count);
    if result.status == numbers::STATUS_BUFFER_TOO_SHORT {
        if count > MOST {
            return Err(Error::Library("more ranges than there are"));
        }
        grow(&mut rows, count)?;
        result = call(&mut rows, &mut count);
    }
    match result.status {
        numbers::STATUS_OK => {
            let rows = rows.get(..count).ok_or(Error::Library("more ranges than their buffer holds"))?;
            checked(rows).map(Some)
        }
        numbers::STATUS_NOT_ONE_CHARACTER => Ok(None),
        _ => Err(Error::of(result, text, &[])),
    }
}

/// The ranges of rows, if they are of characters, in ascending order and with a gap between any two.
fn checked(rows: &[Row]) -> Result<Vec<RangeInclusive<char>>, Error> {
    let mut least = 0;
    let range = |row: &Row| {
        let (first, last) = (char::from_u32(row.first)?, char::from_u32(row.last)?);
        let rises = least <= row.first && first <= last;
        least = row.last + 2;
        rises.then_some(first..=last)
    };
    let ranges: Option<Vec<_>> = rows.iter().map(range).collect();
    ranges.ok_or(Error::Library("ranges that are not of characters, or not in order"))
}
