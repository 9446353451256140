//! What is known of the matches of a pattern and of its nodes.

use crate::call::{grow, ready};
use crate::ffi::{self, NodeFacts as Row, PatternFacts as Whole};
use crate::guess::Guess;
use crate::{error_of, numbers, Error, Flags};

/// What is known of the matches of a node.
#[derive(Debug, Clone, Copy, PartialEq, Eq)]
#[non_exhaustive]
pub struct NodeFacts {
    /// A match has at least so many characters. [`usize::MAX`] stands for more too.
    pub min_length: usize,
    /// A match has at most so many characters; `None` for no limit.
    pub max_length: Option<usize>,
    /// A match has at least so many bytes of UTF-8. [`usize::MAX`] stands for more too.
    pub min_bytes: usize,
    /// A match has at most so many bytes of UTF-8; `None` for no limit.
    pub max_bytes: Option<usize>,
    /// Whether `min_length` is 0. If not, no match is empty.
    pub can_be_empty: bool,
    /// Whether all matches have `min_length` characters.
    pub is_constant_length: bool,
    /// Whether an assertion says that each match starts where the text does.
    pub is_anchored_at_start: bool,
    /// Whether an assertion says that each match ends where the text does.
    pub is_anchored_at_end: bool,
}

/// What is known of the matches of a pattern.
#[derive(Debug, Clone, PartialEq, Eq)]
#[non_exhaustive]
pub struct PatternFacts {
    /// What is known of each node, in the order of [`Tree::walk`](crate::Tree::walk) and [`NodeRef::walk`](crate::NodeRef::walk).
    /// `None`: it is not known what the node matches.
    pub nodes: Vec<Option<NodeFacts>>,
    /// The text that each match begins with; `None` if it is not known.
    pub prefix: Option<String>,
    /// Whether each match is that text, and no more.
    pub is_prefix_whole: bool,
    /// Whether fancy-regex can hand the pattern to an engine that never backtracks: it has no reference, look-around, atomic group or
    /// the like.
    pub is_easy: bool,
}

/// Parses a pattern under flags, and returns what is known of its matches, and of those of each node. Nothing is known of a back
/// reference, a condition, a call, an atomic group, a possessive quantifier, an absent form, a verb, bytes, `\R`, `\K`, `\G` and what
/// contains one of them.
///
/// # Errors
///
/// Those of [`parse`](crate::parse).
///
/// ```
/// use fancy_syntax::{facts, Flags};
/// let found = facts("^ab(c|é*)", Flags::UNICODE)?;
/// let whole = found.nodes[0].unwrap();
/// assert_eq!((whole.min_length, whole.max_length, whole.is_anchored_at_start), (2, None, true));
/// assert_eq!((found.prefix.as_deref(), found.is_prefix_whole, found.is_easy), (Some("ab"), false, true));
/// # Ok::<(), fancy_syntax::Error>(())
/// ```
pub fn facts(pattern: &str, flags: Flags) -> Result<PatternFacts, Error> {
    ready()?;
    let (mut rows, mut prefix, mut whole) = (Vec::new(), Vec::new(), Whole::default());
    grow(&mut rows, Guess::of(pattern).nodes)?;
    grow(&mut prefix, pattern.len())?;
    let mut result = ffi::facts(pattern, flags.bits(), &mut rows, &mut prefix, &mut whole);
    if result.status == numbers::STATUS_BUFFER_TOO_SHORT {
        check_sizes(&whole, pattern.len())?;
        grow(&mut rows, whole.node_count)?;
        grow(&mut prefix, whole.prefix_size)?;
        result = ffi::facts(pattern, flags.bits(), &mut rows, &mut prefix, &mut whole);
    }
    if result.status != numbers::STATUS_OK {
        return Err(error_of(result, pattern, flags));
    }
    let (Some(rows), Some(text)) = (rows.get(..whole.node_count), prefix.get(..whole.prefix_size)) else {
        return Err(Error::Library("more facts than their buffers hold"));
    };
    let text = std::str::from_utf8(text).map_err(|_| Error::Library("a prefix that is not UTF-8"))?;
    Ok(PatternFacts {
        nodes: rows.iter().map(of_row).collect(),
        prefix: (whole.has_prefix != 0).then(|| text.to_owned()),
        is_prefix_whole: whole.is_prefix_whole != 0,
        is_easy: whole.is_easy != 0,
    })
}

/// Checks the sizes, so that those of no pattern are never allocated. A pattern of n bytes has at most 2 n + 1 nodes, each of which
/// adds one character at most to the prefix.
fn check_sizes(whole: &Whole, length: usize) -> Result<(), Error> {
    let nodes = length.saturating_mul(2).saturating_add(1);
    if whole.node_count > nodes || whole.prefix_size > nodes.saturating_mul(4) {
        return Err(Error::Library("facts of more nodes than there are"));
    }
    Ok(())
}

fn of_row(row: &Row) -> Option<NodeFacts> {
    let limit = |most: usize| (most != usize::MAX).then_some(most);
    (row.is_known != 0).then(|| NodeFacts {
        min_length: row.min_length,
        max_length: limit(row.max_length),
        min_bytes: row.min_bytes,
        max_bytes: limit(row.max_bytes),
        can_be_empty: row.can_be_empty != 0,
        is_constant_length: row.is_constant_length != 0,
        is_anchored_at_start: row.is_anchored_at_start != 0,
        is_anchored_at_end: row.is_anchored_at_end != 0,
    })
}
