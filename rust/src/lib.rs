//! Parses patterns in the syntax of [fancy-regex](https://docs.rs/fancy-regex/0.20.0) 0.20.0 into trees, by libfancy, whose
//! functions are proved to meet their contracts. It does not match patterns against text. The page `docs/rust.md` of the
//! repository says how to build and link, what is proved, and what is only tested: this crate.
//!
//! ```
//! use fancy_syntax::{parse, Expr, Flags};
//!
//! let tree = parse(r"(?<year>\d{4})-", Flags::UNICODE)?;
//! assert_eq!(tree.groups.named_groups["year"], [1]);
//! let Expr::Concat(parts) = &tree.expr else { unreachable!() };
//! assert!(matches!(parts[0], Expr::Group(_)));
//!
//! let error = parse("a(", Flags::UNICODE).unwrap_err();
//! assert_eq!(error.to_string(), "Parsing error at position 2: Opening parenthesis without closing parenthesis");
//! # Ok::<(), fancy_syntax::Error>(())
//! ```
//!
//! - [`parse`] returns an owned [`Tree`], with the types and names of fancy-regex: [`Expr`] and what is in it.
//! - [`CompactTree`] is an owned tree in a few allocations, for programs that only look.
//! - [`Rows`] holds a tree as the library writes it, in buffers that later patterns use again. It is read as a
//!   [`CompactTree`] is, by [`NodeRef`] and [`Kind`].
//! - [`check`] says only whether a pattern is valid.
//! - [`trivia()`] returns what no node has: comments, inline flags, the parentheses of flag groups such as `(?:a)`, and what leaves
//!   nothing in the tree.
//! - [`format_pattern`] formats a pattern, and keeps its spelling and its comments.
//! - [`to_pattern`] and [`print()`] write the tree of a pattern as a pattern again; [`Tree::to_pattern`] and [`Expr::print`] do this
//!   for a tree that may have been changed, and [`NodeRef::print`] for a part of one.
//! - [`is_resolved`], [`escape`], [`parse_id`] and [`parse_decimal`] are for engines: whether all references of a pattern refer to
//!   groups, a text as a pattern, and what a template of a replacement begins with.
//! - [`class_ranges`] returns the characters that a class matches; [`Expr::character_ranges`] and [`NodeRef::character_ranges`] do
//!   this for a node.
//! - [`facts()`] returns what is known of a pattern's matches and of those of each node: lengths, anchors, a prefix.
//!
//! Positions and spans are byte offsets. The functions may be called in several threads at once. What the library returns is
//! checked. A library that is too old for the crate is an error ([`Error::Version`]), and so are a number of a newer library that
//! the crate has no name for ([`Error::Unknown`]) and a library that is something else than libfancy ([`Error::Library`]); none is
//! a panic.

#![warn(missing_docs, missing_debug_implementations)]
#![deny(unsafe_code, unsafe_op_in_unsafe_fn)]

mod call;
mod checked;
mod compact;
mod engine;
mod error;
mod expr;
mod facts;
#[allow(unsafe_code)]
#[rustfmt::skip]
mod ffi;
mod flags;
mod format;
mod guess;
mod kinds;
mod node;
mod numbers;
mod owned;
mod part;
mod ranges;
mod rows;
mod structs;
mod tree;
mod trivia;
mod version;
mod written;

pub use compact::CompactTree;
pub use engine::{escape, is_resolved, parse_decimal, parse_id};
pub use error::Error;
pub use expr::{Absent, AstNode, CaptureGroupTarget, Expr, ExprChildrenIter, ExprChildrenIterMut, Walk};
pub use facts::{facts, NodeFacts, PatternFacts};
pub use flags::Flags;
pub use format::{format_pattern, Style};
pub use kinds::{AbsentKind, Assertion, BacktrackingControlVerb, LookAround, ParseError};
pub use node::{CallTarget, Children, Kind, NodeRef};
pub use ranges::class_ranges;
pub use rows::Rows;
pub use tree::{GroupInfo, Span, Tree};
pub use trivia::{trivia, Trivium, TriviumKind};

use call::{Extent, Text};
use ffi::CallResult;
use rows::with_kept;

/// Parses a pattern under flags. [`CompactTree::parse`] is cheaper, for a tree that is not to be changed.
///
/// # Errors
///
/// [`Error::ParseError`] if the pattern is invalid, with the position and the kind of its error, which is its only one;
/// [`Error::OutOfMemory`] if an allocation of the library failed; [`Error::Version`] if the library is too old,
/// [`Error::Unknown`] if it is newer and returned a kind that the crate has no name for, and [`Error::Library`] if it is not
/// libfancy.
///
/// ```
/// use fancy_syntax::{parse, Expr, Flags};
/// let tree = parse("a|b", Flags::UNICODE | Flags::CASEI)?;
/// let Expr::Alt(branches) = tree.expr else { unreachable!() };
/// assert_eq!(branches[0], Expr::Literal { val: "a".to_owned(), casei: true });
/// # Ok::<(), fancy_syntax::Error>(())
/// ```
pub fn parse(pattern: &str, flags: Flags) -> Result<Tree, Error> {
    with_kept(|rows| {
        let expr = rows.parse_expr(pattern, flags.bits())?;
        Ok(Tree { expr, spans: rows.checked_spans(pattern)?, groups: rows.groups() })
    })
}

/// Parses a pattern under flags, without the spans of its nodes: [`Tree::spans`] is empty. It is cheaper than [`parse`].
///
/// # Errors
///
/// Those of [`parse`].
///
/// ```
/// use fancy_syntax::{parse, parse_without_spans, Flags};
/// let tree = parse_without_spans("a|b", Flags::UNICODE)?;
/// assert!(tree.spans.is_empty());
/// assert_eq!(tree.expr, parse("a|b", Flags::UNICODE)?.expr);
/// # Ok::<(), fancy_syntax::Error>(())
/// ```
pub fn parse_without_spans(pattern: &str, flags: Flags) -> Result<Tree, Error> {
    with_kept(|rows| {
        let expr = rows.parse_expr(pattern, flags.bits() | numbers::FLAG_WITHOUT_SPANS)?;
        Ok(Tree { expr, spans: Vec::new(), groups: rows.groups() })
    })
}

/// Checks whether a pattern is valid. It is cheaper than [`parse`], since no tree is returned.
///
/// # Errors
///
/// Those of [`parse`].
///
/// ```
/// use fancy_syntax::{check, Error, Flags, ParseError};
/// assert_eq!(check("[a-z]", Flags::UNICODE), Ok(()));
/// assert_eq!(check("[a-z", Flags::UNICODE), Err(Error::ParseError(4, ParseError::InvalidClass)));
/// ```
pub fn check(pattern: &str, flags: Flags) -> Result<(), Error> {
    call::ready()?;
    // for most messages; a longer one takes one more call
    let mut short = [0; 128];
    let result = ffi::message(pattern, flags.bits(), &mut short);
    match result.status {
        numbers::STATUS_OK => Ok(()),
        numbers::STATUS_BUFFER_TOO_SHORT => Err(error_with_size(pattern, flags, result.size)),
        _ => Err(Error::of(result, pattern, &short)),
    }
}

/// The error of a pattern whose message has this size.
#[cold]
fn error_with_size(pattern: &str, flags: Flags, size: usize) -> Error {
    if size > pattern.len().saturating_add(1024) {
        return Error::Library("a text that is longer than any");
    }
    let mut buffer = Vec::new();
    match call::grow(&mut buffer, size) {
        Ok(()) => Error::of(ffi::message(pattern, flags.bits(), &mut buffer), pattern, &buffer),
        Err(error) => error,
    }
}

/// The error of a pattern for which a call wrote no text.
#[cold]
fn error_of(result: CallResult, pattern: &str, flags: Flags) -> Error {
    match result.status {
        numbers::STATUS_REFUSED => match check(pattern, flags) {
            Err(error) => error,
            Ok(()) => Error::Library("an error that is gone when the pattern is parsed again"),
        },
        _ => Error::of(result, pattern, &[]),
    }
}

/// Writes the tree of a pattern as a pattern again: one that is parsed, under the same flags, as the same tree with the same
/// groups and names. Comments, ignored whitespace, and the choice among several ways to write the same node are lost.
///
/// [`Tree::to_pattern`] and [`Rows::to_pattern`] do this for a tree that is there already. [`format_pattern`] keeps what is lost
/// here.
///
/// # Errors
///
/// Those of [`parse`]. Every valid pattern has a text.
///
/// ```
/// use fancy_syntax::{to_pattern, Flags};
/// assert_eq!(to_pattern("(?x) a {2,2}  # twice", Flags::UNICODE)?, "a{2}");
/// # Ok::<(), fancy_syntax::Error>(())
/// ```
pub fn to_pattern(pattern: &str, flags: Flags) -> Result<String, Error> {
    let write = |buffer: &mut Vec<u8>| ffi::to_pattern(pattern, flags.bits(), buffer);
    match call::written(Extent::of_pattern(pattern), write, numbers::STATUS_OK)? {
        Text::Written(text) => Ok(text),
        Text::Not(result) => Err(error_of(result, pattern, flags)),
    }
}

/// What a printed text has to be, for [`print()`].
#[derive(Debug, Clone, Copy, PartialEq, Eq, PartialOrd, Ord, Hash)]
#[repr(u8)]
pub enum Precedence {
    /// A whole pattern, or the inside of a group.
    Whole = numbers::PRECEDENCE_WHOLE as u8,
    /// A branch of an alternation: an alternation is put into a group.
    Branch = numbers::PRECEDENCE_BRANCH as u8,
    /// A part of a concatenation: a concatenation is put into a group too.
    Piece = numbers::PRECEDENCE_PIECE as u8,
    /// The operand of a quantifier: a repetition is put into a group too.
    Operand = numbers::PRECEDENCE_OPERAND as u8,
}

/// Writes the tree of a pattern in the syntax of the crate `regex`; `None` if it has a node that has no text there: a reference,
/// a look-around, an atomic group, a call and the like. The text is to be parsed with no flag or with [`Flags::UNICODE`] only.
/// It is the text that `to_str` of fancy-regex writes.
///
/// [`Expr::print`] and [`NodeRef::print`] do this for a tree that is there already.
///
/// # Errors
///
/// Those of [`parse`].
///
/// ```
/// use fancy_syntax::{print, Flags, Precedence};
/// assert_eq!(print("(?i)a|b", Flags::UNICODE, Precedence::Whole)?.as_deref(), Some("(?i:a)|(?i:b)"));
/// assert_eq!(print("a|b", Flags::UNICODE, Precedence::Operand)?.as_deref(), Some("(?:a|b)"));
/// assert_eq!(print("(?=a)", Flags::UNICODE, Precedence::Whole)?, None);
/// # Ok::<(), fancy_syntax::Error>(())
/// ```
pub fn print(pattern: &str, flags: Flags, precedence: Precedence) -> Result<Option<String>, Error> {
    let write = |buffer: &mut Vec<u8>| ffi::print(pattern, flags.bits(), precedence as u32, buffer);
    match call::written(Extent::of_pattern(pattern), write, numbers::STATUS_OK)? {
        Text::Written(text) => Ok(Some(text)),
        Text::Not(result) if result.status == numbers::STATUS_NOT_PRINTABLE => Ok(None),
        Text::Not(result) => Err(error_of(result, pattern, flags)),
    }
}

/// The version of libfancy that is linked: major, minor and patch.
///
/// ```
/// assert_eq!(fancy_syntax::library_version().0, 2);
/// ```
pub fn library_version() -> (u32, u32, u32) {
    version::parts(ffi::version())
}
