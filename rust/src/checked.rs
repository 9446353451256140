//! Whether rows are a tree.

use crate::ffi::Node;
use crate::node::{Kind, Texts};
use crate::rows::MAX_LEVELS;
use crate::{numbers, Span};

/// What is wrong with rows, in words.
pub(crate) type Wrong = &'static str;

const NO_TREE: Wrong = "nodes that are no tree";
const NO_TEXT: Wrong = "a node with a text that is not UTF-8";
const NO_SPAN: Wrong = "a span that is no part of the pattern";

/// Checks that rows are a tree, their texts are texts, and their spans are parts of the pattern.
pub(crate) fn check_tree(nodes: &[Node], texts: Texts<'_>, pattern: &str) -> Result<(), Wrong> {
    let checker = Checker { texts, ascii: texts.ascii_size(), pattern: Pattern::of(pattern) };
    checker.count(nodes, 0, MAX_LEVELS).map(drop)
}

/// A pattern, in which each byte is a character if it is ASCII.
#[derive(Clone, Copy)]
struct Pattern<'a> {
    text: &'a str,
    is_ascii: bool,
}

impl Pattern<'_> {
    fn of(text: &str) -> Pattern<'_> {
        Pattern { text, is_ascii: text.is_ascii() }
    }

    /// Whether the span of a row is a part of it.
    #[inline(always)]
    fn has(self, row: &Node) -> bool {
        let &Node { start, stop, .. } = row;
        let are_boundaries = || self.text.is_char_boundary(start) && self.text.is_char_boundary(stop);
        start <= stop && stop <= self.text.len() && (self.is_ascii || are_boundaries())
    }
}

/// Checks rows.
struct Checker<'a> {
    texts: Texts<'a>,
    /// The bytes of the texts if all are ASCII, so that each part is a text; else 0.
    ascii: usize,
    pattern: Pattern<'a>,
}

impl Checker<'_> {
    /// Checks that rows, of which the first has this index, are trees with at most so many levels. Returns how many trees there are.
    fn count(&self, mut rows: &[Node], mut index: usize, levels: usize) -> Result<usize, Wrong> {
        let below = levels.checked_sub(1).ok_or(NO_TREE)?;
        let mut trees = 0;
        while let [row, rest @ ..] = rows {
            if !self.pattern.has(row) {
                return Err(NO_SPAN);
            }
            trees += 1;
            index += 1;
            // as most rows are
            if row.end == index && self.is_text(row) {
                rows = rest;
                continue;
            }
            let inside = row.end.checked_sub(index).ok_or(NO_TREE)?;
            let (inside, after) = rest.split_at_checked(inside).ok_or(NO_TREE)?;
            let children = if inside.is_empty() { 0 } else { self.count(inside, index, below)? };
            if !self.takes(row, children)? {
                return Err(NO_TREE);
            }
            (rows, index) = (after, row.end);
        }
        Ok(trees)
    }

    /// Whether a row is that of a node with a text, all of which is ASCII with the other texts.
    #[inline(always)]
    fn is_text(&self, row: &Node) -> bool {
        matches!(row.kind, numbers::NODE_LITERAL | numbers::NODE_DELEGATE)
            && row.text <= self.ascii
            && row.text_size <= self.ascii - row.text
    }

    /// Whether the node of a row may have so many children.
    #[inline(always)]
    fn takes(&self, row: &Node, children: usize) -> Result<bool, Wrong> {
        Ok(match row.kind {
            numbers::NODE_CONCAT | numbers::NODE_ALT => true,
            numbers::NODE_GROUP | numbers::NODE_REPEAT => children == 1,
            _ => Kind::read(row, self.texts).ok_or(NO_TEXT)?.takes(children),
        })
    }
}

/// The span of each row, if all are parts of the pattern.
pub(crate) fn spans(rows: &[Node], pattern: &str) -> Result<Vec<Span>, Wrong> {
    let pattern = Pattern::of(pattern);
    let are_parts = rows.iter().all(|row| pattern.has(row));
    are_parts.then(|| rows.iter().map(|row| row.start..row.stop).collect()).ok_or(NO_SPAN)
}
