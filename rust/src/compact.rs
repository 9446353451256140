//! Owned trees in a few allocations.

use crate::call::RowsIn;
use crate::checked::{self, Wrong};
use crate::ffi::Node;
use crate::node::{NodeRef, Texts};
use crate::rows::with_kept;
use crate::written::Written;
use crate::{numbers, Error, Flags, GroupInfo, Span, Tree};
use std::fmt;

/// An owned tree in a few allocations: its nodes are in one list, in preorder and of 16 bytes each, their texts in one string, and
/// their spans in a list.
///
/// It is for programs that keep trees and only look at them, as at those in [`Rows`](crate::Rows): [`NodeRef::kind`] says what a
/// node is. [`to_tree`](CompactTree::to_tree) makes a [`Tree`] of it, which can be changed.
///
/// Two are equal if their nodes, their spans and their group information are.
///
/// ```
/// use fancy_syntax::{CompactTree, Flags, Kind};
/// let pattern = r"(?<year>\d{4})-";
/// let tree = CompactTree::parse(pattern, Flags::UNICODE)?;
/// assert_eq!(tree.groups().group_name(1), Some("year"));
/// let repeat = tree.root().walk().find(|node| matches!(node.kind(), Kind::Repeat { lo: 4, .. }));
/// assert_eq!(repeat.and_then(|node| node.text(pattern)), Some(r"\d{4}"));
/// # Ok::<(), fancy_syntax::Error>(())
/// ```
#[derive(Clone, PartialEq, Eq)]
pub struct CompactTree {
    nodes: Vec<Packed>,
    /// The texts of the nodes, with a space for each byte of a [`Kind::LiteralBytes`](crate::Kind::LiteralBytes) unless all of
    /// it is UTF-8 with these.
    texts: String,
    /// The same with these bytes; empty if it is the same.
    bytes: Vec<u8>,
    /// Empty if the tree was parsed without spans.
    spans: Vec<[u32; 2]>,
    /// What is in a node whose numbers are too large.
    wide: Vec<Content>,
    groups: GroupInfo,
}

/// A node.
#[derive(Clone, Copy, PartialEq, Eq)]
struct Packed {
    kind: u8,
    which: u8,
    /// The bools that a node of its kind has, in the order of a row.
    bools: u8,
    /// Whether `first` is the index of its content in `wide`.
    is_wide: bool,
    /// One past the index of its last descendant.
    end: u32,
    first: u32,
    second: i32,
}

/// What is in a node besides its bools.
#[derive(Clone, Copy, PartialEq, Eq, Default)]
struct Content {
    first: usize,
    second: isize,
    /// That of a call that cannot be resolved.
    position: usize,
}

/// What the two numbers of a node are.
#[derive(Clone, Copy)]
enum Numbers {
    /// Where its text begins, and how long it is.
    Text,
    /// The bounds of a repetition. Without an upper one the second is -1, which is `usize::MAX`.
    Bounds,
    /// The number of a group and a level.
    Group,
    None,
}

impl Numbers {
    #[inline(always)]
    fn of(kind: u32, which: u32) -> Numbers {
        // as most nodes are
        if kind == numbers::NODE_LITERAL || kind == numbers::NODE_DELEGATE {
            return Numbers::Text;
        }
        match kind {
            numbers::NODE_LITERAL_BYTES => Numbers::Text,
            numbers::NODE_REPEAT => Numbers::Bounds,
            numbers::NODE_GROUP
            | numbers::NODE_BACKREF
            | numbers::NODE_BACKREF_AT_LEVEL
            | numbers::NODE_BACKREF_EXISTS_CONDITION
            | numbers::NODE_SUBROUTINE_CALL => Numbers::Group,
            numbers::NODE_AST_NODE if which == numbers::TARGET_BY_NAME => Numbers::Text,
            numbers::NODE_AST_NODE => Numbers::Group,
            _ => Numbers::None,
        }
    }
}

impl Content {
    /// What is in a row, and the bools that a node with such numbers has, each a bit.
    #[inline(always)]
    fn of(row: &Node) -> (Content, u8) {
        let bit = |value: u8, bit: u8| u8::from(value != 0) << bit;
        let (first, second, bools) = match Numbers::of(row.kind, row.which) {
            Numbers::Text => (row.text, row.text_size as isize, bit(row.casei, 3)),
            Numbers::Bounds => (row.lo, row.hi as isize, bit(row.greedy, 4)),
            Numbers::Group => (row.group, row.level, bit(row.casei, 3) | bit(row.has_level, 5)),
            Numbers::None => (0, 0, bit(row.newline, 0) | bit(row.crlf, 1) | bit(row.unicode, 2)),
        };
        (Content { first, second, position: row.position }, bools)
    }
}

impl Packed {
    /// The node of a row that was checked.
    #[inline(always)]
    fn of(row: &Node, wide: &mut Vec<Content>) -> Packed {
        let (content, bools) = Content::of(row);
        let (first, second, is_wide) = match (u32::try_from(content.first), i32::try_from(content.second)) {
            (Ok(first), Ok(second)) if content.position == 0 => (first, second, false),
            _ => (keep(row, wide), 0, true),
        };
        Packed { kind: row.kind as u8, which: row.which as u8, bools, is_wide, end: row.end as u32, first, second }
    }

    #[inline(always)]
    fn content(self, wide: &[Content]) -> Content {
        if self.is_wide {
            return wide[self.first as usize];
        }
        Content { first: self.first as usize, second: self.second as isize, position: 0 }
    }
}

impl CompactTree {
    /// Parses a pattern under flags.
    ///
    /// # Errors
    ///
    /// Those of [`parse`](crate::parse); [`Error::OutOfMemory`] also if the pattern has 4 GiB or more.
    ///
    /// ```
    /// use fancy_syntax::{parse, CompactTree, Flags};
    /// let tree = CompactTree::parse("(a|b)c*", Flags::UNICODE)?;
    /// assert_eq!(tree.root().span(), 0..7);
    /// assert_eq!(tree.to_tree(), parse("(a|b)c*", Flags::UNICODE)?);
    /// # Ok::<(), fancy_syntax::Error>(())
    /// ```
    pub fn parse(pattern: &str, flags: Flags) -> Result<CompactTree, Error> {
        with_kept(|rows| rows.parse_compact(pattern, flags.bits()))
    }

    /// Parses a pattern under flags, without the spans of its nodes: each is `0..0`. It is cheaper than
    /// [`parse`](CompactTree::parse).
    ///
    /// # Errors
    ///
    /// Those of [`parse`](CompactTree::parse).
    ///
    /// ```
    /// use fancy_syntax::{CompactTree, Flags};
    /// let tree = CompactTree::parse_without_spans("ab", Flags::UNICODE)?;
    /// assert_eq!((tree.root().children().count(), tree.root().span()), (2, 0..0));
    /// # Ok::<(), fancy_syntax::Error>(())
    /// ```
    pub fn parse_without_spans(pattern: &str, flags: Flags) -> Result<CompactTree, Error> {
        with_kept(|rows| rows.parse_compact(pattern, flags.bits() | numbers::FLAG_WITHOUT_SPANS))
    }

    /// The root of the tree.
    ///
    /// ```
    /// use fancy_syntax::{CompactTree, Flags, Kind};
    /// let tree = CompactTree::parse("(?:a|b)", Flags::UNICODE)?;
    /// assert_eq!(tree.root().kind(), Kind::Alt);
    /// # Ok::<(), fancy_syntax::Error>(())
    /// ```
    pub fn root(&self) -> NodeRef<'_> {
        NodeRef::of_compact(self, 0)
    }

    /// What is known of the groups and references of the pattern.
    ///
    /// ```
    /// use fancy_syntax::{CompactTree, Flags};
    /// let tree = CompactTree::parse(r"(?<n>a)\k<n>", Flags::UNICODE)?;
    /// assert_eq!(tree.groups().named_groups["n"], [1]);
    /// # Ok::<(), fancy_syntax::Error>(())
    /// ```
    pub fn groups(&self) -> &GroupInfo {
        &self.groups
    }

    /// Writes a pattern that is parsed, under these flags, as this tree with its names; `None` if what is written is not, which
    /// can happen under other flags than those of the parse. [`NodeRef::to_pattern`] does this for a part of the tree.
    ///
    /// # Errors
    ///
    /// Those of [`parse`](crate::parse) but [`Error::ParseError`].
    ///
    /// ```
    /// use fancy_syntax::{CompactTree, Flags};
    /// let tree = CompactTree::parse("(?x) (?<n> a {2,2} )", Flags::UNICODE)?;
    /// assert_eq!(tree.to_pattern(Flags::UNICODE)?.as_deref(), Some("(?<n>a{2})"));
    /// # Ok::<(), fancy_syntax::Error>(())
    /// ```
    pub fn to_pattern(&self, flags: Flags) -> Result<Option<String>, Error> {
        self.root().to_pattern(flags)
    }

    /// A tree of the same nodes, with the same spans and group information, which can be changed.
    ///
    /// ```
    /// use fancy_syntax::{CompactTree, Expr, Flags};
    /// let mut tree = CompactTree::parse("a|b", Flags::UNICODE)?.to_tree();
    /// assert_eq!(tree.spans, [0..3, 0..1, 2..3]);
    /// tree.expr = Expr::Group(Box::new(tree.expr));
    /// assert_eq!(tree.to_pattern(Flags::UNICODE)?.as_deref(), Some("(a|b)"));
    /// # Ok::<(), fancy_syntax::Error>(())
    /// ```
    pub fn to_tree(&self) -> Tree {
        let spans = (0..self.spans.len()).map(|index| self.span(index)).collect();
        Tree { expr: self.root().to_expr(), spans, groups: self.groups.clone() }
    }

    /// Packs the rows of a tree, which are checked, and their spans if it has some.
    pub(crate) fn of(
        rows: RowsIn<'_>,
        pattern: &str,
        has_spans: bool,
        groups: GroupInfo,
    ) -> Result<CompactTree, Wrong> {
        let (texts, bytes) = apart(rows).ok_or("a text that is not UTF-8")?;
        let mut tree = CompactTree { nodes: Vec::new(), texts, bytes, spans: Vec::new(), wide: Vec::new(), groups };
        checked::check_tree(rows.nodes, tree.texts(), pattern)?;
        if has_spans {
            tree.spans = rows.nodes.iter().map(|row| [row.start as u32, row.stop as u32]).collect();
        }
        tree.nodes = rows.nodes.iter().map(|row| Packed::of(row, &mut tree.wide)).collect();
        Ok(tree)
    }

    pub(crate) fn texts(&self) -> Texts<'_> {
        Texts::known(self.bytes(), &self.texts)
    }

    /// The texts, as the library takes them.
    pub(crate) fn bytes(&self) -> &[u8] {
        match &self.bytes[..] {
            [] => self.texts.as_bytes(),
            bytes => bytes,
        }
    }

    pub(crate) fn end(&self, index: usize) -> usize {
        self.nodes[index].end as usize
    }

    pub(crate) fn span(&self, index: usize) -> Span {
        self.spans.get(index).map_or(0..0, |[start, end]| *start as usize..*end as usize)
    }

    /// A part of the texts.
    pub(crate) fn string(&self, part: Span) -> Option<&str> {
        self.texts.get(part)
    }

    /// The row of a node, without its span.
    #[inline(always)]
    pub(crate) fn row(&self, index: usize) -> Node {
        let node = self.nodes[index];
        let Content { first, second, position } = node.content(&self.wide);
        let bool_at = |bit: u8| node.bools >> bit & 1;
        let mut row = Node {
            kind: node.kind.into(),
            which: node.which.into(),
            end: node.end as usize,
            position,
            newline: bool_at(0),
            crlf: bool_at(1),
            unicode: bool_at(2),
            casei: bool_at(3),
            greedy: bool_at(4),
            has_level: bool_at(5),
            ..Node::default()
        };
        match Numbers::of(row.kind, row.which) {
            Numbers::Text => (row.text, row.text_size) = (first, second as usize),
            Numbers::Bounds => (row.lo, row.hi) = (first, second as usize),
            Numbers::Group => (row.group, row.level) = (first, second),
            Numbers::None => {}
        }
        row
    }

    /// The rows of a node and its descendants.
    pub(crate) fn rows_of(&self, index: usize) -> Vec<Node> {
        let mut rows: Vec<Node> = (index..self.end(index)).map(|it| self.row(it)).collect();
        rows.iter_mut().for_each(|row| row.end -= index);
        rows
    }

    /// The rows of the whole tree, with its names.
    pub(crate) fn written(&self) -> Written {
        let mut written = Written::of_rows(self.rows_of(0), self.bytes().to_vec());
        written.add_names(&self.groups);
        written
    }
}

/// The index at which the content of a row is kept.
#[cold]
fn keep(row: &Node, wide: &mut Vec<Content>) -> u32 {
    wide.push(Content::of(row).0);
    wide.len() as u32 - 1
}

/// The texts of rows as a string, and as bytes if these have others; `None` if a text is not UTF-8. What the rows say of their
/// texts is checked later.
fn apart(rows: RowsIn<'_>) -> Option<(String, Vec<u8>)> {
    match std::str::from_utf8(rows.texts) {
        Ok(texts) => Some((texts.to_owned(), Vec::new())),
        Err(_) => without_literal_bytes(rows).map(|texts| (texts, rows.texts.to_vec())),
    }
}

/// The texts with spaces for those of literal bytes.
#[cold]
fn without_literal_bytes(rows: RowsIn<'_>) -> Option<String> {
    let mut texts = rows.texts.to_vec();
    for row in rows.nodes.iter().filter(|row| row.kind == numbers::NODE_LITERAL_BYTES) {
        texts.get_mut(row.text..row.text.checked_add(row.text_size)?)?.fill(b' ');
    }
    String::from_utf8(texts).ok()
}

impl fmt::Debug for CompactTree {
    fn fmt(&self, f: &mut fmt::Formatter<'_>) -> fmt::Result {
        f.debug_list().entries(self.root().walk()).finish()
    }
}

#[cfg(test)]
mod tests {
    use super::*;
    use crate::{parse, Kind};

    /// The compact tree of a pattern that is valid, compared with its owned tree.
    fn compared(pattern: &str, flags: Flags) -> Option<CompactTree> {
        let tree = parse(pattern, flags).ok()?;
        let compact = CompactTree::parse(pattern, flags).unwrap();
        assert_eq!(compact.to_tree(), tree, "{pattern}");
        Some(compact)
    }

    #[test]
    fn a_node_has_16_bytes() {
        fn is_shared<T: Send + Sync>() {}
        is_shared::<CompactTree>();
        assert_eq!(size_of::<Packed>(), 16);
        let tree = CompactTree::parse("(a|b)c*", Flags::UNICODE).unwrap();
        assert_eq!((tree.nodes.capacity(), tree.spans.capacity(), tree.texts.capacity()), (7, 7, 3));
        assert_eq!((tree.bytes.capacity(), tree.wide.capacity()), (0, 0));
    }

    #[test]
    fn numbers_of_all_sizes() {
        let powers = (0..63).map(|bit| 1_u64 << bit);
        for number in powers.flat_map(|power| [power - 1, power, power + 1]) {
            let text = number.to_string();
            let patterns = [
                "a{N}",
                "a{N,}",
                "a{0,N}",
                "a{,N}?",
                r"()\N",
                r"()\k<N>",
                r"()\k<1+N>",
                r"()\k<1-N>",
                r"\g<N>",
                r"a\g<-N>",
                "()(?(N)a)",
                "()(?(<1+N>)a)",
            ];
            for pattern in patterns {
                compared(&pattern.replace('N', &text), Flags::UNICODE);
            }
        }
        let wide = |pattern| compared(pattern, Flags::UNICODE).unwrap().wide.len();
        assert_eq!((wide("a{2147483647}"), wide("a{7,}"), wide("a{2147483648}"), wide("a{4294967296,}")), (0, 0, 1, 1));
        assert_eq!((wide("(a)"), wide(r"a\g<n>\g<m>")), (0, 2));
    }

    #[test]
    fn bytes_beside_texts() {
        // the third and the fifth are UTF-8 as a whole
        for pattern in [r"\xFF", r"é\xFF[€]", r"\xC3\xA9", r"a\xC3é\xA9b", r"\xC3\xA9é", r"(?<é>\xE9)\g<ä>"] {
            let compact = compared(pattern, Flags::empty()).unwrap();
            let literal = |node: NodeRef<'_>| matches!(node.kind(), Kind::LiteralBytes { bytes: [0x80..=0xFF] });
            assert!(compact.root().walk().any(literal), "{pattern}");
            assert_eq!(compact.to_pattern(Flags::empty()), compact.to_tree().to_pattern(Flags::empty()), "{pattern}");
        }
    }
}
