//! The nodes of a tree, seen in the rows that the library wrote, or in a compact tree.

use crate::call::RowsIn;
use crate::ffi::Node;
use crate::owned::Builder;
use crate::ranges::ranges_of_row;
use crate::rows::MAX_LEVELS;
use crate::written::print_rows;
use crate::{numbers, Absent, AbsentKind, Assertion, AstNode, BacktrackingControlVerb, CaptureGroupTarget};
use crate::{CompactTree, Error, Expr, Flags, LookAround, Precedence, Rows, Span};
use std::fmt;
use std::ops::RangeInclusive;

/// A node of a tree that is in [`Rows`] or is a [`CompactTree`]. It is as small as three words, and only what returns a tree, a
/// text or ranges allocates.
#[derive(Clone, Copy)]
pub struct NodeRef<'a> {
    tree: Source<'a>,
    index: usize,
}

/// What a node is in.
#[derive(Clone, Copy)]
enum Source<'a> {
    Rows(&'a Rows),
    Compact(&'a CompactTree),
}

/// What a node is, with its fields and without its children. The variants have the names of those of [`Expr`].
#[derive(Debug, Clone, Copy, PartialEq, Eq)]
#[non_exhaustive]
#[allow(missing_docs)] // the fields are those of `Expr`
pub enum Kind<'a> {
    /// As [`Expr::Empty`].
    Empty,
    /// As [`Expr::Any`].
    Any { newline: bool, crlf: bool },
    /// As [`Expr::Assertion`].
    Assertion(Assertion),
    /// As [`Expr::GeneralNewline`].
    GeneralNewline { unicode: bool },
    /// As [`Expr::Literal`].
    Literal { val: &'a str, casei: bool },
    /// As [`Expr::LiteralBytes`].
    LiteralBytes { bytes: &'a [u8] },
    /// As [`Expr::Concat`].
    Concat,
    /// As [`Expr::Alt`].
    Alt,
    /// As [`Expr::Group`]. [`NodeRef::group`] is its number.
    Group,
    /// As [`Expr::LookAround`].
    LookAround(LookAround),
    /// As [`Expr::Repeat`].
    Repeat { lo: usize, hi: usize, greedy: bool },
    /// As [`Expr::Delegate`].
    Delegate { inner: &'a str, casei: bool },
    /// As [`Expr::Backref`].
    Backref { group: usize, casei: bool },
    /// As [`Expr::BackrefWithRelativeRecursionLevel`].
    BackrefWithRelativeRecursionLevel { group: usize, relative_level: isize, casei: bool },
    /// As [`Expr::AtomicGroup`].
    AtomicGroup,
    /// As [`Expr::KeepOut`].
    KeepOut,
    /// As [`Expr::ContinueFromPreviousMatchEnd`].
    ContinueFromPreviousMatchEnd,
    /// As [`Expr::BackrefExistsCondition`].
    BackrefExistsCondition { group: usize, relative_recursion_level: Option<isize> },
    /// As [`Expr::Conditional`]. Its three children are the condition, the branch taken if it holds, and the other one.
    Conditional,
    /// As [`Expr::SubroutineCall`].
    SubroutineCall(usize),
    /// As [`Expr::BacktrackingControlVerb`].
    BacktrackingControlVerb(BacktrackingControlVerb),
    /// As [`Expr::Absent`].
    Absent(AbsentKind),
    /// As [`Expr::DefineGroup`].
    DefineGroup,
    /// As [`Expr::AstNode`]: a call that cannot be resolved, with its position.
    AstNode(CallTarget<'a>, usize),
}

/// What a call that cannot be resolved names.
#[derive(Debug, Clone, Copy, PartialEq, Eq)]
#[non_exhaustive]
pub enum CallTarget<'a> {
    /// As [`CaptureGroupTarget::ByNumber`].
    ByNumber(usize),
    /// As [`CaptureGroupTarget::ByName`].
    ByName(&'a str),
    /// As [`CaptureGroupTarget::Relative`].
    Relative(isize),
}

/// The children of a node: [`NodeRef::children`].
#[derive(Debug, Clone)]
pub struct Children<'a> {
    next: NodeRef<'a>,
    end: usize,
}

impl<'a> NodeRef<'a> {
    pub(crate) fn of_rows(rows: &'a Rows, index: usize) -> NodeRef<'a> {
        NodeRef { tree: Source::Rows(rows), index }
    }

    pub(crate) fn of_compact(tree: &'a CompactTree, index: usize) -> NodeRef<'a> {
        NodeRef { tree: Source::Compact(tree), index }
    }

    /// The row of the node. In a compact tree it has no span.
    #[inline(always)]
    fn row(self) -> Node {
        match self.tree {
            Source::Rows(rows) => *rows.node(self.index),
            Source::Compact(tree) => tree.row(self.index),
        }
    }

    /// What the node is, with its fields.
    ///
    /// ```
    /// use fancy_syntax::{Flags, Kind, Rows};
    /// let mut rows = Rows::new();
    /// let root = rows.parse("é", Flags::UNICODE)?.root();
    /// assert_eq!(root.kind(), Kind::Literal { val: "é", casei: false });
    /// # Ok::<(), fancy_syntax::Error>(())
    /// ```
    pub fn kind(self) -> Kind<'a> {
        let kind = match self.tree {
            Source::Rows(rows) => Kind::read(rows.node(self.index), Texts::unread(rows.texts())),
            Source::Compact(tree) => Kind::read(&tree.row(self.index), tree.texts()),
        };
        // every row was read once when the pattern was parsed
        kind.unwrap_or(Kind::Empty)
    }

    /// The part of the pattern that the node was parsed from.
    ///
    /// ```
    /// use fancy_syntax::{Flags, Rows};
    /// let mut rows = Rows::new();
    /// let root = rows.parse("(a)b", Flags::UNICODE)?.root();
    /// let spans: Vec<_> = root.children().map(|child| child.span()).collect();
    /// assert_eq!(spans, [0..3, 3..4]);
    /// # Ok::<(), fancy_syntax::Error>(())
    /// ```
    pub fn span(self) -> Span {
        match self.tree {
            Source::Rows(rows) => rows.node(self.index).start..rows.node(self.index).stop,
            Source::Compact(tree) => tree.span(self.index),
        }
    }

    /// The text of the pattern at the span. The tree does not keep the pattern, so pass it again. `None` if it is another text,
    /// and the span ends after it or splits a character of it.
    ///
    /// ```
    /// use fancy_syntax::{Flags, Rows};
    /// let pattern = r"(?<year>\d{4})-";
    /// let mut rows = Rows::new();
    /// let root = rows.parse(pattern, Flags::UNICODE)?.root();
    /// let first = root.children().next();
    /// assert_eq!(first.and_then(|child| child.text(pattern)), Some(r"(?<year>\d{4})"));
    /// # Ok::<(), fancy_syntax::Error>(())
    /// ```
    pub fn text(self, pattern: &str) -> Option<&str> {
        pattern.get(self.span())
    }

    /// The index of the node in preorder, from 0.
    ///
    /// ```
    /// use fancy_syntax::{Flags, Rows};
    /// let mut rows = Rows::new();
    /// let root = rows.parse("(a)b", Flags::UNICODE)?.root();
    /// let indices: Vec<_> = root.children().map(|child| child.index()).collect();
    /// assert_eq!(indices, [1, 3]);
    /// # Ok::<(), fancy_syntax::Error>(())
    /// ```
    pub fn index(self) -> usize {
        self.index
    }

    /// One past the index of the last descendant of the node, or of the node if it has no child: the indices of the descendants
    /// are those between this and its own.
    ///
    /// ```
    /// use fancy_syntax::{CompactTree, Flags};
    /// let tree = CompactTree::parse("(a)b", Flags::UNICODE)?;
    /// let ends: Vec<_> = tree.root().walk().map(|node| node.end()).collect();
    /// assert_eq!(ends, [4, 3, 3, 4]);
    /// # Ok::<(), fancy_syntax::Error>(())
    /// ```
    pub fn end(self) -> usize {
        match self.tree {
            Source::Rows(rows) => rows.node(self.index).end,
            Source::Compact(tree) => tree.end(self.index),
        }
    }

    /// The number of the group, if the node is a capturing group.
    ///
    /// ```
    /// use fancy_syntax::{Flags, Rows};
    /// let mut rows = Rows::new();
    /// let root = rows.parse("(a)b(c)", Flags::UNICODE)?.root();
    /// let numbers: Vec<_> = root.children().map(|child| child.group()).collect();
    /// assert_eq!(numbers, [Some(1), None, Some(2)]);
    /// # Ok::<(), fancy_syntax::Error>(())
    /// ```
    pub fn group(self) -> Option<usize> {
        let row = self.row();
        (row.kind == numbers::NODE_GROUP).then_some(row.group)
    }

    /// The children of the node, in the order of the pattern.
    ///
    /// ```
    /// use fancy_syntax::{Flags, Rows};
    /// let mut rows = Rows::new();
    /// let root = rows.parse("a|b|c", Flags::UNICODE)?.root();
    /// assert_eq!(root.children().count(), 3);
    /// # Ok::<(), fancy_syntax::Error>(())
    /// ```
    pub fn children(self) -> Children<'a> {
        Children { next: NodeRef { index: self.index + 1, ..self }, end: self.end() }
    }

    /// The node and its descendants in preorder.
    ///
    /// ```
    /// use fancy_syntax::{Flags, Kind, Rows};
    /// let mut rows = Rows::new();
    /// let root = rows.parse("(a(b))c", Flags::UNICODE)?.root();
    /// assert_eq!(root.walk().filter(|node| node.kind() == Kind::Group).count(), 2);
    /// # Ok::<(), fancy_syntax::Error>(())
    /// ```
    pub fn walk(self) -> impl ExactSizeIterator<Item = NodeRef<'a>> + DoubleEndedIterator {
        (self.index..self.end()).map(move |index| NodeRef { index, ..self })
    }

    /// Prints the node and its descendants in the syntax of the crate `regex`, as [`print()`](crate::print()) prints a whole
    /// tree; `None` if they are not printable. It is for engines that leave parts of a pattern to another one.
    ///
    /// # Errors
    ///
    /// Those of [`parse`](crate::parse) but [`Error::ParseError`].
    ///
    /// ```
    /// use fancy_syntax::{Flags, Precedence, Rows};
    /// let mut rows = Rows::new();
    /// let root = rows.parse(r"(?=a)(?:b|c)*", Flags::UNICODE)?.root();
    /// let texts: Result<Vec<_>, _> = root.children().map(|child| child.print(Precedence::Piece)).collect();
    /// assert_eq!(texts?, [None, Some("(?:b|c)*".to_owned())]);
    /// # Ok::<(), fancy_syntax::Error>(())
    /// ```
    pub fn print(self, precedence: Precedence) -> Result<Option<String>, Error> {
        match self.tree {
            Source::Rows(rows) => print_rows(rows.rows_from(self.index), precedence),
            Source::Compact(tree) => {
                let nodes = &tree.rows_of(self.index);
                print_rows(RowsIn { nodes, texts: tree.bytes(), index: 0 }, precedence)
            }
        }
    }

    /// Writes a pattern that is parsed, under these flags, as the node and its descendants, with the names of the groups among
    /// them; `None` if what is written is not parsed as these. References keep their numbers.
    ///
    /// # Errors
    ///
    /// Those of [`parse`](crate::parse) but [`Error::ParseError`].
    ///
    /// ```
    /// use fancy_syntax::{Flags, Rows};
    /// let mut rows = Rows::new();
    /// let root = rows.parse("(a)(?<n>b|c)", Flags::UNICODE)?.root();
    /// let texts: Result<Vec<_>, _> = root.children().map(|child| child.to_pattern(Flags::UNICODE)).collect();
    /// assert_eq!(texts?, [Some("(a)".to_owned()), Some("(?<n>b|c)".to_owned())]);
    /// # Ok::<(), fancy_syntax::Error>(())
    /// ```
    pub fn to_pattern(self, flags: Flags) -> Result<Option<String>, Error> {
        match self.tree {
            Source::Rows(rows) => rows.pattern_at(self.index, flags),
            // in a part of the rows groups would have other numbers
            Source::Compact(tree) => tree.written().to_pattern(self.index, tree.groups(), flags),
        }
    }

    /// The characters that the node matches, as [`class_ranges`](crate::class_ranges) returns them; `None` unless it is a
    /// `Delegate`, a `Literal` or an `Any` that matches exactly one character. Of the flags only [`Flags::UNICODE`] matters.
    ///
    /// # Errors
    ///
    /// Those of [`class_ranges`](crate::class_ranges), with the position 0.
    ///
    /// ```
    /// use fancy_syntax::{Flags, Rows};
    /// let mut rows = Rows::new();
    /// let root = rows.parse("(?i)k.", Flags::UNICODE)?.root();
    /// let ranges: Result<Vec<_>, _> = root.children().map(|child| child.character_ranges(Flags::UNICODE)).collect();
    /// let in_any_case = vec!['K'..='K', 'k'..='k', '\u{212A}'..='\u{212A}'];
    /// let all_but_line_feed = vec!['\0'..='\t', '\u{B}'..='\u{D7FF}', '\u{E000}'..=char::MAX];
    /// assert_eq!(ranges?, [Some(in_any_case), Some(all_but_line_feed)]);
    /// # Ok::<(), fancy_syntax::Error>(())
    /// ```
    pub fn character_ranges(self, flags: Flags) -> Result<Option<Vec<RangeInclusive<char>>>, Error> {
        let texts = match self.tree {
            Source::Rows(rows) => rows.texts(),
            Source::Compact(tree) => tree.bytes(),
        };
        ranges_of_row(&self.row(), texts, flags)
    }

    /// The node and its descendants as an owned tree.
    ///
    /// ```
    /// use fancy_syntax::{Expr, Flags, Rows};
    /// let mut rows = Rows::new();
    /// let root = rows.parse(r"\K|\G", Flags::UNICODE)?.root();
    /// assert_eq!(root.to_expr(), Expr::Alt(vec![Expr::KeepOut, Expr::ContinueFromPreviousMatchEnd]));
    /// # Ok::<(), fancy_syntax::Error>(())
    /// ```
    pub fn to_expr(self) -> Expr {
        let expr = match self.tree {
            Source::Rows(rows) => rows.builder_at(self.index).tree(MAX_LEVELS),
            Source::Compact(tree) => Builder::at(&tree.rows_of(self.index), tree.texts(), 0).tree(MAX_LEVELS),
        };
        // every row was read once when the pattern was parsed
        expr.unwrap_or(Expr::Empty)
    }
}

impl fmt::Debug for NodeRef<'_> {
    fn fmt(&self, f: &mut fmt::Formatter<'_>) -> fmt::Result {
        write!(f, "{:?} at {:?}", self.kind(), self.span())
    }
}

impl<'a> Children<'a> {
    /// The text of the literals that come next and have the same `casei`, with this `casei`. The iterator goes on after them. `None`
    /// if the next child is something else; then it stays where it is.
    ///
    /// ```
    /// use fancy_syntax::{CompactTree, Flags, Kind, NodeRef};
    /// let tree = CompactTree::parse("ab(c)", Flags::UNICODE)?;
    /// let mut children = tree.root().children();
    /// assert_eq!(children.next_literals(), Some(("ab", false)));
    /// assert_eq!(children.next_literals(), None);
    /// assert_eq!(children.next().map(NodeRef::kind), Some(Kind::Group));
    /// # Ok::<(), fancy_syntax::Error>(())
    /// ```
    pub fn next_literals(&mut self) -> Option<(&'a str, bool)> {
        let (mut texts, casei) = self.literal()?;
        self.next();
        // the texts of neighbours are neighbours in libfancy
        while let Some((more, _)) = self.literal().filter(|(more, other)| more.start == texts.end && *other == casei) {
            texts.end = more.end;
            self.next();
        }
        Some((self.next.tree.text(texts)?, casei))
    }

    /// Where the text of the next child is, and its `casei`, if it is a literal.
    fn literal(&self) -> Option<(Span, bool)> {
        if self.next.index >= self.end {
            return None;
        }
        let row = self.next.row();
        (row.kind == numbers::NODE_LITERAL).then(|| (row.text..row.text + row.text_size, row.casei != 0))
    }
}

impl<'a> Source<'a> {
    /// A part of the texts.
    fn text(self, part: Span) -> Option<&'a str> {
        match self {
            Source::Rows(rows) => std::str::from_utf8(rows.texts().get(part)?).ok(),
            Source::Compact(tree) => tree.string(part),
        }
    }
}

impl<'a> Iterator for Children<'a> {
    type Item = NodeRef<'a>;

    fn next(&mut self) -> Option<NodeRef<'a>> {
        if self.next.index >= self.end {
            return None;
        }
        let child = self.next;
        self.next.index = child.end();
        Some(child)
    }
}

impl CallTarget<'_> {
    pub(crate) fn to_owned(self) -> CaptureGroupTarget {
        match self {
            CallTarget::ByNumber(group) => CaptureGroupTarget::ByNumber(group),
            CallTarget::ByName(name) => CaptureGroupTarget::ByName(name.to_owned()),
            CallTarget::Relative(distance) => CaptureGroupTarget::Relative(distance),
        }
    }
}

impl<'a> Kind<'a> {
    /// What a row is; `None` if it is not one that `fancy.h` allows, or its text is not UTF-8.
    #[inline(always)]
    pub(crate) fn read(row: &Node, texts: Texts<'a>) -> Option<Kind<'a>> {
        let crlf = row.crlf != 0;
        let casei = row.casei != 0;
        let group = row.group;
        Some(match row.kind {
            numbers::NODE_EMPTY => Kind::Empty,
            numbers::NODE_ANY => Kind::Any { newline: row.newline != 0, crlf },
            numbers::NODE_ASSERTION => Kind::Assertion(Assertion::numbered(row.which, crlf)?),
            numbers::NODE_GENERAL_NEWLINE => Kind::GeneralNewline { unicode: row.unicode != 0 },
            numbers::NODE_LITERAL => Kind::Literal { val: texts.text(row)?, casei },
            numbers::NODE_LITERAL_BYTES => Kind::LiteralBytes { bytes: texts.bytes(row)? },
            numbers::NODE_CONCAT => Kind::Concat,
            numbers::NODE_ALT => Kind::Alt,
            numbers::NODE_GROUP => Kind::Group,
            numbers::NODE_LOOK_AROUND => Kind::LookAround(LookAround::numbered(row.which)?),
            numbers::NODE_REPEAT => Kind::Repeat { lo: row.lo, hi: row.hi, greedy: row.greedy != 0 },
            numbers::NODE_DELEGATE => Kind::Delegate { inner: texts.text(row)?, casei },
            numbers::NODE_BACKREF => Kind::Backref { group, casei },
            numbers::NODE_BACKREF_AT_LEVEL => {
                let relative_level = row.level;
                Kind::BackrefWithRelativeRecursionLevel { group, relative_level, casei }
            }
            numbers::NODE_ATOMIC_GROUP => Kind::AtomicGroup,
            numbers::NODE_KEEP_OUT => Kind::KeepOut,
            numbers::NODE_CONTINUE_FROM_PREVIOUS_MATCH_END => Kind::ContinueFromPreviousMatchEnd,
            numbers::NODE_BACKREF_EXISTS_CONDITION => {
                let relative_recursion_level = (row.has_level != 0).then_some(row.level);
                Kind::BackrefExistsCondition { group, relative_recursion_level }
            }
            numbers::NODE_CONDITIONAL => Kind::Conditional,
            numbers::NODE_SUBROUTINE_CALL => Kind::SubroutineCall(group),
            numbers::NODE_VERB => Kind::BacktrackingControlVerb(BacktrackingControlVerb::numbered(row.which)?),
            numbers::NODE_ABSENT => Kind::Absent(AbsentKind::numbered(row.which)?),
            numbers::NODE_DEFINE_GROUP => Kind::DefineGroup,
            numbers::NODE_AST_NODE => Kind::AstNode(call_target(row, texts)?, row.position),
            _ => return None,
        })
    }

    /// The number of a row that nothing has in `fancy.h`, with what it is the number of.
    pub(crate) fn unknown(row: &Node) -> Option<(&'static str, u32)> {
        let (what, is_known) = match row.kind {
            numbers::NODE_ASSERTION => ("an assertion", Assertion::numbered(row.which, false).is_some()),
            numbers::NODE_LOOK_AROUND => ("a look-around", LookAround::numbered(row.which).is_some()),
            numbers::NODE_VERB => ("a verb", BacktrackingControlVerb::numbered(row.which).is_some()),
            numbers::NODE_ABSENT => ("an absent form", AbsentKind::numbered(row.which).is_some()),
            numbers::NODE_AST_NODE => ("a target", row.which <= numbers::LAST_TARGET),
            kind => return (kind > numbers::LAST_NODE).then_some(("a kind of node", kind)),
        };
        (!is_known).then_some((what, row.which))
    }

    /// A node of this kind without children; `None` if nodes of the kind always have some.
    pub(crate) fn alone(self) -> Option<Expr> {
        Some(match self {
            Kind::Empty => Expr::Empty,
            Kind::Any { newline, crlf } => Expr::Any { newline, crlf },
            Kind::Assertion(which) => Expr::Assertion(which),
            Kind::GeneralNewline { unicode } => Expr::GeneralNewline { unicode },
            Kind::Literal { val, casei } => Expr::Literal { val: val.to_owned(), casei },
            Kind::LiteralBytes { bytes } => Expr::LiteralBytes { bytes: bytes.to_owned() },
            Kind::Concat => Expr::Concat(Vec::new()),
            Kind::Alt => Expr::Alt(Vec::new()),
            Kind::Delegate { inner, casei } => Expr::Delegate { inner: inner.to_owned(), casei },
            Kind::Backref { group, casei } => Expr::Backref { group, casei },
            Kind::BackrefWithRelativeRecursionLevel { group, relative_level, casei } => {
                Expr::BackrefWithRelativeRecursionLevel { group, relative_level, casei }
            }
            Kind::KeepOut => Expr::KeepOut,
            Kind::ContinueFromPreviousMatchEnd => Expr::ContinueFromPreviousMatchEnd,
            Kind::BackrefExistsCondition { group, relative_recursion_level } => {
                Expr::BackrefExistsCondition { group, relative_recursion_level }
            }
            Kind::SubroutineCall(group) => Expr::SubroutineCall(group),
            Kind::BacktrackingControlVerb(which) => Expr::BacktrackingControlVerb(which),
            Kind::Absent(AbsentKind::Clear) => Expr::Absent(Absent::Clear),
            Kind::AstNode(target, position) => Expr::AstNode(AstNode::SubroutineCall(target.to_owned()), position),
            Kind::Group
            | Kind::LookAround(_)
            | Kind::Repeat { .. }
            | Kind::AtomicGroup
            | Kind::Conditional
            | Kind::Absent(AbsentKind::Repeater | AbsentKind::Expression | AbsentKind::Stopper)
            | Kind::DefineGroup => return None,
        })
    }

    /// Whether a node of this kind may have so many children.
    pub(crate) fn takes(self, children: usize) -> bool {
        match self {
            Kind::Concat | Kind::Alt => true,
            Kind::Group
            | Kind::LookAround(_)
            | Kind::Repeat { .. }
            | Kind::AtomicGroup
            | Kind::DefineGroup
            | Kind::Absent(AbsentKind::Repeater | AbsentKind::Stopper) => children == 1,
            Kind::Absent(AbsentKind::Expression) => children == 2,
            Kind::Conditional => children == 3,
            _ => children == 0,
        }
    }
}

/// A part of a buffer; `None` if it is not inside.
pub(crate) fn bytes(texts: &[u8], start: usize, size: usize) -> Option<&[u8]> {
    texts.get(start..start.checked_add(size)?)
}

/// The buffer of texts, which is looked through once if it is UTF-8, as it is without a [`Kind::LiteralBytes`].
#[derive(Clone, Copy)]
pub(crate) struct Texts<'a> {
    bytes: &'a [u8],
    text: Option<&'a str>,
}

impl<'a> Texts<'a> {
    /// For all nodes.
    pub(crate) fn of(bytes: &'a [u8]) -> Texts<'a> {
        Texts { bytes, text: std::str::from_utf8(bytes).ok() }
    }

    /// For a check of all nodes, which reads no text if all are ASCII.
    pub(crate) fn to_check(bytes: &'a [u8]) -> Texts<'a> {
        if bytes.is_ascii() {
            Texts::unread(bytes)
        } else {
            Texts::of(bytes)
        }
    }

    /// For one node.
    pub(crate) fn unread(bytes: &'a [u8]) -> Texts<'a> {
        Texts { bytes, text: None }
    }

    /// Those of literal bytes, and the others in a string.
    pub(crate) fn known(bytes: &'a [u8], text: &'a str) -> Texts<'a> {
        Texts { bytes, text: Some(text) }
    }

    fn bytes(self, row: &Node) -> Option<&'a [u8]> {
        bytes(self.bytes, row.text, row.text_size)
    }

    /// How many bytes they have, if all are ASCII; else 0.
    pub(crate) fn ascii_size(self) -> usize {
        if self.bytes.is_ascii() {
            self.bytes.len()
        } else {
            0
        }
    }

    #[inline(always)]
    pub(crate) fn text(self, row: &Node) -> Option<&'a str> {
        match self.text {
            Some(text) => text.get(row.text..row.text.checked_add(row.text_size)?),
            None => std::str::from_utf8(self.bytes(row)?).ok(),
        }
    }
}

fn call_target<'a>(row: &Node, texts: Texts<'a>) -> Option<CallTarget<'a>> {
    Some(match row.which {
        numbers::TARGET_BY_NUMBER => CallTarget::ByNumber(row.group),
        numbers::TARGET_BY_NAME => CallTarget::ByName(texts.text(row)?),
        numbers::TARGET_RELATIVE => CallTarget::Relative(row.level),
        _ => return None,
    })
}
