//! Owned trees written as rows, and the texts that the library writes for rows.

use crate::call::{self, Extent, RowsIn, Text};
use crate::ffi::{self, CallResult, Info, Name, Node};
use crate::ranges::ranges_of_row;
use crate::{numbers, Absent, AbsentKind, AstNode, CaptureGroupTarget};
use crate::{Error, Expr, Flags, GroupInfo, Precedence};
use std::ops::RangeInclusive;

/// The rows of a tree, and the texts of its nodes.
#[derive(Default)]
pub(crate) struct Written {
    nodes: Vec<Node>,
    texts: Vec<u8>,
    names: Vec<Name>,
}

/// What is left to do while a tree is written.
enum Step<'a> {
    Open(&'a Expr),
    /// All that is below the node with this index is written.
    Close(usize),
}

/// A tree that no row can hold: it has a node as it is before references are resolved, other than a call.
struct Unresolved;

impl Written {
    /// Writes the rows of a tree. It does not recurse, since a tree that was built by hand may be very deep.
    fn of(tree: &Expr) -> Result<Written, Unresolved> {
        let mut written = Written::default();
        let mut steps = vec![Step::Open(tree)];
        while let Some(step) = steps.pop() {
            match step {
                Step::Open(node) => {
                    let index = written.nodes.len();
                    let row = written.row(node)?;
                    written.nodes.push(row);
                    steps.push(Step::Close(index));
                    let first = steps.len();
                    steps.extend(node.children_iter().map(Step::Open));
                    steps[first..].reverse();
                }
                Step::Close(index) => written.nodes[index].end = written.nodes.len(),
            }
        }
        Ok(written)
    }

    /// Rows that are there already, without names.
    pub(crate) fn of_rows(nodes: Vec<Node>, texts: Vec<u8>) -> Written {
        Written { nodes, texts, names: Vec::new() }
    }

    /// Adds the names of groups that are in the tree. The library leaves out the others.
    pub(crate) fn add_names(&mut self, groups: &GroupInfo) {
        let most = self.nodes.iter().filter(|row| row.kind == numbers::NODE_GROUP).count();
        for (name, numbers) in &groups.named_groups {
            let (text, before) = (self.texts.len(), self.names.len());
            let row = |&group: &usize| (group <= most).then_some(Name { text, text_size: name.len(), group });
            self.names.extend(numbers.iter().filter_map(row));
            if self.names.len() > before {
                self.texts.extend(name.as_bytes());
            }
        }
    }

    fn with_text(&mut self, kind: u32, text: &[u8]) -> Node {
        let start = self.texts.len();
        self.texts.extend(text);
        Node { kind, text: start, text_size: text.len(), ..Node::default() }
    }

    fn row(&mut self, node: &Expr) -> Result<Node, Unresolved> {
        let row = |kind| Node { kind, ..Node::default() };
        let one_of = |kind, which| Node { kind, which, ..Node::default() };
        Ok(match node {
            Expr::Empty => row(numbers::NODE_EMPTY),
            Expr::Any { newline, crlf } => {
                Node { newline: (*newline).into(), crlf: (*crlf).into(), ..row(numbers::NODE_ANY) }
            }
            Expr::Assertion(which) => {
                Node { crlf: which.crlf().into(), ..one_of(numbers::NODE_ASSERTION, which.number()) }
            }
            Expr::GeneralNewline { unicode } => {
                Node { unicode: (*unicode).into(), ..row(numbers::NODE_GENERAL_NEWLINE) }
            }
            Expr::Literal { val, casei } => {
                Node { casei: (*casei).into(), ..self.with_text(numbers::NODE_LITERAL, val.as_bytes()) }
            }
            Expr::LiteralBytes { bytes } => self.with_text(numbers::NODE_LITERAL_BYTES, bytes),
            Expr::Concat(_) => row(numbers::NODE_CONCAT),
            Expr::Alt(_) => row(numbers::NODE_ALT),
            Expr::Group(_) => row(numbers::NODE_GROUP),
            Expr::LookAround(_, which) => one_of(numbers::NODE_LOOK_AROUND, which.number()),
            Expr::Repeat { lo, hi, greedy, .. } => {
                Node { lo: *lo, hi: *hi, greedy: (*greedy).into(), ..row(numbers::NODE_REPEAT) }
            }
            Expr::Delegate { inner, casei } => {
                Node { casei: (*casei).into(), ..self.with_text(numbers::NODE_DELEGATE, inner.as_bytes()) }
            }
            Expr::Backref { group, casei } => {
                Node { group: *group, casei: (*casei).into(), ..row(numbers::NODE_BACKREF) }
            }
            Expr::BackrefWithRelativeRecursionLevel { group, relative_level, casei } => {
                let (group, level) = (*group, *relative_level);
                Node { group, level, has_level: 1, casei: (*casei).into(), ..row(numbers::NODE_BACKREF_AT_LEVEL) }
            }
            Expr::AtomicGroup(_) => row(numbers::NODE_ATOMIC_GROUP),
            Expr::KeepOut => row(numbers::NODE_KEEP_OUT),
            Expr::ContinueFromPreviousMatchEnd => row(numbers::NODE_CONTINUE_FROM_PREVIOUS_MATCH_END),
            Expr::BackrefExistsCondition { group, relative_recursion_level } => Node {
                group: *group,
                level: relative_recursion_level.unwrap_or(0),
                has_level: relative_recursion_level.is_some().into(),
                ..row(numbers::NODE_BACKREF_EXISTS_CONDITION)
            },
            Expr::Conditional { .. } => row(numbers::NODE_CONDITIONAL),
            Expr::SubroutineCall(group) => Node { group: *group, ..row(numbers::NODE_SUBROUTINE_CALL) },
            Expr::BacktrackingControlVerb(which) => one_of(numbers::NODE_VERB, which.number()),
            Expr::Absent(which) => one_of(numbers::NODE_ABSENT, absent(which).number()),
            Expr::DefineGroup { .. } => row(numbers::NODE_DEFINE_GROUP),
            Expr::AstNode(AstNode::SubroutineCall(target), position) => {
                Node { position: *position, ..self.call(target) }
            }
            Expr::AstNode(
                AstNode::AstGroup { .. } | AstNode::Backref { .. } | AstNode::BackrefExistsCondition { .. },
                _,
            ) => return Err(Unresolved),
        })
    }

    fn call(&mut self, target: &CaptureGroupTarget) -> Node {
        let call = |which| Node { kind: numbers::NODE_AST_NODE, which, ..Node::default() };
        match target {
            CaptureGroupTarget::ByNumber(group) => Node { group: *group, ..call(numbers::TARGET_BY_NUMBER) },
            CaptureGroupTarget::ByName(name) => {
                Node { which: numbers::TARGET_BY_NAME, ..self.with_text(numbers::NODE_AST_NODE, name.as_bytes()) }
            }
            CaptureGroupTarget::Relative(level) => Node { level: *level, ..call(numbers::TARGET_RELATIVE) },
        }
    }

    fn rows(&self) -> RowsIn<'_> {
        RowsIn { nodes: &self.nodes, texts: &self.texts, index: 0 }
    }

    /// Writes the node with an index as a pattern, with the names that were added.
    pub(crate) fn to_pattern(&self, index: usize, groups: &GroupInfo, flags: Flags) -> Result<Option<String>, Error> {
        let info = Info {
            numeric_capture_group_references: groups.numeric_capture_group_references.into(),
            self_recursive: groups.self_recursive.into(),
            ..Info::default()
        };
        pattern_of_rows(RowsIn { index, ..self.rows() }, &self.names, &info, flags)
    }
}

fn absent(which: &Absent) -> AbsentKind {
    match which {
        Absent::Repeater(_) => AbsentKind::Repeater,
        Absent::Expression { .. } => AbsentKind::Expression,
        Absent::Stopper(_) => AbsentKind::Stopper,
        Absent::Clear => AbsentKind::Clear,
    }
}

/// What a call that wrote a text for rows has returned: the text, or `None` if the rows have none.
fn text_of(text: Text) -> Result<Option<String>, Error> {
    match text {
        Text::Written(text) => Ok(Some(text)),
        Text::Not(CallResult {
            status: numbers::STATUS_NOT_PRINTABLE | numbers::STATUS_NO_PATTERN | numbers::STATUS_NO_TREE,
            ..
        }) => Ok(None),
        Text::Not(result) => Err(Error::of_status(result.status)),
    }
}

/// What the text of rows is written for.
fn extent_of_rows(rows: RowsIn<'_>) -> Extent {
    let own = rows.own();
    // those of other nodes may be many more
    let own_texts = own.iter().fold(0, |sum: usize, row| sum.saturating_add(row.text_size));
    let usual = own.len().saturating_mul(8).saturating_add(own_texts);
    Extent { usual, nodes: own.len(), texts: rows.texts.len() }
}

/// Prints the tree of rows.
pub(crate) fn print_rows(rows: RowsIn<'_>, precedence: Precedence) -> Result<Option<String>, Error> {
    let write = |buffer: &mut Vec<u8>| ffi::print_nodes(rows, precedence as u32, buffer);
    text_of(call::written(extent_of_rows(rows), write, numbers::STATUS_OK)?)
}

/// Writes the tree of rows as a pattern.
pub(crate) fn pattern_of_rows(
    rows: RowsIn<'_>,
    names: &[Name],
    info: &Info,
    flags: Flags,
) -> Result<Option<String>, Error> {
    let write = |buffer: &mut Vec<u8>| ffi::to_pattern_nodes(rows, names, info, flags.bits(), buffer);
    text_of(call::written(extent_of_rows(rows), write, numbers::STATUS_OK)?)
}

impl Expr {
    /// Prints the tree in the syntax of the crate `regex`, as [`print()`](crate::print()) prints that of a pattern. The tree
    /// may have been changed, or built by hand. `None` if it is not printable, or has more than 832 levels.
    ///
    /// # Errors
    ///
    /// Those of [`parse`](crate::parse) but [`Error::ParseError`].
    ///
    /// ```
    /// use fancy_syntax::{Expr, Precedence};
    /// let literal = |val: &str| Expr::Literal { val: val.to_owned(), casei: false };
    /// let tree = Expr::Alt(vec![literal("a+b"), Expr::Group(Box::new(literal("c")))]);
    /// assert_eq!(tree.print(Precedence::Whole)?.as_deref(), Some(r"a\+b|(c)"));
    /// assert_eq!(Expr::KeepOut.print(Precedence::Whole)?, None);
    /// # Ok::<(), fancy_syntax::Error>(())
    /// ```
    pub fn print(&self, precedence: Precedence) -> Result<Option<String>, Error> {
        match Written::of(self) {
            Ok(written) => print_rows(written.rows(), precedence),
            Err(Unresolved) => Ok(None),
        }
    }

    /// Writes a pattern that is parsed, under the flags, as this tree, with names for its groups. The tree may have been
    /// changed, or built by hand. `None` if what is written for it is not parsed as this tree, or it has more than 832 levels.
    ///
    /// Of `groups` it needs only the names, by the numbers that groups have in this tree, and two fields that say whether
    /// references are written by numbers, as far as there is a choice: `numeric_capture_group_references` and
    /// `self_recursive`. In a part of a tree groups have other numbers than in the whole:
    /// [`NodeRef::to_pattern`](crate::NodeRef::to_pattern) writes a part with its names.
    ///
    /// # Errors
    ///
    /// Those of [`parse`](crate::parse) but [`Error::ParseError`].
    ///
    /// ```
    /// use fancy_syntax::{Expr, Flags, GroupInfo};
    /// let literal = |val: &str| Expr::Literal { val: val.to_owned(), casei: false };
    /// let tree = Expr::Concat(vec![Expr::Group(Box::new(literal("a"))), Expr::Backref { group: 1, casei: false }]);
    /// let mut groups = GroupInfo::default();
    /// assert_eq!(tree.to_pattern(&groups, Flags::UNICODE)?.as_deref(), Some(r"(a)\k<1>"));
    /// groups.named_groups.insert("n".to_owned(), vec![1]);
    /// assert_eq!(tree.to_pattern(&groups, Flags::UNICODE)?.as_deref(), Some(r"(?<n>a)\k<n>"));
    /// // it would be parsed as two literals
    /// assert_eq!(literal("ab").to_pattern(&groups, Flags::UNICODE)?, None);
    /// # Ok::<(), fancy_syntax::Error>(())
    /// ```
    pub fn to_pattern(&self, groups: &GroupInfo, flags: Flags) -> Result<Option<String>, Error> {
        let Ok(mut written) = Written::of(self) else { return Ok(None) };
        written.add_names(groups);
        written.to_pattern(0, groups, flags)
    }

    /// The characters that the node matches, as [`class_ranges`](crate::class_ranges) returns them; `None` unless it is a
    /// `Delegate`, a `Literal` or an `Any` that matches exactly one character. Of the flags only [`Flags::UNICODE`] matters.
    ///
    /// # Errors
    ///
    /// Those of [`class_ranges`](crate::class_ranges), with the position 0.
    ///
    /// ```
    /// use fancy_syntax::{parse, Flags};
    /// let ranges = |pattern| parse(pattern, Flags::UNICODE)?.expr.character_ranges(Flags::UNICODE);
    /// assert_eq!(ranges("[0-9&&[^5]]")?, Some(vec!['0'..='4', '6'..='9']));
    /// assert_eq!(ranges("(?i)s")?, Some(vec!['S'..='S', 's'..='s', 'ſ'..='ſ']));
    /// assert_eq!(ranges("ab")?, None);
    /// # Ok::<(), fancy_syntax::Error>(())
    /// ```
    pub fn character_ranges(&self, flags: Flags) -> Result<Option<Vec<RangeInclusive<char>>>, Error> {
        if !matches!(self, Expr::Any { .. } | Expr::Literal { .. } | Expr::Delegate { .. }) {
            return Ok(None);
        }
        match Written::of(self) {
            Ok(Written { nodes, texts, .. }) => ranges_of_row(&nodes[0], &texts, flags),
            Err(Unresolved) => Ok(None),
        }
    }
}
