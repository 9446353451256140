//! A tree with the spans of its nodes and the group information of its pattern.

use crate::{Error, Expr, Flags};
use std::collections::{BTreeMap, BTreeSet};
use std::ops::Range;

/// A part of a pattern, in byte offsets. Both ends are character boundaries, so that `&pattern[span]` is a text.
pub type Span = Range<usize>;

/// The tree of a pattern, with the spans of its nodes and the group information.
#[derive(Debug, Clone, PartialEq, Eq)]
pub struct Tree {
    /// The root of the tree.
    pub expr: Expr,
    /// The part of the pattern that each node was parsed from, in preorder, as [`walk`](Tree::walk) goes.
    pub spans: Vec<Span>,
    /// What is known of the groups and references of the pattern.
    pub groups: GroupInfo,
}

/// What is known of the groups and references of a pattern, under the names of fancy-regex.
#[derive(Debug, Clone, Default, PartialEq, Eq)]
pub struct GroupInfo {
    /// For each name the numbers of its groups, in ascending order.
    pub named_groups: BTreeMap<String, Vec<usize>>,
    /// The group numbers of back references, from 0 up to `total_groups`.
    pub backrefs: BTreeSet<usize>,
    /// How many groups have a number.
    pub total_groups: usize,
    /// The number of the first back reference above `total_groups`.
    pub out_of_range_backref: Option<usize>,
    /// Whether some call is by a number, or some back reference is a backslash and digits.
    pub numeric_capture_group_references: bool,
    /// Whether there is a call.
    pub contains_subroutines: bool,
    /// Whether there is a call by the number 0.
    pub self_recursive: bool,
    /// Whether the groups without a name have no number.
    pub numbered_groups_ignored: bool,
}

impl GroupInfo {
    /// The name of the group with this number; `None` if it has none. It looks through all names: for those of all groups,
    /// [`Tree::walk_groups`] is cheaper.
    ///
    /// ```
    /// use fancy_syntax::{parse, Flags};
    /// let groups = parse("(?<n>a)(b)", Flags::UNICODE)?.groups;
    /// assert_eq!((groups.group_name(1), groups.group_name(2)), (Some("n"), None));
    /// # Ok::<(), fancy_syntax::Error>(())
    /// ```
    pub fn group_name(&self, group: usize) -> Option<&str> {
        let named = self.named_groups.iter().find(|(_, numbers)| numbers.contains(&group));
        named.map(|(name, _)| name.as_str())
    }

    /// The names of all groups that have one, by their numbers.
    fn names_by_group(&self) -> BTreeMap<usize, &str> {
        let mut names = BTreeMap::new();
        for (name, numbers) in &self.named_groups {
            for number in numbers {
                names.entry(*number).or_insert(name.as_str());
            }
        }
        names
    }
}

impl Tree {
    /// Writes a pattern that is parsed, under the flags, as this tree with these names, also after the tree was changed.
    /// [`Expr::to_pattern`] says more; of the spans nothing is used.
    ///
    /// # Errors
    ///
    /// Those of [`parse`](crate::parse) but [`Error::ParseError`].
    ///
    /// ```
    /// use fancy_syntax::{parse, Expr, Flags};
    /// let mut tree = parse("(?<n>a+)b", Flags::UNICODE)?;
    /// for node in tree.expr.children_iter_mut() {
    ///     if let Expr::Group(child) = node {
    ///         **child = Expr::Any { newline: false, crlf: false };
    ///     }
    /// }
    /// assert_eq!(tree.to_pattern(Flags::UNICODE)?.as_deref(), Some("(?<n>.)b"));
    /// # Ok::<(), fancy_syntax::Error>(())
    /// ```
    pub fn to_pattern(&self, flags: Flags) -> Result<Option<String>, Error> {
        self.expr.to_pattern(&self.groups, flags)
    }

    /// Each node with its span, in preorder: each node before its children, and these in the order of the pattern.
    ///
    /// After a change of `expr` the spans are still those of the parsed nodes, one after another. If there are more nodes than
    /// spans, each of the last ones has the span `0..0`.
    ///
    /// ```
    /// use fancy_syntax::{parse, Expr, Flags};
    /// let pattern = "(?<y>a|b)c*";
    /// let tree = parse(pattern, Flags::UNICODE)?;
    /// let repeat = tree.walk().find(|(node, _)| matches!(node, Expr::Repeat { .. }));
    /// assert_eq!(repeat.map(|(_, span)| &pattern[span]), Some("c*"));
    /// # Ok::<(), fancy_syntax::Error>(())
    /// ```
    pub fn walk(&self) -> impl Iterator<Item = (&Expr, Span)> {
        let spans = self.spans.iter().cloned().chain(std::iter::repeat(0..0));
        self.expr.walk().zip(spans)
    }

    /// The capturing groups in preorder, each with its number and its name.
    ///
    /// ```
    /// use fancy_syntax::{parse, Flags};
    /// let tree = parse("(?<n>a(b))", Flags::UNICODE)?;
    /// let groups: Vec<_> = tree.walk_groups().map(|(number, name, _)| (number, name)).collect();
    /// assert_eq!(groups, [(1, Some("n")), (2, None)]);
    /// # Ok::<(), fancy_syntax::Error>(())
    /// ```
    pub fn walk_groups(&self) -> impl Iterator<Item = (usize, Option<&str>, &Expr)> {
        let groups = self.expr.walk().filter(|node| matches!(node, Expr::Group(_)));
        let names = self.groups.names_by_group();
        (1..).zip(groups).map(move |(number, group)| (number, names.get(&number).copied(), group))
    }
}
