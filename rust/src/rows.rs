//! The buffers that the library writes a tree to.

use crate::call::{guessed, ready, reserve, RowsIn};
use crate::checked;
use crate::ffi::{self, CallResult, Info, Name, Node};
use crate::guess::Guess;
use crate::node::{self, Kind, NodeRef, Texts};
use crate::owned::Builder;
use crate::part::{by_group, pattern_of_part};
use crate::written::pattern_of_rows;
use crate::{numbers, CompactTree, Error, Expr, Flags, GroupInfo, Span, Tree};
use std::cell::Cell;
use std::collections::BTreeMap;
use std::fmt;
use std::sync::OnceLock;

/// A tree has at most so many levels (`docs/proved.md`).
pub(crate) const MAX_LEVELS: usize = 832;

/// The tree of one pattern, as the library writes it: a row for each node, in buffers that the next pattern uses again.
///
/// It is for programs that only look at trees. Nothing is allocated for a node, and once the buffers are long enough, nothing
/// for a pattern. [`parse`](crate::parse) copies the rows to an owned [`Tree`].
///
/// ```
/// use fancy_syntax::{Flags, Kind, Rows};
/// let mut rows = Rows::new();
/// for (pattern, groups) in [("(a|b)c*", 1), ("[a-z]+", 0)] {
///     let root = rows.parse(pattern, Flags::UNICODE)?.root();
///     assert_eq!(root.walk().filter(|node| node.kind() == Kind::Group).count(), groups);
/// }
/// # Ok::<(), fancy_syntax::Error>(())
/// ```
#[derive(Clone)]
pub struct Rows {
    /// Those of the tree, which were checked; there is capacity for one at least. The other buffers too hold what the tree has.
    nodes: Vec<Node>,
    texts: Vec<u8>,
    names: Vec<Name>,
    backrefs: Vec<usize>,
    /// Its sizes are the lengths of the buffers.
    info: Info,
    /// The names in the order of their groups, from when a part of the tree is first written, or a name is asked for.
    by_group: OnceLock<Vec<Name>>,
}

/// A thread keeps the buffers of an owned tree for the next one, unless they have more bytes.
const MOST_KEPT: usize = 400_000;

/// Calls with buffers that this thread used before, if there are any.
pub(crate) fn with_kept<T>(call: impl FnOnce(&mut Rows) -> T) -> T {
    thread_local! {
        static KEPT: Cell<Option<Box<Rows>>> = const { Cell::new(None) };
    }
    let mut rows = KEPT.try_with(Cell::take).ok().flatten().unwrap_or_default();
    let result = call(&mut rows);
    if rows.bytes() <= MOST_KEPT {
        // while the thread ends nothing is kept
        let _ = KEPT.try_with(|kept| kept.set(Some(rows)));
    }
    result
}

impl Default for Rows {
    fn default() -> Rows {
        Rows::new()
    }
}

impl Rows {
    /// The tree of the empty pattern, with small buffers.
    ///
    /// ```
    /// use fancy_syntax::{Kind, Rows};
    /// assert_eq!(Rows::new().root().kind(), Kind::Empty);
    /// ```
    pub fn new() -> Rows {
        let mut rows = Rows {
            nodes: vec![Node::default()],
            texts: Vec::new(),
            names: Vec::new(),
            backrefs: Vec::new(),
            info: Info::default(),
            by_group: OnceLock::new(),
        };
        rows.clear();
        rows
    }

    /// Parses a pattern into the buffers. What they held before is gone.
    ///
    /// # Errors
    ///
    /// Those of [`parse`](crate::parse); also [`Error::OutOfMemory`] if a buffer cannot be made as long as the tree needs. After an
    /// error these are the rows of the empty pattern.
    ///
    /// ```
    /// use fancy_syntax::{Flags, Rows};
    /// let mut rows = Rows::new();
    /// assert_eq!(rows.parse("ab", Flags::UNICODE)?.root().children().count(), 2);
    /// assert!(rows.parse("(", Flags::UNICODE).is_err());
    /// assert_eq!(rows.root().children().count(), 0);
    /// # Ok::<(), fancy_syntax::Error>(())
    /// ```
    pub fn parse(&mut self, pattern: &str, flags: Flags) -> Result<&Rows, Error> {
        self.parse_bits(pattern, flags.bits())
    }

    /// Parses a pattern into the buffers, without the spans of its nodes: each is `0..0`. It is cheaper than
    /// [`parse`](Rows::parse).
    ///
    /// # Errors
    ///
    /// Those of [`parse`](Rows::parse).
    ///
    /// ```
    /// use fancy_syntax::{Flags, Rows};
    /// let mut rows = Rows::new();
    /// let root = rows.parse_without_spans("ab", Flags::UNICODE)?.root();
    /// assert_eq!((root.children().count(), root.span()), (2, 0..0));
    /// # Ok::<(), fancy_syntax::Error>(())
    /// ```
    pub fn parse_without_spans(&mut self, pattern: &str, flags: Flags) -> Result<&Rows, Error> {
        self.parse_bits(pattern, flags.bits() | numbers::FLAG_WITHOUT_SPANS)
    }

    fn parse_bits(&mut self, pattern: &str, bits: u32) -> Result<&Rows, Error> {
        self.filled(pattern, bits, |rows| rows.check(pattern))?;
        Ok(self)
    }

    /// Parses a pattern, and builds its tree, by which the rows are checked, but not their spans.
    pub(crate) fn parse_expr(&mut self, pattern: &str, bits: u32) -> Result<Expr, Error> {
        self.filled(pattern, bits, Rows::built)
    }

    /// Parses a pattern, and packs its tree, by which the rows are checked, and their spans if there are some.
    pub(crate) fn parse_compact(&mut self, pattern: &str, bits: u32) -> Result<CompactTree, Error> {
        self.filled(pattern, bits, |rows| rows.packed(pattern, bits & numbers::FLAG_WITHOUT_SPANS == 0))
    }

    /// Parses a pattern, and reads the rows. After an error these are the rows of the empty pattern.
    fn filled<T>(
        &mut self,
        pattern: &str,
        bits: u32,
        read: impl FnOnce(&Rows) -> Result<T, Error>,
    ) -> Result<T, Error> {
        let outcome = self.fill(pattern, bits).and_then(|()| read(self));
        if outcome.is_err() {
            self.clear();
        }
        outcome
    }

    fn built(&self) -> Result<Expr, Error> {
        self.check_buffers()?;
        let expr = self.builder_at(0).tree(MAX_LEVELS);
        expr.ok_or_else(|| self.refused("nodes that are no tree, or a text that is not UTF-8"))
    }

    fn packed(&self, pattern: &str, has_spans: bool) -> Result<CompactTree, Error> {
        self.check_buffers()?;
        // its indices and offsets have 32 bits
        if self.nodes.len().max(pattern.len()) > u32::MAX as usize {
            return Err(Error::OutOfMemory);
        }
        let tree = CompactTree::of(self.rows_from(0), pattern, has_spans, self.groups());
        tree.map_err(|what| self.refused(what))
    }

    /// Why no tree is made of the rows: one has a number that the crate has no name for, or what the text says.
    #[cold]
    fn refused(&self, what: &'static str) -> Error {
        match self.nodes.iter().find_map(Kind::unknown) {
            Some((what, number)) => Error::unknown(what, number),
            None => Error::Library(what),
        }
    }

    /// The spans of the nodes, if each is a part of the pattern.
    pub(crate) fn checked_spans(&self, pattern: &str) -> Result<Vec<Span>, Error> {
        checked::spans(&self.nodes, pattern).map_err(Error::Library)
    }

    pub(crate) fn builder_at(&self, index: usize) -> Builder<'_> {
        // for a part, the texts of the whole are not looked through
        let texts = if index == 0 { Texts::of(&self.texts) } else { Texts::unread(&self.texts) };
        Builder::at(&self.nodes, texts, index)
    }

    /// Writes a pattern that is parsed, under these flags, as this tree with its names; `None` if what is written is not, which
    /// can happen under other flags than those of the parse. [`NodeRef::to_pattern`] does this for a part of the tree.
    ///
    /// # Errors
    ///
    /// Those of [`parse`](Rows::parse) but [`Error::ParseError`].
    ///
    /// ```
    /// use fancy_syntax::{Flags, Rows};
    /// let mut rows = Rows::new();
    /// let rows = rows.parse("(?x) (?<n> a {2,2} )", Flags::UNICODE)?;
    /// assert_eq!(rows.to_pattern(Flags::UNICODE)?.as_deref(), Some("(?<n>a{2})"));
    /// # Ok::<(), fancy_syntax::Error>(())
    /// ```
    pub fn to_pattern(&self, flags: Flags) -> Result<Option<String>, Error> {
        self.root().to_pattern(flags)
    }

    /// The root of the tree.
    ///
    /// ```
    /// use fancy_syntax::{Flags, Rows};
    /// let mut rows = Rows::new();
    /// assert_eq!(rows.parse("(a|b)c*", Flags::UNICODE)?.root().span(), 0..7);
    /// # Ok::<(), fancy_syntax::Error>(())
    /// ```
    pub fn root(&self) -> NodeRef<'_> {
        NodeRef::of_rows(self, 0)
    }

    /// The names of groups, each with the number of its group, in the order of their bytes. A name that several groups have
    /// comes once for each.
    ///
    /// ```
    /// use fancy_syntax::{Flags, Rows};
    /// let mut rows = Rows::new();
    /// let names = rows.parse("(?<b>x)(?<a>y)", Flags::UNICODE)?.names();
    /// assert_eq!(names.collect::<Vec<_>>(), [("a", 2), ("b", 1)]);
    /// # Ok::<(), fancy_syntax::Error>(())
    /// ```
    pub fn names(&self) -> impl ExactSizeIterator<Item = (&str, usize)> {
        self.names.iter().map(|name| (self.name(name).unwrap_or_default(), name.group))
    }

    /// The name of the group with this number; `None` if it has none.
    ///
    /// ```
    /// use fancy_syntax::{Flags, Rows};
    /// let mut rows = Rows::new();
    /// let rows = rows.parse("(?<n>a)(b)", Flags::UNICODE)?;
    /// assert_eq!((rows.group_name(1), rows.group_name(2)), (Some("n"), None));
    /// # Ok::<(), fancy_syntax::Error>(())
    /// ```
    pub fn group_name(&self, group: usize) -> Option<&str> {
        let Ok(names) = self.names_by_group() else {
            return self.names().find(|(_, number)| *number == group).map(|(name, _)| name);
        };
        let named = names.get(names.partition_point(|name| name.group < group))?;
        (named.group == group).then(|| self.name(named).unwrap_or_default())
    }

    /// The group numbers of back references, from 0 up to [`total_groups`](Rows::total_groups), in ascending order, each once.
    ///
    /// ```
    /// use fancy_syntax::{Flags, Rows};
    /// let mut rows = Rows::new();
    /// assert_eq!(rows.parse(r"(a)(b)\2\1\2", Flags::UNICODE)?.backrefs(), [1, 2]);
    /// # Ok::<(), fancy_syntax::Error>(())
    /// ```
    pub fn backrefs(&self) -> &[usize] {
        &self.backrefs
    }

    /// How many groups have a number.
    ///
    /// ```
    /// use fancy_syntax::{Flags, Rows};
    /// let mut rows = Rows::new();
    /// assert_eq!(rows.parse("(a)(?:b)(c)", Flags::UNICODE)?.total_groups(), 2);
    /// # Ok::<(), fancy_syntax::Error>(())
    /// ```
    pub fn total_groups(&self) -> usize {
        self.info.total_groups
    }

    /// All that is known of the groups and references of the pattern, in maps and sets of its own.
    ///
    /// ```
    /// use fancy_syntax::{Flags, Rows};
    /// let mut rows = Rows::new();
    /// let groups = rows.parse(r"(?<n>a)\g<n>\2", Flags::UNICODE)?.groups();
    /// assert_eq!(groups.named_groups["n"], [1]);
    /// assert!(groups.contains_subroutines);
    /// assert_eq!(groups.out_of_range_backref, Some(2));
    /// # Ok::<(), fancy_syntax::Error>(())
    /// ```
    pub fn groups(&self) -> GroupInfo {
        let info = &self.info;
        GroupInfo {
            named_groups: self.named_groups(),
            backrefs: self.backrefs().iter().copied().collect(),
            total_groups: info.total_groups,
            out_of_range_backref: (info.has_out_of_range_backref != 0).then_some(info.out_of_range_backref),
            numeric_capture_group_references: info.numeric_capture_group_references != 0,
            contains_subroutines: info.contains_subroutines != 0,
            self_recursive: info.self_recursive != 0,
            numbered_groups_ignored: info.numbered_groups_ignored != 0,
        }
    }

    fn named_groups(&self) -> BTreeMap<String, Vec<usize>> {
        let mut named: BTreeMap<String, Vec<usize>> = BTreeMap::new();
        for (name, group) in self.names() {
            match named.get_mut(name) {
                Some(numbers) => numbers.push(group),
                None => drop(named.insert(name.to_owned(), vec![group])),
            }
        }
        named
    }

    /// The tree with its spans and group information, in memory of its own.
    ///
    /// ```
    /// use fancy_syntax::{parse, Flags, Rows};
    /// let mut rows = Rows::new();
    /// let tree = rows.parse("a|b", Flags::UNICODE)?.to_tree();
    /// assert_eq!(tree, parse("a|b", Flags::UNICODE)?);
    /// # Ok::<(), fancy_syntax::Error>(())
    /// ```
    pub fn to_tree(&self) -> Tree {
        Tree {
            expr: self.root().to_expr(),
            spans: self.root().walk().map(NodeRef::span).collect(),
            groups: self.groups(),
        }
    }

    pub(crate) fn node(&self, index: usize) -> &Node {
        &self.nodes[index]
    }

    /// The rows from an index on, as the library takes them.
    pub(crate) fn rows_from(&self, index: usize) -> RowsIn<'_> {
        RowsIn { nodes: &self.nodes, texts: &self.texts, index }
    }

    /// Writes a pattern for the node with an index and its descendants.
    pub(crate) fn pattern_at(&self, index: usize, flags: Flags) -> Result<Option<String>, Error> {
        match index {
            0 => self.pattern_with_all_names(0, flags),
            _ => pattern_of_part(self.rows_from(index), self.names_by_group()?, &self.info, flags),
        }
    }

    /// The same text, by a call that reads all names, and all rows before those of the node.
    pub(crate) fn pattern_with_all_names(&self, index: usize, flags: Flags) -> Result<Option<String>, Error> {
        pattern_of_rows(self.rows_from(index), &self.names, &self.info, flags)
    }

    fn names_by_group(&self) -> Result<&[Name], Error> {
        match self.by_group.get() {
            Some(names) => Ok(names),
            None => {
                let names = by_group(&self.names)?;
                Ok(self.by_group.get_or_init(|| names))
            }
        }
    }

    pub(crate) fn texts(&self) -> &[u8] {
        &self.texts
    }

    fn name(&self, name: &Name) -> Option<&str> {
        std::str::from_utf8(node::bytes(self.texts(), name.text, name.text_size)?).ok()
    }

    /// Makes these the rows of the empty pattern. The buffers keep their capacities.
    fn clear(&mut self) {
        self.nodes.clear();
        self.nodes.push(Node { kind: numbers::NODE_EMPTY, end: 1, ..Node::default() });
        self.texts.clear();
        self.names.clear();
        self.backrefs.clear();
        self.by_group.take();
        self.info = Info { node_count: 1, ..Info::default() };
    }

    /// The bytes of all buffers.
    fn bytes(&self) -> usize {
        self.nodes.capacity() * size_of::<Node>()
            + self.texts.capacity()
            + self.names.capacity() * size_of::<Name>()
            + self.backrefs.capacity() * size_of::<usize>()
    }

    /// Lets the library write a tree, into buffers that are long enough for nearly all patterns.
    fn fill(&mut self, pattern: &str, bits: u32) -> Result<(), Error> {
        let enough = Guess::of_length(pattern.len());
        if self.nodes.capacity() < enough.nodes || self.texts.capacity() < enough.texts {
            ready()?;
            let guess = Guess::of(pattern);
            guessed(&mut self.nodes, guess.nodes);
            guessed(&mut self.texts, guess.texts);
            guessed(&mut self.names, guess.groups);
            guessed(&mut self.backrefs, guess.groups);
        }
        self.write(pattern, bits)
    }

    /// Lets the library write a tree. If a buffer is too short, the library says what it needs.
    fn write(&mut self, pattern: &str, bits: u32) -> Result<(), Error> {
        let length = pattern.len();
        let mut result = self.call(pattern, bits);
        if result.status == numbers::STATUS_BUFFER_TOO_SHORT {
            self.check_sizes(length)?;
            self.lengthen(result.size, length)?;
            result = self.call(pattern, bits);
        }
        match result.status {
            numbers::STATUS_OK => self.check_sizes(length),
            _ => Err(Error::of(result, pattern, &self.texts)),
        }
    }

    fn call(&mut self, pattern: &str, bits: u32) -> CallResult {
        self.info = Info::default();
        self.by_group.take();
        let Rows { nodes, texts, names, backrefs, info, .. } = self;
        ffi::tree(pattern, bits, nodes, texts, names, backrefs, info)
    }

    /// Checks the sizes of a tree, so that those of no tree are never allocated. It is proved that a pattern of n bytes has at most
    /// 2 n + 1 nodes and back references, 6 n bytes of texts and n rows of names.
    fn check_sizes(&self, length: usize) -> Result<(), Error> {
        let info = &self.info;
        let nodes = length.saturating_mul(2).saturating_add(1);
        if info.node_count > nodes
            || info.backref_count > nodes
            || info.texts_size > length.saturating_mul(6)
            || info.name_count > length
        {
            return Err(Error::Library("a tree that is larger than any"));
        }
        Ok(())
    }

    /// Makes each buffer as long as the library said that it has to be, for the tree of a pattern of this length, or for a message.
    fn lengthen(&mut self, message: usize, length: usize) -> Result<(), Error> {
        let info = self.info;
        if message > length.saturating_mul(6).saturating_add(128).saturating_mul(64) {
            return Err(Error::Library("a text that is longer than any"));
        }
        reserve(&mut self.nodes, info.node_count)?;
        reserve(&mut self.texts, info.texts_size.max(message))?;
        reserve(&mut self.names, info.name_count)?;
        reserve(&mut self.backrefs, info.backref_count)
    }

    /// Checks that the sizes of a tree are within the buffers, its root is the first row, and its names are texts.
    fn check_buffers(&self) -> Result<(), Error> {
        let info = &self.info;
        if info.node_count != self.nodes.len()
            || info.texts_size != self.texts.len()
            || info.name_count != self.names.len()
            || info.backref_count != self.backrefs.len()
        {
            return Err(Error::Library("a tree that is larger than its buffers"));
        }
        if self.nodes.first().is_none_or(|root| root.end != info.node_count) {
            return Err(Error::Library("a node that is in no tree"));
        }
        if self.names.iter().any(|name| self.name(name).is_none()) {
            return Err(Error::Library("a name that is not UTF-8"));
        }
        Ok(())
    }

    /// Checks that what the library wrote is a tree, so that nobody who looks at it later has to.
    fn check(&self, pattern: &str) -> Result<(), Error> {
        self.check_buffers()?;
        let checked = checked::check_tree(&self.nodes, Texts::to_check(&self.texts), pattern);
        checked.map_err(|what| self.refused(what))
    }
}

impl fmt::Debug for Rows {
    fn fmt(&self, f: &mut fmt::Formatter<'_>) -> fmt::Result {
        f.debug_list().entries(self.root().walk()).finish()
    }
}

#[cfg(test)]
mod tests {
    use super::*;
    use crate::{parse, Flags};

    /// The rows of a pattern, in buffers that have these capacities at first.
    fn parsed(pattern: &str, [nodes, texts, names, backrefs]: [usize; 4]) -> Result<Rows, Error> {
        let mut rows = Rows {
            nodes: Vec::with_capacity(nodes),
            texts: Vec::with_capacity(texts),
            names: Vec::with_capacity(names),
            backrefs: Vec::with_capacity(backrefs),
            info: Info::default(),
            by_group: OnceLock::new(),
        };
        rows.write(pattern, Flags::UNICODE.bits())?;
        rows.check(pattern)?;
        Ok(rows)
    }

    /// What buffers have to hold: a tree, or the message of an error.
    fn sizes(outcome: &Result<Rows, Error>) -> [usize; 4] {
        match outcome {
            Ok(rows) => [rows.nodes.len(), rows.texts.len(), rows.names.len(), rows.backrefs.len()],
            Err(error) => [0, error.kind().map_or(0, |kind| kind.to_string().len()), 0, 0],
        }
    }

    #[test]
    fn a_buffer_that_is_too_short_is_made_longer() {
        let long = r"\h[a-z]é|".repeat(9) + r"(?<n>\h)(?<m>b)\k<n>\2\k<m>";
        for pattern in ["", "a", r"(?<n>a|b)(?<m>c)\k<n>\2d*", &long, r"a\q", "(?z)", "(((", r"\k<nnnnn>(?<nnnnn>a)"] {
            let wanted = parse(pattern, Flags::UNICODE);
            let large = parsed(pattern, [10_000; 4]);
            let exact = sizes(&large);
            assert_eq!(large.map(|rows| rows.to_tree()), wanted, "{pattern}");
            for buffer in 0..4 {
                for size in [0, exact[buffer].saturating_sub(1), exact[buffer], exact[buffer] + 1] {
                    let mut capacities = exact;
                    capacities[buffer] = size;
                    let rows = parsed(pattern, capacities);
                    assert_eq!(sizes(&rows), exact, "{pattern} {capacities:?}");
                    assert_eq!(rows.map(|rows| rows.to_tree()), wanted, "{pattern} {capacities:?}");
                }
            }
        }
    }

    #[test]
    fn a_thread_keeps_no_large_buffers() {
        for pattern in ["a".repeat(1_000_000), format!("[{}]", "a".repeat(1_000_000)), "(?<n>a)".repeat(20_000)] {
            drop(parse(&pattern, Flags::UNICODE));
            assert_eq!(with_kept(|rows| rows.bytes()), size_of::<Node>());
            assert!(parse("(?<n>a)", Flags::UNICODE).is_ok());
            let kept = with_kept(|rows| rows.bytes());
            assert!(size_of::<Node>() < kept && kept <= MOST_KEPT);
        }
    }
}
