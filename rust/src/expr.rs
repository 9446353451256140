//! The types of trees, and the functions on them.

use crate::{Assertion, BacktrackingControlVerb, LookAround};

/// A node of a tree, with its children, under the names of fancy-regex 0.20.0. Each variant is documented with a pattern that
/// is parsed as one.
///
/// Trees can be built and changed by hand, and then need not be the tree of any pattern. Dropping, cloning, comparing and
/// formatting a tree recurse into it. The tree of a pattern has at most 832 levels.
#[derive(Debug, Clone, PartialEq, Eq)]
#[non_exhaustive]
pub enum Expr {
    /// The empty pattern, also as `(?:)`: matches the empty text.
    Empty,
    /// Any character: `.`, `\O`, `\N`.
    Any {
        /// Whether it also matches a line feed.
        newline: bool,
        /// Whether CR is a line terminator too, and CR LF a single one.
        crlf: bool,
    },
    /// A zero-width assertion: `^`, `\b`.
    Assertion(Assertion),
    /// Any line break: `\R`.
    GeneralNewline {
        /// Whether Unicode's line breaks count too.
        unicode: bool,
    },
    /// A literal text: `a`. In the tree of a pattern each holds one character.
    Literal {
        /// The text, with escapes replaced by their characters.
        val: String,
        /// Whether it is case-insensitive.
        casei: bool,
    },
    /// Literal bytes, which need not be UTF-8: `\xFF` without [`Flags::UNICODE`](crate::Flags::UNICODE).
    LiteralBytes {
        /// The bytes. In the tree of a pattern it is a single one, from 0x80 to 0xFF.
        bytes: Vec<u8>,
    },
    /// A concatenation: `ab`.
    Concat(Vec<Expr>),
    /// An alternation: `a|b`.
    Alt(Vec<Expr>),
    /// A capturing group: `(a)`, `(?<n>a)`. The k-th in preorder has the number k; names are in
    /// [`GroupInfo::named_groups`](crate::GroupInfo::named_groups).
    Group(Box<Expr>),
    /// A look-around: `(?=a)`, `(?<!a)`.
    LookAround(Box<Expr>, LookAround),
    /// A repetition: `a*`, `a{2,3}?`.
    Repeat {
        /// What is repeated.
        child: Box<Expr>,
        /// The minimum number of repetitions.
        lo: usize,
        /// The maximum number of repetitions; `usize::MAX` for no limit.
        hi: usize,
        /// Whether it is greedy.
        greedy: bool,
    },
    /// A character class, a class escape or a property, as its text: `[a-z]`, `\d`, `\p{Greek}`.
    Delegate {
        /// The text. It can differ from what the pattern has: a class is rewritten while it is parsed.
        inner: String,
        /// Whether it is case-insensitive.
        casei: bool,
    },
    /// A back reference: `\1`, `\k<n>`.
    Backref {
        /// The number, which may be 0, and need not be the number of a group.
        group: usize,
        /// Whether it is case-insensitive.
        casei: bool,
    },
    /// A back reference with a recursion level: `\k<1+3>`.
    BackrefWithRelativeRecursionLevel {
        /// The number, as in `Backref`.
        group: usize,
        /// The recursion level, relative to the current one.
        relative_level: isize,
        /// Whether it is case-insensitive.
        casei: bool,
    },
    /// An atomic group, also of a possessive quantifier: `(?>a)`, `a++`.
    AtomicGroup(Box<Expr>),
    /// `\K`: the match begins here.
    KeepOut,
    /// `\G`: the position where the previous match ended.
    ContinueFromPreviousMatchEnd,
    /// A condition that is true if a group has matched, as in `(?(1)a|b)`.
    BackrefExistsCondition {
        /// The number, which need not be the number of a group.
        group: usize,
        /// The recursion level, relative to the current one, if there is one.
        relative_recursion_level: Option<isize>,
    },
    /// A conditional: `(?(1)a|b)`.
    Conditional {
        /// The condition.
        condition: Box<Expr>,
        /// What must match if the condition is true.
        true_branch: Box<Expr>,
        /// What must match if it is false; `Empty` if the pattern has no second branch.
        false_branch: Box<Expr>,
    },
    /// A subroutine call of the group of this number, which need not be the number of a group: `\g<1>`. 0 is the whole
    /// pattern.
    SubroutineCall(usize),
    /// A backtracking control verb: `(*FAIL)`.
    BacktrackingControlVerb(BacktrackingControlVerb),
    /// An absent form of Oniguruma's: `(?~a)`.
    Absent(Absent),
    /// Definitions, which match nothing here and can be called: `(?(DEFINE)(a))`.
    DefineGroup {
        /// The contents of the group.
        definitions: Box<Expr>,
    },
    /// A node before its references are resolved, with its position in the pattern (a byte offset). In the tree of a pattern
    /// it is a subroutine call that cannot be resolved, such as `\g<b>` if no group has the name `b`.
    AstNode(AstNode, usize),
}

/// What a reference names.
#[derive(Debug, Clone, PartialEq, Eq)]
#[non_exhaustive]
pub enum CaptureGroupTarget {
    /// A group by its number.
    ByNumber(usize),
    /// A group by its name.
    ByName(String),
    /// A group by its distance: -1 is the last one that opened before the reference.
    Relative(isize),
}

/// A node before its references are resolved. Each counts as a leaf. In the tree of a pattern only `SubroutineCall` occurs.
#[derive(Debug, Clone, PartialEq, Eq)]
#[non_exhaustive]
pub enum AstNode {
    /// A capturing group.
    AstGroup {
        /// The group's name, if it has one.
        name: Option<String>,
        /// The contents of the group.
        inner: Box<Expr>,
    },
    /// A back reference.
    Backref {
        /// The group that it refers to.
        target: CaptureGroupTarget,
        /// Whether it is case-insensitive.
        casei: bool,
        /// The recursion level, relative to the current one, if there is one.
        relative_recursion_level: Option<isize>,
    },
    /// A subroutine call.
    SubroutineCall(CaptureGroupTarget),
    /// A condition that is true if a group has matched.
    BackrefExistsCondition {
        /// The group that it refers to.
        target: CaptureGroupTarget,
        /// The recursion level, relative to the current one, if there is one.
        relative_recursion_level: Option<isize>,
    },
}

/// Oniguruma's absent forms, each about what the text must not contain.
#[derive(Debug, Clone, PartialEq, Eq)]
#[non_exhaustive]
pub enum Absent {
    /// An [`AbsentKind::Repeater`](crate::AbsentKind::Repeater), with its child.
    Repeater(Box<Expr>),
    /// An [`AbsentKind::Expression`](crate::AbsentKind::Expression), with its children.
    Expression {
        /// What the text must not contain.
        absent: Box<Expr>,
        /// What the text must match.
        exp: Box<Expr>,
    },
    /// An [`AbsentKind::Stopper`](crate::AbsentKind::Stopper), with its child.
    Stopper(Box<Expr>),
    /// An [`AbsentKind::Clear`](crate::AbsentKind::Clear).
    Clear,
}

/// The children of a node, in the order of the pattern: [`Expr::children_iter`].
#[derive(Debug, Clone)]
pub struct ExprChildrenIter<'a> {
    many: std::slice::Iter<'a, Expr>,
    few: [Option<&'a Expr>; 3],
}

/// The children of a node, to be changed: [`Expr::children_iter_mut`].
#[derive(Debug)]
pub struct ExprChildrenIterMut<'a> {
    many: std::slice::IterMut<'a, Expr>,
    few: [Option<&'a mut Expr>; 3],
}

/// A node and its descendants in preorder: [`Expr::walk`].
#[derive(Debug, Clone)]
pub struct Walk<'a> {
    ahead: Vec<&'a Expr>,
}

impl Expr {
    /// The name of the node's variant.
    ///
    /// ```
    /// use fancy_syntax::Expr;
    /// assert_eq!(Expr::KeepOut.kind_name(), "KeepOut");
    /// ```
    pub fn kind_name(&self) -> &'static str {
        match self {
            Expr::Empty => "Empty",
            Expr::Any { .. } => "Any",
            Expr::Assertion(_) => "Assertion",
            Expr::GeneralNewline { .. } => "GeneralNewline",
            Expr::Literal { .. } => "Literal",
            Expr::LiteralBytes { .. } => "LiteralBytes",
            Expr::Concat(_) => "Concat",
            Expr::Alt(_) => "Alt",
            Expr::Group(_) => "Group",
            Expr::LookAround(..) => "LookAround",
            Expr::Repeat { .. } => "Repeat",
            Expr::Delegate { .. } => "Delegate",
            Expr::Backref { .. } => "Backref",
            Expr::BackrefWithRelativeRecursionLevel { .. } => "BackrefWithRelativeRecursionLevel",
            Expr::AtomicGroup(_) => "AtomicGroup",
            Expr::KeepOut => "KeepOut",
            Expr::ContinueFromPreviousMatchEnd => "ContinueFromPreviousMatchEnd",
            Expr::BackrefExistsCondition { .. } => "BackrefExistsCondition",
            Expr::Conditional { .. } => "Conditional",
            Expr::SubroutineCall(_) => "SubroutineCall",
            Expr::BacktrackingControlVerb(_) => "BacktrackingControlVerb",
            Expr::Absent(_) => "Absent",
            Expr::DefineGroup { .. } => "DefineGroup",
            Expr::AstNode(..) => "AstNode",
        }
    }

    /// Whether the node is of a kind that has no children. An [`AstNode`] counts as such.
    ///
    /// ```
    /// use fancy_syntax::Expr;
    /// assert!(Expr::KeepOut.is_leaf_node());
    /// assert!(!Expr::Group(Box::new(Expr::Empty)).is_leaf_node());
    /// ```
    pub fn is_leaf_node(&self) -> bool {
        match self {
            Expr::Concat(_)
            | Expr::Alt(_)
            | Expr::Group(_)
            | Expr::LookAround(..)
            | Expr::Repeat { .. }
            | Expr::AtomicGroup(_)
            | Expr::Conditional { .. }
            | Expr::DefineGroup { .. } => false,
            Expr::Absent(absent) => *absent == Absent::Clear,
            _ => true,
        }
    }

    /// The children of the node, in the order of the pattern.
    ///
    /// ```
    /// use fancy_syntax::{parse, Flags};
    /// let tree = parse("(?(1)a|b)", Flags::UNICODE)?;
    /// assert_eq!(tree.expr.children_iter().count(), 3);
    /// # Ok::<(), fancy_syntax::Error>(())
    /// ```
    pub fn children_iter(&self) -> ExprChildrenIter<'_> {
        let (many, few): (&[Expr], _) = match self {
            Expr::Concat(children) | Expr::Alt(children) => (children, [None; 3]),
            Expr::Group(child)
            | Expr::LookAround(child, _)
            | Expr::Repeat { child, .. }
            | Expr::AtomicGroup(child)
            | Expr::Absent(Absent::Repeater(child) | Absent::Stopper(child))
            | Expr::DefineGroup { definitions: child } => (&[], [Some(&**child), None, None]),
            Expr::Absent(Absent::Expression { absent, exp }) => (&[], [Some(&**absent), Some(&**exp), None]),
            Expr::Conditional { condition, true_branch, false_branch } => {
                (&[], [Some(&**condition), Some(&**true_branch), Some(&**false_branch)])
            }
            _ => (&[], [None; 3]),
        };
        ExprChildrenIter { many: many.iter(), few }
    }

    /// The children of the node, to be changed.
    ///
    /// ```
    /// use fancy_syntax::{parse, Expr, Flags};
    /// let mut tree = parse("ab", Flags::UNICODE)?;
    /// for child in tree.expr.children_iter_mut() {
    ///     *child = Expr::Empty;
    /// }
    /// assert_eq!(tree.expr, Expr::Concat(vec![Expr::Empty, Expr::Empty]));
    /// # Ok::<(), fancy_syntax::Error>(())
    /// ```
    pub fn children_iter_mut(&mut self) -> ExprChildrenIterMut<'_> {
        let (many, few): (&mut [Expr], _) = match self {
            Expr::Concat(children) | Expr::Alt(children) => (children, [None, None, None]),
            Expr::Group(child)
            | Expr::LookAround(child, _)
            | Expr::Repeat { child, .. }
            | Expr::AtomicGroup(child)
            | Expr::Absent(Absent::Repeater(child) | Absent::Stopper(child))
            | Expr::DefineGroup { definitions: child } => (&mut [], [Some(&mut **child), None, None]),
            Expr::Absent(Absent::Expression { absent, exp }) => {
                (&mut [], [Some(&mut **absent), Some(&mut **exp), None])
            }
            Expr::Conditional { condition, true_branch, false_branch } => {
                (&mut [], [Some(&mut **condition), Some(&mut **true_branch), Some(&mut **false_branch)])
            }
            _ => (&mut [], [None, None, None]),
        };
        ExprChildrenIterMut { many: many.iter_mut(), few }
    }

    /// The node and its descendants in preorder: each node before its children, and these in the order of the pattern. It does
    /// not recurse. [`Tree::walk`](crate::Tree::walk) has the spans too.
    ///
    /// ```
    /// use fancy_syntax::{parse, Expr, Flags};
    /// let tree = parse("(a|b)c*", Flags::UNICODE)?;
    /// let literals = tree.expr.walk().filter(|node| matches!(node, Expr::Literal { .. }));
    /// assert_eq!(literals.count(), 3);
    /// # Ok::<(), fancy_syntax::Error>(())
    /// ```
    pub fn walk(&self) -> Walk<'_> {
        Walk { ahead: vec![self] }
    }

    /// Whether the predicate is true of some node below this one. It does not test the node itself.
    ///
    /// ```
    /// use fancy_syntax::{parse, Expr, Flags};
    /// let tree = parse("(a+)", Flags::UNICODE)?;
    /// assert!(tree.expr.has_descendant(|node| matches!(node, Expr::Repeat { hi: usize::MAX, .. })));
    /// # Ok::<(), fancy_syntax::Error>(())
    /// ```
    pub fn has_descendant(&self, predicate: impl Fn(&Expr) -> bool) -> bool {
        self.walk().skip(1).any(predicate)
    }
}

impl<'a> Iterator for ExprChildrenIter<'a> {
    type Item = &'a Expr;

    fn next(&mut self) -> Option<&'a Expr> {
        self.many.next().or_else(|| self.few.iter_mut().find_map(Option::take))
    }
}

impl<'a> Iterator for ExprChildrenIterMut<'a> {
    type Item = &'a mut Expr;

    fn next(&mut self) -> Option<&'a mut Expr> {
        self.many.next().or_else(|| self.few.iter_mut().find_map(Option::take))
    }
}

impl<'a> Iterator for Walk<'a> {
    type Item = &'a Expr;

    fn next(&mut self) -> Option<&'a Expr> {
        let node = self.ahead.pop()?;
        let first = self.ahead.len();
        self.ahead.extend(node.children_iter());
        self.ahead[first..].reverse();
        Some(node)
    }
}
