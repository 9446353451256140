//! Owned trees, built from the rows that the library wrote.

use crate::ffi::Node;
use crate::node::{Kind, Texts};
use crate::{Absent, AbsentKind, Expr};

/// Builds trees from the first row to the last: each node is put at once where its parent holds it.
pub(crate) struct Builder<'a> {
    nodes: &'a [Node],
    texts: Texts<'a>,
    /// The index of the next row.
    next: usize,
}

impl<'a> Builder<'a> {
    pub(crate) fn at(nodes: &'a [Node], texts: Texts<'a>, index: usize) -> Builder<'a> {
        Builder { nodes, texts, next: index }
    }

    /// The tree of the next rows, with at most so many levels; `None` if they are no tree.
    pub(crate) fn tree(&mut self, levels: usize) -> Option<Expr> {
        let row = self.nodes.get(self.next)?;
        let below = levels.checked_sub(1)?;
        self.next += 1;
        let kind = Kind::read(row, self.texts)?;
        if row.end == self.next {
            return kind.alone();
        }
        let end = row.end;
        Some(match kind {
            Kind::Concat => Expr::Concat(self.trees(end, below)?),
            Kind::Alt => Expr::Alt(self.trees(end, below)?),
            Kind::Group => Expr::Group(self.last(end, below)?),
            Kind::LookAround(which) => Expr::LookAround(self.last(end, below)?, which),
            Kind::Repeat { lo, hi, greedy } => Expr::Repeat { child: self.last(end, below)?, lo, hi, greedy },
            Kind::AtomicGroup => Expr::AtomicGroup(self.last(end, below)?),
            Kind::Conditional => Expr::Conditional {
                condition: self.child(below)?,
                true_branch: self.child(below)?,
                false_branch: self.last(end, below)?,
            },
            Kind::Absent(AbsentKind::Repeater) => Expr::Absent(Absent::Repeater(self.last(end, below)?)),
            Kind::Absent(AbsentKind::Expression) => {
                Expr::Absent(Absent::Expression { absent: self.child(below)?, exp: self.last(end, below)? })
            }
            Kind::Absent(AbsentKind::Stopper) => Expr::Absent(Absent::Stopper(self.last(end, below)?)),
            Kind::DefineGroup => Expr::DefineGroup { definitions: self.last(end, below)? },
            Kind::Empty
            | Kind::Any { .. }
            | Kind::Assertion(_)
            | Kind::GeneralNewline { .. }
            | Kind::Literal { .. }
            | Kind::LiteralBytes { .. }
            | Kind::Delegate { .. }
            | Kind::Backref { .. }
            | Kind::BackrefWithRelativeRecursionLevel { .. }
            | Kind::KeepOut
            | Kind::ContinueFromPreviousMatchEnd
            | Kind::BackrefExistsCondition { .. }
            | Kind::SubroutineCall(_)
            | Kind::BacktrackingControlVerb(_)
            | Kind::Absent(AbsentKind::Clear)
            | Kind::AstNode(..) => return None,
        })
    }

    fn child(&mut self, levels: usize) -> Option<Box<Expr>> {
        self.tree(levels).map(Box::new)
    }

    /// The last child of a node whose rows end at an index.
    fn last(&mut self, end: usize, levels: usize) -> Option<Box<Expr>> {
        let child = self.child(levels)?;
        (self.next == end).then_some(child)
    }

    /// The trees of the rows up to an index, in a list that is as long as it has to be.
    fn trees(&mut self, end: usize, levels: usize) -> Option<Vec<Expr>> {
        let mut trees = Vec::with_capacity(self.count(end)?);
        while self.next < end {
            match self.tree(levels) {
                Some(tree) => trees.push(tree),
                None => return None,
            }
        }
        Some(trees)
    }

    /// How many trees the rows up to an index are.
    fn count(&self, end: usize) -> Option<usize> {
        let (mut count, mut next) = (0, self.next);
        while next < end {
            let after = self.nodes.get(next)?.end;
            if after <= next {
                return None;
            }
            (count, next) = (count + 1, after);
        }
        (next == end).then_some(count)
    }
}
