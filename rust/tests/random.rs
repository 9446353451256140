//! Random strings as patterns. `RANDOM_STRINGS` says how many, `RANDOM_SEED` which, and `RANDOM_RECORDS` names a file to which
//! the results are written as the records of `crates/conformance/data`, for another program to compare.

mod common;

use common::*;
use fancy_syntax::{
    check, format_pattern, parse, parse_without_spans, print, to_pattern, trivia, AstNode, CompactTree, Error, Expr,
    Flags, Kind, NodeRef, Precedence, Rows, Style, Tree,
};
use std::fs::File;
use std::io::{BufWriter, Write};

const PIECES: &[&str] = &[
    "(",
    ")",
    "(?:",
    "(?i)",
    "(?<n>",
    "(?'n'",
    "(?P<m>",
    "(?>",
    "(?=",
    "(?!",
    "(?<=",
    "(?<!",
    "(?~",
    "(?~|",
    "(?(1)",
    "(?(<n>)",
    "(?(DEFINE)",
    "(?#",
    "(?x-i:",
    "[",
    "]",
    "[^",
    "&&",
    "[:alpha:]",
    "|",
    "*",
    "+",
    "?",
    "{2,3}",
    "{,4}",
    "{",
    "}",
    "^",
    "$",
    ".",
    "\\",
    "\\d",
    "\\b",
    "\\b{start}",
    "\\p{",
    "\\p{Greek}",
    "\\x{41}",
    "\\xff",
    "\\h",
    "\\1",
    "\\12",
    "\\k<n>",
    "\\k<-1>",
    "\\k<n+1>",
    "\\g<n>",
    "\\g<0>",
    "\\g<+1>",
    "(?&n)",
    "(?P=n)",
    "(*FAIL)",
    "(*X)",
    "\\K",
    "\\G",
    "\\R",
    "\\Q",
    "#",
    " ",
    "\n",
    "a",
    "b",
    "0",
    "1",
    "n",
    "-",
    "<",
    ">",
    "'",
    "!",
    "=",
    ":",
    ",",
    "é",
    "α",
    "€",
    "😀",
];

/// xorshift64
struct Random(u64);

impl Random {
    fn below(&mut self, bound: usize) -> usize {
        self.0 ^= self.0 << 13;
        self.0 ^= self.0 >> 7;
        self.0 ^= self.0 << 17;
        (self.0 >> 11) as usize % bound
    }

    fn character(&mut self) -> char {
        let bound = if self.below(2) == 0 { 0x80 } else { 0x11_0000 };
        char::from_u32(self.below(bound) as u32).unwrap_or('a')
    }

    /// Up to ten parts: characters, or pieces of patterns, or pieces among which some characters are.
    fn pattern(&mut self) -> String {
        let kind = self.below(4);
        let mut pattern = String::new();
        for _ in 0..self.below(10) {
            if kind == 0 || kind == 1 && self.below(4) == 0 {
                pattern.push(self.character());
            } else {
                pattern.push_str(PIECES[self.below(PIECES.len())]);
            }
        }
        pattern
    }
}

/// The tree with the positions of unresolved calls set to 0, which a text for the tree need not keep.
fn without_positions(mut expr: Expr) -> Expr {
    fn clear(node: &mut Expr) {
        if let Expr::AstNode(AstNode::SubroutineCall(_), position) = node {
            *position = 0;
        }
        node.children_iter_mut().for_each(clear);
    }
    clear(&mut expr);
    expr
}

/// Checks the spans of a tree: each is in that of the parent, and children follow one another.
fn check_spans(pattern: &str, tree: &Tree) {
    assert_eq!(tree.spans.len(), tree.expr.walk().count());
    fn within<'a>(node: &Expr, spans: &mut impl Iterator<Item = &'a fancy_syntax::Span>) -> (usize, usize) {
        let span = spans.next().unwrap();
        let mut from = span.start;
        for child in node.children_iter() {
            let (start, stop) = within(child, spans);
            assert!(from <= start && stop <= span.end);
            from = stop;
        }
        (span.start, span.end)
    }
    within(&tree.expr, &mut tree.spans.iter());
    assert!(tree.spans.iter().all(|span| pattern.get(span.clone()).is_some()));
}

/// Checks that what no node has follows one another.
fn check_trivia(pattern: &str, flags: Flags) {
    let mut end = 0;
    for it in trivia(pattern, flags).unwrap() {
        assert!(end <= it.span.start && it.span.start < it.span.end, "{pattern}");
        end = it.span.end;
    }
}

/// Checks that what a pattern is formatted to is parsed as its tree, and is formatted already.
fn check_formatted(pattern: &str, flags: Flags, tree: &Tree) {
    for style in [Style::Kept, Style::Verbose { width: 30 }, Style::Compact] {
        let text = format_pattern(pattern, flags, style).unwrap();
        let again = parse(&text, flags).unwrap();
        assert_eq!(without_positions(again.expr), without_positions(tree.expr.clone()), "{pattern} {text}");
        assert_eq!(again.groups, tree.groups, "{pattern} {text}");
        assert_eq!(format_pattern(&text, flags, style).unwrap(), text, "{pattern}");
    }
}

fn check_tree(pattern: &str, flags: Flags, tree: &Tree) {
    check_spans(pattern, tree);
    check_trivia(pattern, flags);
    check_formatted(pattern, flags, tree);
    let text = to_pattern(pattern, flags).unwrap();
    assert_eq!(tree.to_pattern(flags).unwrap().as_ref(), Some(&text));
    let again = parse(&text, flags).unwrap();
    assert_eq!(without_positions(again.expr), without_positions(tree.expr.clone()), "{pattern} {text}");
    assert_eq!(again.groups, tree.groups, "{pattern} {text}");
    assert_eq!(to_pattern(&text, flags).unwrap(), text);
    for precedence in [Precedence::Whole, Precedence::Branch, Precedence::Piece, Precedence::Operand] {
        let printed = print(pattern, flags, precedence).unwrap();
        assert_eq!(tree.expr.print(precedence).unwrap(), printed);
        if let Some(text) = printed {
            assert!(matches!(parse(&text, Flags::UNICODE), Ok(_) | Err(Error::ParseError(..))));
        }
    }
}

/// Checks that each part of a tree has the text of the owned part, and that what is written for a part is parsed as the part.
fn check_rows(rows: &Rows, flags: Flags, tree: &Tree) {
    let mut groups = 0;
    for (node, (expr, _)) in rows.root().walk().zip(tree.walk()) {
        groups += usize::from(matches!(expr, Expr::Group(_)));
        assert_eq!(node.group(), matches!(expr, Expr::Group(_)).then_some(groups));
        assert_eq!(node.print(Precedence::Branch).unwrap(), expr.print(Precedence::Branch).unwrap());
        if let Some(text) = node.to_pattern(flags).unwrap() {
            assert_eq!(without_positions(parse(&text, flags).unwrap().expr), without_positions(expr.clone()), "{text}");
        }
    }
    assert_eq!(groups, tree.groups.total_groups);
    assert_eq!(rows.to_pattern(flags), tree.to_pattern(flags));
}

/// Checks that the literals among the children of a node are the same text one by one and together.
fn check_literals(node: NodeRef<'_>) {
    let each = node.children().filter_map(|child| match child.kind() {
        Kind::Literal { val, casei } => Some((val, casei)),
        _ => None,
    });
    let mut together = Vec::new();
    let mut children = node.children();
    loop {
        match children.next_literals() {
            Some((text, casei)) => together.extend(text.chars().map(|c| (c, casei))),
            None if children.next().is_none() => break,
            None => {}
        }
    }
    assert!(each.map(|(val, casei)| (val.parse().unwrap(), casei)).eq(together));
    // after a run is something else, or another `casei`
    if let Some((text, casei)) = node.children().next_literals() {
        let after = node.children().nth(text.chars().count()).map(NodeRef::kind);
        assert!(!matches!(after, Some(Kind::Literal { casei: other, .. }) if other == casei));
    }
}

/// Checks that a compact tree has the nodes of the rows, each with the same texts and the same owned tree.
fn check_compact(compact: &CompactTree, rows: &Rows, flags: Flags, tree: &Tree) {
    assert_eq!((compact, &compact.to_tree()), (&compact.clone(), tree));
    assert_eq!(compact.to_pattern(flags), rows.to_pattern(flags));
    let indices = |node: NodeRef<'_>| node.children().map(NodeRef::index).collect::<Vec<_>>();
    assert_eq!(compact.root().walk().len(), rows.root().walk().len());
    for (node, row) in compact.root().walk().zip(rows.root().walk()) {
        assert_eq!((node.kind(), node.span(), node.group()), (row.kind(), row.span(), row.group()));
        assert_eq!((node.index(), node.end(), indices(node)), (row.index(), row.end(), indices(row)));
        check_literals(node);
        check_literals(row);
        assert_eq!(node.to_expr(), row.to_expr());
        assert_eq!(node.print(Precedence::Piece), row.print(Precedence::Piece));
        assert_eq!(node.to_pattern(flags), row.to_pattern(flags));
        assert_eq!(node.character_ranges(flags), row.character_ranges(flags));
    }
}

/// Changes a tree, and checks that what is written for it, if anything, is parsed as it.
fn check_changed(random: &mut Random, flags: Flags, tree: &Tree) {
    let mut changed = tree.clone();
    let mut node = &mut changed.expr;
    while random.below(3) > 0 {
        let children = node.children_iter().count();
        if children == 0 {
            break;
        }
        node = node.children_iter_mut().nth(random.below(children)).unwrap();
    }
    let old = std::mem::replace(node, Expr::Empty);
    *node = match random.below(5) {
        0 => Expr::KeepOut,
        1 => Expr::Repeat { child: Box::new(old), lo: 1, hi: random.below(4), greedy: true },
        2 => Expr::AtomicGroup(Box::new(old)),
        3 => Expr::Concat(vec![Expr::Any { newline: false, crlf: false }, old]),
        _ => Expr::Backref { group: random.below(3), casei: false },
    };
    if let Some(text) = changed.to_pattern(flags).unwrap() {
        let again = parse(&text, flags).unwrap();
        assert_eq!(without_positions(again.expr), without_positions(changed.expr), "{text}");
    }
}

fn check_error(pattern: &str, flags: Flags, error: &Error) {
    let Error::ParseError(position, _) = error else { panic!("{pattern}: {error}") };
    assert!(*position == pattern.len() + 1 || pattern.is_char_boundary(*position));
    assert_eq!(to_pattern(pattern, flags).as_ref(), Err(error));
    assert_eq!(print(pattern, flags, Precedence::Whole).as_ref(), Err(error));
    assert_eq!(trivia(pattern, flags).as_ref(), Err(error));
    assert_eq!(format_pattern(pattern, flags, Style::Kept).as_ref(), Err(error));
}

#[test]
fn random_strings() {
    let number = |name, or| std::env::var(name).map_or(or, |number| number.parse::<u64>().unwrap());
    let count = number("RANDOM_STRINGS", 10_000);
    let records = std::env::var_os("RANDOM_RECORDS");
    let mut records = records.map(|file| BufWriter::new(File::create(file).unwrap()));
    // far apart, also for seeds that follow one another
    let mut random = Random((number("RANDOM_SEED", 0) + 1).wrapping_mul(0x9E37_79B9_7F4A_7C15));
    let mut rows = Rows::new();
    let mut invalid = 0;
    for _ in 0..count {
        let pattern = random.pattern();
        let flags = Flags::from_bits_truncate(random.below(Flags::all().bits() as usize + 1) as u32);
        let outcome = parse(&pattern, flags);
        assert_eq!(check(&pattern, flags), outcome.clone().map(drop));
        match &outcome {
            Ok(tree) => {
                check_tree(&pattern, flags, tree);
                assert_eq!(rows.parse(&pattern, flags).unwrap().to_tree(), *tree);
                assert_eq!(Rows::new().parse(&pattern, flags).unwrap().to_tree(), *tree);
                check_rows(&rows, flags, tree);
                check_compact(&CompactTree::parse(&pattern, flags).unwrap(), &rows, flags, tree);
                check_changed(&mut random, flags, tree);
                let bare = parse_without_spans(&pattern, flags).unwrap();
                assert_eq!((&bare.expr, &bare.groups, bare.spans.len()), (&tree.expr, &tree.groups, 0));
                assert_eq!(CompactTree::parse_without_spans(&pattern, flags).unwrap().to_tree(), bare);
            }
            Err(error) => {
                check_error(&pattern, flags, error);
                assert_eq!(rows.parse(&pattern, flags).unwrap_err(), *error);
                assert_eq!(CompactTree::parse(&pattern, flags).unwrap_err(), *error);
                invalid += 1;
            }
        }
        if let Some(file) = &mut records {
            let (status, output, error) = recorded_of(&pattern, flags, &outcome);
            let (pattern, output, error) = (hex(pattern.as_bytes()), hex(output.as_bytes()), hex(error.as_bytes()));
            writeln!(file, "{}\t{pattern}\t{status}\t{output}\t{error}", letters_of(flags)).unwrap();
        }
    }
    println!("{count} random strings, {invalid} of them invalid");
}
