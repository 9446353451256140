//! What a failed allocation of the library does: the call returns an error that says so, and the next call has the result of any other. With
//! libfancy no allocation fails here; where `FANCY_REFUSES` is set, it is linked with `.ci/refusing.c`.

use fancy_syntax::{check, class_ranges, escape, facts, format_pattern, is_resolved, parse, print, to_pattern, trivia};
use fancy_syntax::{CompactTree, Error, Flags, Precedence, Rows, Style};
use std::fmt::Debug;

/// Makes a call many times. Each result has to be the same, unless memory was refused. Returns how often it was.
fn refusals<T: Debug + PartialEq>(mut call: impl FnMut() -> Result<T, Error>) -> usize {
    let mut first = None;
    let mut refused = 0;
    for _ in 0..300 {
        match call() {
            Err(Error::OutOfMemory) => refused += 1,
            result => match &first {
                None => first = Some(result),
                Some(first) => assert_eq!(result, *first),
            },
        }
    }
    assert!(first.is_some());
    refused
}

#[test]
fn a_failed_allocation_is_an_error() {
    let mut refused = 0;
    let mut rows = Rows::new();
    for pattern in ["", "(a|b)c*", r"(?<n>[a-z]+)\k<n>", r"a\q", "((a", "(?i)é{2,3}|b"] {
        let flags = Flags::UNICODE;
        refused += refusals(|| parse(pattern, flags));
        refused += refusals(|| CompactTree::parse(pattern, flags));
        refused += refusals(|| rows.parse(pattern, flags).map(Rows::to_tree));
        refused += refusals(|| check(pattern, flags));
        refused += refusals(|| trivia(pattern, flags));
        refused += refusals(|| to_pattern(pattern, flags));
        refused += refusals(|| is_resolved(pattern, flags));
        refused += refusals(|| escape(pattern, flags));
        refused += refusals(|| class_ranges(pattern, flags));
        refused += refusals(|| facts(pattern, flags));
        refused += refusals(|| format_pattern(pattern, flags, Style::Verbose { width: 8 }));
        refused += refusals(|| print(pattern, flags, Precedence::Piece));
        let _ = rows.parse(pattern, flags);
        let root = rows.root();
        let (expr, groups) = (root.to_expr(), rows.groups());
        refused += refusals(|| root.children().last().unwrap_or(root).character_ranges(flags));
        refused += refusals(|| root.print(Precedence::Piece));
        refused += refusals(|| root.to_pattern(flags));
        refused += refusals(|| expr.print(Precedence::Piece));
        refused += refusals(|| expr.to_pattern(&groups, flags));
    }
    println!("{refused} times out of memory");
    assert_eq!(refused > 0, std::env::var_os("FANCY_REFUSES").is_some());
}
