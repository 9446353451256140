//! Everything is called and looked at, for whatever the library returns. With libfancy there is no error of the library; with
//! `.ci/strange.c`, which is linked instead where `FANCY_STRANGE` is set, there are many. Nothing may panic.

use fancy_syntax::{
    check, class_ranges, escape, facts, format_pattern, is_resolved, parse, parse_decimal, parse_id, print, to_pattern,
    trivia,
};
use fancy_syntax::{CompactTree, Error, Expr, Flags, GroupInfo, NodeRef, Precedence, Rows, Style, Tree};
use std::collections::BTreeMap;

fn kind_of<T>(outcome: &Result<T, Error>) -> &'static str {
    match outcome {
        Ok(_) => "results",
        Err(Error::OutOfMemory) => "out of memory",
        Err(Error::Version { .. }) => "another version",
        Err(Error::Unknown { what, .. }) => what,
        Err(Error::Library(what)) => what,
        Err(_) => "errors of the pattern",
    }
}

/// Looks at all of a tree.
fn look(root: NodeRef<'_>, tree: Tree, pattern: &str) {
    for node in root.walk() {
        assert!(node.text(pattern).is_some());
        assert!(node.children().all(|child| child.index() > node.index()));
        let _ = node.children().next_literals();
    }
    for node in root.walk().take(2) {
        let _ = node.print(Precedence::Branch);
        let _ = (node.to_pattern(Flags::UNICODE), node.character_ranges(Flags::UNICODE));
    }
    assert_eq!(tree, tree.clone());
    assert_eq!(tree.walk().count(), root.walk().len());
    assert!(tree.walk_groups().all(|(number, _, _)| number <= root.walk().len()));
    assert!(!format!("{root:?}{:?}", tree.groups).is_empty());
}

/// Looks at all of the rows.
fn look_at_rows(rows: &Rows, pattern: &str) {
    look(rows.root(), rows.to_tree(), pattern);
    assert!(rows.names().all(|(name, _)| name.len() < 1 << 20));
    assert!(rows.backrefs().len() <= 64 * (pattern.len() + 64));
    assert!(!format!("{rows:?}").is_empty());
}

/// Looks at all of a compact tree, if there is one.
fn look_at_compact(outcome: &Result<CompactTree, Error>, pattern: &str) {
    if let Ok(tree) = outcome {
        look(tree.root(), tree.to_tree(), pattern);
        assert_eq!(*tree, tree.clone());
        assert!(!format!("{tree:?}").is_empty());
    }
}

#[test]
fn nothing_panics() {
    let rounds = std::env::var("STRANGE_ROUNDS").map_or(100, |rounds| rounds.parse().unwrap());
    let patterns = ["", "a", "é(a|b)c*", r"(?<n>a)\k<n>", r"\q", "((((", &"(é)".repeat(300)];
    let mut outcomes = BTreeMap::<&str, usize>::new();
    let mut rows = Rows::new();
    for round in 0..rounds {
        let pattern = patterns[round % patterns.len()];
        let outcome = rows.parse(pattern, Flags::UNICODE);
        let compact = CompactTree::parse(pattern, Flags::UNICODE);
        let kinds = [
            kind_of(&outcome),
            kind_of(&compact),
            kind_of(&parse(pattern, Flags::all())),
            kind_of(&check(pattern, Flags::empty())),
            kind_of(&trivia(pattern, Flags::UNICODE)),
            kind_of(&to_pattern(pattern, Flags::UNICODE)),
            kind_of(&format_pattern(pattern, Flags::UNICODE, Style::Kept)),
            kind_of(&print(pattern, Flags::UNICODE, Precedence::Whole)),
            kind_of(&is_resolved(pattern, Flags::UNICODE)),
            kind_of(&escape(pattern, Flags::UNICODE)),
            kind_of(&class_ranges(pattern, Flags::UNICODE)),
            kind_of(&facts(pattern, Flags::UNICODE)),
            kind_of(&Expr::Any { newline: false, crlf: false }.character_ranges(Flags::UNICODE)),
            kind_of(&parse_id(pattern)),
            kind_of(&parse_decimal(pattern)),
            kind_of(&Expr::KeepOut.print(Precedence::Whole)),
            kind_of(&Expr::KeepOut.to_pattern(&GroupInfo::default(), Flags::UNICODE)),
        ];
        if let Err(error) = outcome {
            assert!(!error.to_string().is_empty());
            assert!(error.position().is_none_or(|position| position <= pattern.len() + 1));
        }
        look_at_rows(&rows, pattern);
        look_at_compact(&compact, pattern);
        kinds.into_iter().for_each(|kind| *outcomes.entry(kind).or_default() += 1);
    }
    let of_the_library =
        outcomes.keys().filter(|kind| !["results", "out of memory", "errors of the pattern"].contains(kind));
    let of_the_library = of_the_library.count();
    match std::env::var_os("FANCY_STRANGE") {
        None => assert_eq!(of_the_library, 0, "{outcomes:?}"),
        Some(_) => assert!(of_the_library >= 10 && outcomes.contains_key("another version"), "{outcomes:?}"),
    }
    println!("{outcomes:#?}");
}
