//! Compares what the crate returns with recorded results: `crates/conformance/data` has them, and says how they came about.

mod common;

use common::*;
use fancy_syntax::{check, class_ranges, parse, to_pattern, AstNode, CaptureGroupTarget, Expr, Flags};
use fancy_syntax::{CompactTree, Error, GroupInfo, ParseError, Precedence, Rows, Tree};
use std::ops::RangeInclusive;

fn lines(name: &str) -> Vec<Vec<String>> {
    let file = format!("{}/../crates/conformance/data/{name}.tsv", env!("CARGO_MANIFEST_DIR"));
    let text = std::fs::read_to_string(&file).unwrap_or_else(|error| panic!("{file}: {error}"));
    let fields = |line: &str| line.split('\t').map(str::to_owned).collect();
    text.lines().map(fields).collect()
}

fn pattern_of(field: &str) -> String {
    String::from_utf8(unhex(field)).unwrap()
}

/// Compares each pattern of a file, in an owned tree, in rows that are used for all of them, and in a compact tree. Returns how
/// many there were.
fn compare(name: &str) -> usize {
    let mut rows = Rows::new();
    let mut count = 0;
    for line in lines(name) {
        // fewer fields: a tree to print; flags that are none: an error of the program's
        let [letters, pattern, status, output, error] = &line[..] else { continue };
        let Some(flags) = flags_of(letters) else { continue };
        let pattern = pattern_of(pattern);
        let tree = parse(&pattern, flags);
        let got = recorded_of(&pattern, flags, &tree);
        let wanted = (status.parse().unwrap(), pattern_of(output), pattern_of(error));
        assert_eq!(got, wanted, "{letters} {pattern}");
        assert_eq!(check(&pattern, flags), tree.clone().map(drop));
        let (in_rows, compact) = (rows.parse(&pattern, flags), CompactTree::parse(&pattern, flags));
        match &tree {
            Ok(tree) => {
                let rows = in_rows.unwrap();
                assert_eq!(row_lines(rows.root()), expr_lines(tree));
                assert_eq!(rows.to_tree(), *tree);
                assert_eq!(rows.total_groups(), tree.groups.total_groups);
                let compact = compact.unwrap();
                assert_eq!(row_lines(compact.root()), expr_lines(tree));
                assert_eq!(compact.to_tree(), *tree);
                let bare = CompactTree::parse_without_spans(&pattern, flags).unwrap();
                assert_eq!(bare.to_tree(), Tree { spans: Vec::new(), ..tree.clone() });
            }
            Err(error) => {
                assert_eq!(in_rows.unwrap_err(), *error);
                assert_eq!(compact.unwrap_err(), *error);
            }
        }
        count += 1;
    }
    count
}

/// The files with results of parsing. Two others have trees to print and texts, which are below.
const FILES: [&str; 17] = [
    "classes",
    "damaged",
    "damaged_groups",
    "deep",
    "deep_groups",
    "escapes",
    "groups",
    "layout",
    "lines",
    "long",
    "numbered",
    "oniguruma",
    "printed",
    "random",
    "references",
    "rows",
    "short",
];

#[test]
fn worked_examples() {
    assert_eq!(compare("rows") + compare("numbered"), 399);
}

#[test]
fn all_results() {
    assert_eq!(FILES.map(compare).iter().sum::<usize>(), 22_540);
}

#[test]
fn the_texts() {
    let texts = lines("texts");
    assert_eq!(texts.len(), 3071);
    for line in texts {
        let [word, letters, pattern, text] = &line[..] else { panic!("{line:?}") };
        let (flags, pattern) = (flags_of(letters).unwrap(), pattern_of(pattern));
        assert_eq!((word.as_str(), to_pattern(&pattern, flags)), ("text", Ok(pattern_of(text))), "{letters} {pattern}");
        let tree = parse(&pattern, flags).unwrap();
        assert_eq!(tree.to_pattern(flags), Ok(Some(pattern_of(text))), "{letters} {pattern}");
        let compact = CompactTree::parse(&pattern, flags).unwrap();
        assert_eq!(compact.to_pattern(flags), Ok(Some(pattern_of(text))), "{letters} {pattern}");
    }
}

/// The characters of a node as they are written in `characters.tsv`: the error without its position, and none of a node that does
/// not match one character.
fn characters(ranges: Result<Option<Vec<RangeInclusive<char>>>, Error>) -> String {
    let hexed = |range: &RangeInclusive<char>| format!("{:X}-{:X}", u32::from(*range.start()), u32::from(*range.end()));
    match ranges {
        Ok(Some(ranges)) => ranges.iter().map(hexed).collect::<Vec<_>>().join(" "),
        Ok(None) => "not one character".to_owned(),
        Err(Error::ParseError(_, ParseError::InvalidClass)) => "refused".to_owned(),
        Err(error) => panic!("{error}"),
    }
}

#[test]
fn the_characters_of_nodes() {
    let all = lines("characters");
    assert_eq!(all.len(), 18);
    let mut rows = Rows::new();
    for line in all {
        let [_, letters, pattern, wanted] = &line[..] else { panic!("{line:?}") };
        let (flags, pattern, wanted) = (flags_of(letters).unwrap(), pattern_of(pattern), pattern_of(wanted));
        // what is written of an error begins with its position
        let (position, wanted) = match wanted.split_once("..") {
            Some((position, _)) => (position.parse().ok(), "refused"),
            None => (None, wanted.as_str()),
        };
        let expr = parse(&pattern, flags).unwrap().expr;
        assert_eq!(characters(expr.character_ranges(flags)), wanted, "{letters} {pattern}");
        let node = rows.parse(&pattern, flags).unwrap().root();
        assert_eq!(node.character_ranges(flags), expr.character_ranges(flags), "{letters} {pattern}");
        let compact = CompactTree::parse(&pattern, flags).unwrap();
        assert_eq!(compact.root().character_ranges(flags), expr.character_ranges(flags), "{letters} {pattern}");
        if let Expr::Delegate { inner, casei } = expr {
            let flags = if casei { flags | Flags::CASEI } else { flags - Flags::CASEI };
            let ranges = class_ranges(&inner, flags);
            assert_eq!(ranges.as_ref().map_or_else(Error::position, |_| None), position, "{letters} {pattern}");
            assert_eq!(characters(ranges), wanted, "{letters} {pattern}");
        }
    }
}

#[test]
fn trees_that_no_pattern_has() {
    let node =
        AstNode::Backref { target: CaptureGroupTarget::ByNumber(1), casei: false, relative_recursion_level: None };
    let unresolved = Expr::AstNode(node, 0);
    assert_eq!(unresolved.print(Precedence::Whole), Ok(None));
    assert_eq!(unresolved.to_pattern(&GroupInfo::default(), Flags::UNICODE), Ok(None));
    let nested = |levels: usize| (1..levels).fold(Expr::Empty, |child, _| Expr::Group(Box::new(child)));
    assert_eq!(nested(832).print(Precedence::Whole), Ok(Some("(".repeat(831) + &")".repeat(831))));
    assert_eq!(nested(833).print(Precedence::Whole), Ok(None));
    assert_eq!(
        nested(64).to_pattern(&GroupInfo::default(), Flags::UNICODE),
        Ok(Some("(".repeat(63) + &")".repeat(63)))
    );
    assert_eq!(nested(65).to_pattern(&GroupInfo::default(), Flags::UNICODE), Ok(None));
}

#[test]
fn a_long_pattern() {
    let pattern = "(a|b)".repeat(20_000);
    let tree = parse(&pattern, Flags::UNICODE).unwrap();
    assert_eq!(tree.groups.total_groups, 20_000);
    assert_eq!(tree.walk().count(), 80_001);
}
