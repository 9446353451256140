//! What the program `fre` writes for a pattern, from what the crate returns; and the records in `crates/conformance/data`.
#![allow(dead_code)] // each test uses some of it

use fancy_syntax::{print, Absent, AbsentKind, AstNode, CallTarget, CaptureGroupTarget};
use fancy_syntax::{Error, Expr, Flags, GroupInfo, Kind, NodeRef, Precedence, Tree};
use std::fmt::Write;

pub fn hex(bytes: &[u8]) -> String {
    if bytes.is_empty() {
        return "-".to_owned();
    }
    let digit = |value: u8| char::from_digit(u32::from(value), 16).unwrap();
    bytes.iter().flat_map(|byte| [digit(byte >> 4), digit(byte & 15)]).collect()
}

pub fn unhex(digits: &str) -> Vec<u8> {
    let digits = digits.trim_start_matches('-').as_bytes();
    let byte = |pair: &[u8]| u8::from_str_radix(std::str::from_utf8(pair).unwrap(), 16).unwrap();
    digits.chunks(2).map(byte).collect()
}

#[path = "../../src/numbers.rs"]
mod numbers;
use numbers::FLAG_LETTERS;

/// The flags that the letters name; `None` if one names none.
pub fn flags_of(letters: &str) -> Option<Flags> {
    let letters = if letters == "-" { "" } else { letters };
    let bits = letters.chars().map(|letter| FLAG_LETTERS.find(letter).map(|bit| 1 << bit));
    Flags::from_bits(bits.sum::<Option<u32>>()?)
}

pub fn letters_of(flags: Flags) -> String {
    let set = FLAG_LETTERS.chars().enumerate().filter(|(bit, _)| flags.bits() >> bit & 1 == 1);
    let letters: String = set.map(|(_, letter)| letter).collect();
    if letters.is_empty() {
        "-".to_owned()
    } else {
        letters
    }
}

/// The words of a node of an owned tree.
fn words_of_expr(node: &Expr) -> String {
    match node {
        Expr::Any { newline, crlf } => format!("Any newline={newline} crlf={crlf}"),
        Expr::Assertion(which) => assertion_words(format!("{which:?}")),
        Expr::GeneralNewline { unicode } => format!("GeneralNewline unicode={unicode}"),
        Expr::Literal { val, casei } => format!("Literal {} casei={casei}", hex(val.as_bytes())),
        Expr::LiteralBytes { bytes } => format!("LiteralBytes {}", hex(bytes)),
        Expr::LookAround(_, which) => format!("LookAround {which:?}"),
        Expr::Repeat { child: _, lo, hi, greedy } => format!("Repeat {lo} {hi} greedy={greedy}"),
        Expr::Delegate { inner, casei } => format!("Delegate {} casei={casei}", hex(inner.as_bytes())),
        Expr::Backref { group, casei } => format!("Backref {group} casei={casei}"),
        Expr::BackrefWithRelativeRecursionLevel { group, relative_level, casei } => {
            format!("BackrefWithRelativeRecursionLevel {group} {relative_level} casei={casei}")
        }
        Expr::BackrefExistsCondition { group, relative_recursion_level } => {
            format!("BackrefExistsCondition {group} {}", or_none(*relative_recursion_level))
        }
        Expr::SubroutineCall(group) => format!("SubroutineCall {group}"),
        Expr::BacktrackingControlVerb(which) => format!("BacktrackingControlVerb {which:?}"),
        Expr::Absent(Absent::Repeater(_)) => "Absent Repeater".to_owned(),
        Expr::Absent(Absent::Expression { .. }) => "Absent Expression".to_owned(),
        Expr::Absent(Absent::Stopper(_)) => "Absent Stopper".to_owned(),
        Expr::Absent(Absent::Clear) => "Absent Clear".to_owned(),
        Expr::AstNode(AstNode::SubroutineCall(target), position) => {
            let target = match target {
                CaptureGroupTarget::ByNumber(group) => format!("number:{group}"),
                CaptureGroupTarget::ByName(name) => format!("name:{}", hex(name.as_bytes())),
                CaptureGroupTarget::Relative(distance) => format!("relative:{distance}"),
                _ => panic!("a target that is new: {target:?}"),
            };
            format!("AstNode SubroutineCall {target} {position}")
        }
        Expr::AstNode(
            AstNode::AstGroup { .. } | AstNode::Backref { .. } | AstNode::BackrefExistsCondition { .. },
            position,
        ) => format!("AstNode that no parsed tree has at {position}"),
        Expr::Empty
        | Expr::Concat(_)
        | Expr::Alt(_)
        | Expr::Group(_)
        | Expr::AtomicGroup(_)
        | Expr::KeepOut
        | Expr::ContinueFromPreviousMatchEnd
        | Expr::Conditional { .. }
        | Expr::DefineGroup { .. } => node.kind_name().to_owned(),
        _ => panic!("a kind of node that is new: {node:?}"),
    }
}

/// The words of a node among the rows.
fn words_of_row(node: NodeRef<'_>) -> String {
    match node.kind() {
        Kind::Any { newline, crlf } => format!("Any newline={newline} crlf={crlf}"),
        Kind::Assertion(which) => assertion_words(format!("{which:?}")),
        Kind::GeneralNewline { unicode } => format!("GeneralNewline unicode={unicode}"),
        Kind::Literal { val, casei } => format!("Literal {} casei={casei}", hex(val.as_bytes())),
        Kind::LiteralBytes { bytes } => format!("LiteralBytes {}", hex(bytes)),
        Kind::LookAround(which) => format!("LookAround {which:?}"),
        Kind::Repeat { lo, hi, greedy } => format!("Repeat {lo} {hi} greedy={greedy}"),
        Kind::Delegate { inner, casei } => format!("Delegate {} casei={casei}", hex(inner.as_bytes())),
        Kind::Backref { group, casei } => format!("Backref {group} casei={casei}"),
        Kind::BackrefWithRelativeRecursionLevel { group, relative_level, casei } => {
            format!("BackrefWithRelativeRecursionLevel {group} {relative_level} casei={casei}")
        }
        Kind::BackrefExistsCondition { group, relative_recursion_level } => {
            format!("BackrefExistsCondition {group} {}", or_none(relative_recursion_level))
        }
        Kind::SubroutineCall(group) => format!("SubroutineCall {group}"),
        Kind::BacktrackingControlVerb(which) => format!("BacktrackingControlVerb {which:?}"),
        Kind::Absent(AbsentKind::Repeater) => "Absent Repeater".to_owned(),
        Kind::Absent(which) => format!("Absent {which:?}"),
        Kind::AstNode(target, position) => {
            let target = match target {
                CallTarget::ByNumber(group) => format!("number:{group}"),
                CallTarget::ByName(name) => format!("name:{}", hex(name.as_bytes())),
                CallTarget::Relative(distance) => format!("relative:{distance}"),
                _ => panic!("a target that is new: {target:?}"),
            };
            format!("AstNode SubroutineCall {target} {position}")
        }
        without_fields => format!("{without_fields:?}"),
    }
}

/// `Assertion StartLine crlf=true`, from what `Debug` writes: `StartLine { crlf: true }`.
fn assertion_words(name: String) -> String {
    format!("Assertion {}", name.replace(" { crlf: ", " crlf=").replace(" }", ""))
}

fn or_none<T: ToString>(it: Option<T>) -> String {
    it.map_or("none".to_owned(), |it| it.to_string())
}

fn push_expr(lines: &mut String, node: &Expr, level: usize) {
    writeln!(lines, "{:1$}{2}", "", 2 * level, words_of_expr(node)).unwrap();
    for child in node.children_iter() {
        push_expr(lines, child, level + 1);
    }
}

fn push_row(lines: &mut String, node: NodeRef<'_>, level: usize) {
    writeln!(lines, "{:1$}{2}", "", 2 * level, words_of_row(node)).unwrap();
    for child in node.children() {
        push_row(lines, child, level + 1);
    }
}

/// The lines of the nodes of an owned tree.
pub fn expr_lines(tree: &Tree) -> String {
    let mut lines = String::new();
    push_expr(&mut lines, &tree.expr, 0);
    lines
}

/// The same of a tree in rows.
pub fn row_lines(root: NodeRef<'_>) -> String {
    let mut lines = String::new();
    push_row(&mut lines, root, 0);
    lines
}

fn or_dash(words: String) -> String {
    if words.is_empty() {
        "-".to_owned()
    } else {
        words
    }
}

fn list<T: ToString>(numbers: impl IntoIterator<Item = T>) -> String {
    let numbers: Vec<String> = numbers.into_iter().map(|number| number.to_string()).collect();
    numbers.join(",")
}

/// The line of the group information.
pub fn group_line(groups: &GroupInfo) -> String {
    let named = groups.named_groups.iter().map(|(name, numbers)| format!("{}:{}", hex(name.as_bytes()), list(numbers)));
    let named: Vec<String> = named.collect();
    format!(
        "marks groups={} backrefs={} named={} numeric={} calls={} self={} out_of_range={} ignored={}\n",
        groups.total_groups,
        or_dash(list(&groups.backrefs)),
        or_dash(named.join(";")),
        groups.numeric_capture_group_references,
        groups.contains_subroutines,
        groups.self_recursive,
        or_none(groups.out_of_range_backref),
        groups.numbered_groups_ignored,
    )
}

/// The line of the printed text.
pub fn text_line(pattern: &str, flags: Flags) -> String {
    match print(pattern, flags, Precedence::Whole).unwrap() {
        Some(text) => format!("text {}\n", hex(text.as_bytes())),
        None => "text none\n".to_owned(),
    }
}

/// The status, standard output and standard error of `fre`.
pub fn recorded_of(pattern: &str, flags: Flags, outcome: &Result<Tree, Error>) -> (u32, String, String) {
    match outcome {
        Ok(tree) => {
            let lines = expr_lines(tree) + &group_line(&tree.groups) + &text_line(pattern, flags);
            (0, lines, String::new())
        }
        Err(error) => (1, String::new(), format!("{error}\n")),
    }
}
