//! Writes the tree of a pattern as JSON: `json PATTERN`. A node is an object with its kind, its span in bytes, its fields and its children.

use fancy_syntax::{parse, Absent, AstNode, CaptureGroupTarget, Expr, Flags, Span};
use std::fmt::{Display, Formatter, Result};
use std::process::ExitCode;

/// A node as JSON, with the spans of itself and of what is below it, in preorder.
struct Json<'a> {
    node: &'a Expr,
    spans: &'a [Span],
}

/// A text as a string of JSON.
struct Quoted<'a>(&'a str);

impl Display for Json<'_> {
    fn fmt(&self, f: &mut Formatter<'_>) -> Result {
        let (span, mut below) = self.spans.split_first().unwrap_or((&(0..0), &[]));
        write!(f, r#"{{"kind":"{}","span":[{},{}]"#, self.node.kind_name(), span.start, span.end)?;
        write_fields(self.node, f)?;
        for (index, child) in self.node.children_iter().enumerate() {
            f.write_str(if index == 0 { r#","children":["# } else { "," })?;
            let (spans, after) = below.split_at(child.walk().count());
            write!(f, "{}", Json { node: child, spans })?;
            below = after;
        }
        f.write_str(if self.node.children_iter().next().is_some() { "]}" } else { "}" })
    }
}

impl Display for Quoted<'_> {
    fn fmt(&self, f: &mut Formatter<'_>) -> Result {
        f.write_str("\"")?;
        for c in self.0.chars() {
            match c {
                '"' | '\\' => write!(f, "\\{c}")?,
                '\0'..='\x1f' => write!(f, "\\u{:04x}", u32::from(c))?,
                _ => write!(f, "{c}")?,
            }
        }
        f.write_str("\"")
    }
}

/// The fields besides the children, each after a comma.
fn write_fields(node: &Expr, f: &mut Formatter<'_>) -> Result {
    match node {
        Expr::Any { newline, crlf } => write!(f, r#","newline":{newline},"crlf":{crlf}"#),
        Expr::Assertion(which) => write!(f, r#","which":{}"#, Quoted(&format!("{which:?}"))),
        Expr::GeneralNewline { unicode } => write!(f, r#","unicode":{unicode}"#),
        Expr::Literal { val: text, casei } | Expr::Delegate { inner: text, casei } => {
            write!(f, r#","text":{},"casei":{casei}"#, Quoted(text))
        }
        Expr::LiteralBytes { bytes } => write!(f, r#","bytes":{bytes:?}"#),
        Expr::LookAround(_, which) => write!(f, r#","which":"{which:?}""#),
        Expr::Repeat { lo, hi: usize::MAX, greedy, .. } => write!(f, r#","lo":{lo},"hi":null,"greedy":{greedy}"#),
        Expr::Repeat { lo, hi, greedy, .. } => write!(f, r#","lo":{lo},"hi":{hi},"greedy":{greedy}"#),
        Expr::Backref { group, casei } => write!(f, r#","group":{group},"casei":{casei}"#),
        Expr::BackrefWithRelativeRecursionLevel { group, relative_level, casei } => {
            write!(f, r#","group":{group},"level":{relative_level},"casei":{casei}"#)
        }
        Expr::BackrefExistsCondition { group, relative_recursion_level: Some(level) } => {
            write!(f, r#","group":{group},"level":{level}"#)
        }
        Expr::BackrefExistsCondition { group, .. } | Expr::SubroutineCall(group) => write!(f, r#","group":{group}"#),
        Expr::BacktrackingControlVerb(which) => write!(f, r#","which":"{which:?}""#),
        Expr::Absent(absent) => {
            let which = match absent {
                Absent::Repeater(_) => "Repeater",
                Absent::Expression { .. } => "Expression",
                Absent::Stopper(_) => "Stopper",
                Absent::Clear => "Clear",
                _ => "Unknown",
            };
            write!(f, r#","which":"{which}""#)
        }
        Expr::AstNode(AstNode::SubroutineCall(target), position) => {
            match target {
                CaptureGroupTarget::ByNumber(group) => write!(f, r#","group":{group}"#)?,
                CaptureGroupTarget::ByName(name) => write!(f, r#","name":{}"#, Quoted(name))?,
                CaptureGroupTarget::Relative(distance) => write!(f, r#","relative":{distance}"#)?,
                _ => {}
            }
            write!(f, r#","position":{position}"#)
        }
        _ => Ok(()),
    }
}

fn main() -> ExitCode {
    let pattern = std::env::args().nth(1).unwrap_or_default();
    match parse(&pattern, Flags::UNICODE) {
        Ok(tree) => {
            println!("{}", Json { node: &tree.expr, spans: &tree.spans });
            ExitCode::SUCCESS
        }
        Err(error) => {
            eprintln!("{error}");
            ExitCode::FAILURE
        }
    }
}
