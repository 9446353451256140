//! Reports each unbounded repeat inside another one, which can take very long to match: `lint PATTERN..`. The status is 1 if there is one, or if
//! a pattern is invalid.

use fancy_syntax::{Error, Flags, Kind, NodeRef, Rows};
use std::process::ExitCode;

/// Adds a line for each unbounded repeat inside another one, with its byte offset and its text.
fn push_nested_repeats(lines: &mut Vec<String>, pattern: &str, node: NodeRef<'_>, repeated: bool) {
    let unbounded = matches!(node.kind(), Kind::Repeat { hi: usize::MAX, .. });
    if repeated && unbounded {
        let text = node.text(pattern).unwrap_or_default();
        lines.push(format!("byte {}: {text} is in a repeat", node.span().start));
    }
    for child in node.children() {
        push_nested_repeats(lines, pattern, child, repeated || unbounded);
    }
}

/// The lines of a pattern. The buffers of the rows are used again for the next one.
fn nested_repeats(rows: &mut Rows, pattern: &str) -> Result<Vec<String>, Error> {
    let mut lines = Vec::new();
    let root = rows.parse(pattern, Flags::UNICODE)?.root();
    push_nested_repeats(&mut lines, pattern, root, false);
    Ok(lines)
}

fn main() -> ExitCode {
    let mut rows = Rows::new();
    let mut status = ExitCode::SUCCESS;
    for pattern in std::env::args().skip(1) {
        let lines = nested_repeats(&mut rows, &pattern).unwrap_or_else(|error| vec![error.to_string()]);
        for line in lines {
            println!("{pattern}: {line}");
            status = ExitCode::FAILURE;
        }
    }
    status
}
