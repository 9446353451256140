//! How much memory is asked for, by what Linux says of the process. So there is one test here, and no other at the same time. It
//! runs itself again, in 24 MB of address space.

use fancy_syntax::{check, facts, format_pattern, is_resolved, parse, parse_without_spans, print, to_pattern, trivia};
use fancy_syntax::{CompactTree, Error, Flags, Precedence, Rows, Style};
use std::process::Command;

/// The greatest address space and the greatest memory so far, in KB.
fn peaks() -> [usize; 2] {
    let status = std::fs::read_to_string("/proc/self/status").unwrap();
    ["VmPeak:", "VmHWM:"].map(|name| {
        let line = status.lines().find(|line| line.starts_with(name)).unwrap();
        line[name.len()..].trim().trim_end_matches(" kB").parse().unwrap()
    })
}

/// Calls what there is, and returns the greatest increase of a peak that a call made.
fn greatest_increase(pattern: &str) -> Result<usize, Error> {
    let mut greatest = 0;
    let mut before = peaks();
    let mut look = |call: &str| {
        let after = peaks();
        let more = [0, 1].map(|peak| after[peak].saturating_sub(before[peak]));
        println!("{call}: {} and {} KB", more[0], more[1]);
        greatest = greatest.max(more[0]).max(more[1]);
        before = after;
    };
    let flags = Flags::UNICODE;
    check(pattern, flags)?;
    look("check");
    drop(parse_without_spans(pattern, flags)?);
    look("parse_without_spans");
    drop(parse(pattern, flags)?);
    look("parse");
    drop(CompactTree::parse(pattern, flags)?);
    look("compact tree");
    let mut rows = Rows::new();
    rows.parse(pattern, flags)?;
    look("rows");
    drop(rows.root().print(Precedence::Whole)?);
    drop(rows.to_pattern(flags)?);
    look("texts of rows");
    drop(trivia(pattern, flags)?);
    look("trivia");
    is_resolved(pattern, flags)?;
    look("is_resolved");
    drop(facts(pattern, flags)?);
    look("facts");
    drop(to_pattern(pattern, flags)?);
    drop(print(pattern, flags, Precedence::Whole)?);
    look("texts");
    for style in [Style::Kept, Style::Verbose { width: 80 }, Style::Compact] {
        drop(format_pattern(pattern, flags, style)?);
        look("format_pattern");
    }
    Ok(greatest)
}

#[test]
fn a_comment_of_1_mb() -> Result<(), Error> {
    if std::env::var_os("IS_LIMITED").is_none() {
        let mut limited = Command::new("sh");
        limited.args(["-c", r#"ulimit -v 24000; exec "$0" --nocapture"#]).arg(std::env::current_exe().unwrap());
        // else a thread has 64 MB for its memory
        assert!(limited.env("IS_LIMITED", "1").env("MALLOC_ARENA_MAX", "1").status().unwrap().success());
        return Ok(());
    }
    // what a process has in any case
    greatest_increase("(?#aa)")?;
    let pattern = format!("(?#{})", "a".repeat(1_000_000));
    let greatest = greatest_increase(&pattern)?;
    assert!(greatest < 4_000, "{greatest} KB");
    // nor does a text keep the memory that it was written to
    assert_eq!(to_pattern(&pattern, Flags::UNICODE)?.capacity(), 0);
    Ok(())
}
