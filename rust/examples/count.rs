//! Does one thing with each pattern of a corpus, so that its cost can be counted: `count MODE FILE`, where a line of the file begins with flags and a
//! pattern in hexadecimal, as in `crates/conformance/data`. `tools/speed rust` runs it. What is returned is dropped, except in the modes whose names
//! begin with `kept`. It writes how many patterns are valid; in the mode `accepts` it writes 1 or 0 for each pattern.
use fancy_syntax::{check, parse, parse_without_spans, CompactTree, Flags, Rows};

#[path = "../src/numbers.rs"]
mod numbers;

/// The flags and the pattern of a line.
fn read(line: &str) -> Option<(Flags, String)> {
    let mut fields = line.split('\t');
    let bit = |letter| numbers::FLAG_LETTERS.find(letter).map(|bit| 1 << bit);
    let bits = fields.next()?.chars().filter_map(bit).sum();
    let digits = fields.next()?.trim_matches('-');
    let byte = |at| u8::from_str_radix(digits.get(at..at + 2)?, 16).ok();
    let pattern = (0..digits.len()).step_by(2).map(byte).collect::<Option<_>>()?;
    Some((Flags::from_bits_truncate(bits), String::from_utf8(pattern).ok()?))
}

fn main() {
    let arguments: Vec<String> = std::env::args().collect();
    let [_, mode, file] = &arguments[..] else { panic!("usage: count MODE FILE") };
    let lines = std::fs::read_to_string(file).unwrap();
    let mut rows = Rows::new();
    // so that no buffer grows later; and an allocation by which the allocator puts together what was freed, so that it does not later
    rows.parse(&"a".repeat(10_000), Flags::UNICODE).unwrap();
    drop(std::hint::black_box(Vec::<u8>::with_capacity(100_000)));
    let mut valid = 0;
    for (flags, pattern) in lines.lines().filter_map(read) {
        let is_valid = match mode.as_str() {
            "none" => !pattern.is_empty(),
            "check" | "accepts" => check(&pattern, flags).is_ok(),
            "rows" => rows.parse(&pattern, flags).is_ok(),
            "rows-without-spans" => rows.parse_without_spans(&pattern, flags).is_ok(),
            "tree" => parse(&pattern, flags).is_ok(),
            "tree-without-spans" => parse_without_spans(&pattern, flags).is_ok(),
            "compact" => CompactTree::parse(&pattern, flags).is_ok(),
            "compact-without-spans" => CompactTree::parse_without_spans(&pattern, flags).is_ok(),
            "kept-tree" => parse(&pattern, flags).map(std::mem::forget).is_ok(),
            "kept-tree-without-spans" => parse_without_spans(&pattern, flags).map(std::mem::forget).is_ok(),
            _ => panic!("no such mode"),
        };
        valid += usize::from(is_valid);
        if mode == "accepts" {
            println!("{}", u8::from(is_valid));
        }
    }
    if mode != "accepts" {
        println!("{valid}");
    }
}
