//! Formatted patterns, compared with what is written here by hand.

use fancy_syntax::{check, format_pattern, Flags, Style};

const U: Flags = Flags::UNICODE;
const WIDE: Style = Style::Verbose { width: 80 };
const MIDDLE: Style = Style::Verbose { width: 11 };
const NARROW: Style = Style::Verbose { width: 8 };

#[test]
fn texts_by_hand() {
    let verbose = U | Flags::IGNORE_SPACE;
    let oniguruma = U | Flags::ONIGURUMA_MODE;
    let patterns = [
        ("", U, Style::Kept, ""),
        (r"(?:a){0,1}|\x41{2,2}", U, Style::Kept, r"a?|\x41{2}"),
        ("a{0,1}+b{0,}", U, Style::Kept, "a?+b*"),
        ("a{0,1}+b{0,}", oniguruma, Style::Kept, "a{0,1}+b{0,}"),
        // a group that keeps two tokens apart, and flags that change nothing
        (r"(a)\1(?:2)", U, Style::Kept, r"(a)\1(?:2)"),
        ("(?i)a(?i)b(?s-m:c)", U, Style::Kept, "(?i)ab(?s:c)"),
        ("a(?#)b(?# one)", U, Style::Kept, "ab(?# one)"),
        // blanks within a line, at its end, and before a comment through its end
        ("a  b \n (?:c){1,}   # one", verbose, Style::Kept, "a  b\n c+   # one"),
        // a line that fits, and others
        ("a|b", U, WIDE, "a|b"),
        ("a  b", verbose, WIDE, "a b"),
        ("(abcd|ef)g", U, WIDE, "(abcd|ef)g"),
        ("éé|é", U, Style::Verbose { width: usize::MAX }, "éé|é"),
        ("a\n b", verbose, WIDE, "a\nb"),
        ("a #|bcdefghi", U, MIDDLE, "(?x)\n  a\\ \\#\n| bcdefghi"),
        ("a #|bcdefghi", U | Flags::CASEI, MIDDLE, "(?x)\n  a\\x20\\x23\n| bcdefghi"),
        ("(abcd|ef)g", U, NARROW, "(?x)\n(\n    abcd\n  | ef\n)\ng"),
        ("éé|é", U, Style::Verbose { width: 3 }, "(?x)\n  éé\n| é"),
        ("(?x)\n  é{0,1}\n| b", U, Style::Compact, "é?|b"),
        ("a # one\n b", verbose, Style::Compact, "a(?# one)b"),
        ("(?x)\na\\x20\\x23", U | Flags::CASEI, Style::Compact, "a #"),
    ];
    for (pattern, flags, style, text) in patterns {
        assert_eq!(format_pattern(pattern, flags, style).as_deref(), Ok(text), "{pattern}");
    }
}

/// Each branch has a line of its own, which is indented as far as the groups around it nest.
#[test]
fn a_text_is_much_longer_than_its_pattern() {
    let pattern = format!("{}{}{}", "(a|".repeat(60), "a|".repeat(500), ")".repeat(60));
    let text = format_pattern(&pattern, U, Style::Verbose { width: 0 }).unwrap();
    assert!(text.len() > 64 * pattern.len() + 1024, "{}", text.len());
    assert_eq!(format_pattern(&text, U, Style::Verbose { width: 0 }).as_ref(), Ok(&text));
}

#[test]
fn an_invalid_pattern_has_its_error() {
    for pattern in ["a(?#b)(", r"(?:a\q)", "(?#"] {
        for style in [Style::Kept, WIDE, Style::Compact] {
            assert_eq!(format_pattern(pattern, U, style).unwrap_err(), check(pattern, U).unwrap_err());
        }
    }
}
