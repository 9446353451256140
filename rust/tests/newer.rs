//! What a library that is newer returns: a number that the crate has no name for is an error that says so, and not one of something else than
//! libfancy. Where `FANCY_NEWER` is set, `.ci/newer.c` is linked, and 1000 is the number; with libfancy there is nothing to see here.

use fancy_syntax::{
    check, class_ranges, escape, facts, format_pattern, is_resolved, parse, parse_decimal, parse_id, print, to_pattern,
    trivia,
};
use fancy_syntax::{CompactTree, Error, Expr, Flags, GroupInfo, ParseError, Precedence, Rows, Style};

const U: Flags = Flags::UNICODE;

fn unknown<T>(what: &'static str) -> Result<T, Error> {
    Err(Error::Unknown { what, number: 1000 })
}

fn are_numbers_of_nodes_unknown(rows: &mut Rows) {
    for (pattern, what) in [
        ("node", "a kind of node"),
        ("assertion", "an assertion"),
        ("look", "a look-around"),
        ("verb", "a verb"),
        ("absent", "an absent form"),
        ("target", "a target"),
        ("status", "a status"),
    ] {
        assert_eq!(parse(pattern, U).map(drop), unknown(what), "{pattern}");
        assert_eq!(rows.parse(pattern, U).map(drop), unknown(what), "{pattern}");
        assert_eq!(CompactTree::parse(pattern, U).map(drop), unknown(what), "{pattern}");
    }
}

#[test]
fn a_number_that_is_new_is_unknown() {
    if std::env::var_os("FANCY_NEWER").is_none() {
        return;
    }
    let mut rows = Rows::new();
    are_numbers_of_nodes_unknown(&mut rows);
    let error = Error::ParseError(2, ParseError::Unknown(1000, "A new kind: x".to_owned()));
    assert_eq!(error.to_string(), "Parsing error at position 2: A new kind: x");
    assert_eq!(parse("error", U).as_ref(), Err(&error));
    assert_eq!(rows.parse("error", U).map(drop).as_ref(), Err(&error));
    assert_eq!(check("error", U).as_ref(), Err(&error));
    assert_eq!(check("status", U), unknown("a status"));
    assert_eq!(trivia("trivium", U), unknown("a kind of trivium"));
    assert_eq!(trivia("flags", U).unwrap_err(), Error::Unknown { what: "flags", number: 1 << 20 | U.bits() });
    assert_eq!(to_pattern("status", U), unknown("a status"));
    assert_eq!(print("status", U, Precedence::Whole), unknown("a status"));
    assert_eq!(format_pattern("status", U, Style::Kept), unknown("a status"));
    assert_eq!(is_resolved("status", U), unknown("a status"));
    assert_eq!(escape("status", U), unknown("a status"));
    assert_eq!(class_ranges("status", U), unknown("a status"));
    assert_eq!(facts("status", U), unknown("a status"));
    assert_eq!(Expr::Any { newline: true, crlf: false }.character_ranges(U), unknown("a status"));
    assert_eq!(parse_id("status"), unknown("a status"));
    assert_eq!(parse_decimal("status"), unknown("a status"));
    assert_eq!(Expr::Empty.print(Precedence::Whole), unknown("a status"));
    assert_eq!(Expr::Empty.to_pattern(&GroupInfo::default(), U), unknown("a status"));
    assert_eq!(parse("ab", U).map(|tree| tree.expr), Ok(Expr::Empty));
}
