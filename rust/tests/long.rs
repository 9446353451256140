//! Long patterns, and texts that are much longer than their patterns.

use fancy_syntax::{parse, to_pattern, trivia, CompactTree, Error, Flags, Rows};

#[test]
fn each_reference_writes_a_long_name() -> Result<(), Error> {
    let (name, references) = ("n".repeat(9000), 1500);
    let pattern = format!("(?<{name}>a){}", r"\k<-1>".repeat(references));
    // 18 KB of pattern, 13 MB of text
    let wanted = format!("(?<{name}>a){}", format!(r"\k<{name}>").repeat(references));
    assert!(to_pattern(&pattern, Flags::UNICODE)? == wanted);
    assert!(parse(&pattern, Flags::UNICODE)?.to_pattern(Flags::UNICODE)? == Some(wanted.clone()));
    let mut rows = Rows::new();
    assert!(rows.parse(&pattern, Flags::UNICODE)?.root().to_pattern(Flags::UNICODE)?.as_ref() == Some(&wanted));
    assert!(CompactTree::parse(&pattern, Flags::UNICODE)?.to_pattern(Flags::UNICODE)? == Some(wanted));
    Ok(())
}

/// What a text is repeated to, in new buffers and in those of longer patterns, as rows and as owned trees.
fn is_same(unit: &str, count: usize, flags: Flags, long: &mut Rows) -> Result<(), Error> {
    let pattern = unit.repeat(count);
    let tree = parse(&pattern, flags)?;
    assert!(long.parse(&pattern, flags)?.to_tree() == tree, "{unit} {count}");
    assert!(Rows::new().parse(&pattern, flags)?.to_tree() == tree, "{unit} {count}");
    assert!(CompactTree::parse(&pattern, flags)?.to_tree() == tree, "{unit} {count}");
    let text = to_pattern(&pattern, flags)?;
    assert!(parse(&text, flags)?.groups == tree.groups, "{unit} {count}");
    assert!(Rows::new().parse(&text, flags)?.to_pattern(flags)? == Some(text), "{unit} {count}");
    Ok(())
}

#[test]
fn results_do_not_depend_on_the_buffers() -> Result<(), Error> {
    let mut long = Rows::new();
    long.parse(&r"(?<n>[a-z]\h|b)\k<-1>".repeat(5000), Flags::UNICODE)?;
    let oniguruma = Flags::UNICODE | Flags::ONIGURUMA_MODE;
    for count in (0..40).chain([100, 127, 128, 129, 500, 1000, 1024, 1100, 2000, 4500, 4600]) {
        for unit in ["a", "[é-€]", "(|)", "ab|", r"\h", "(?#é)", r"(?<n>a)\k<-1>", r"(a)\k<-1>", "(?x)# [\n"] {
            is_same(unit, count, Flags::UNICODE, &mut long)?;
        }
        is_same("a*+*+", count, oniguruma, &mut long)?;
    }
    Ok(())
}

#[test]
fn trivia_that_no_parenthesis_begins() -> Result<(), Error> {
    for count in [0, 1, 2, 3, 50, 1000] {
        // each `*` leaves nothing in the tree
        let found = trivia(&"a(?:)*".repeat(count), Flags::UNICODE | Flags::ONIGURUMA_MODE)?;
        assert_eq!(found.len(), 3 * count);
        let spans = |at| [(1, 4), (4, 5), (5, 6)].map(|(start, stop)| 6 * at + start..6 * at + stop);
        assert!(found.iter().map(|trivium| trivium.span.clone()).eq((0..count).flat_map(spans)));
    }
    Ok(())
}
