//! What is known of matches, compared with what is written here by hand.

use fancy_syntax::{check, facts, parse, Flags, NodeFacts, PatternFacts};

const U: Flags = Flags::UNICODE;

/// A node of one ASCII character.
const ONE: &str = "1..1 1..1 c";
/// The largest number.
const MANY: &str = "18446744073709551615.. 18446744073709551615.. ";

/// The lengths of a node in characters and in bytes, without a number for no limit, and what else is so: `e` it can be empty, `c` its
/// length is constant, `s` and `f` it is anchored at the start and the end.
fn row(facts: &Option<NodeFacts>) -> String {
    let Some(it) = facts else { return "?".to_owned() };
    let limit = |most: Option<usize>| most.map_or(String::new(), |most| most.to_string());
    let lengths = format!("{}..{} {}..{}", it.min_length, limit(it.max_length), it.min_bytes, limit(it.max_bytes));
    let holds = [it.can_be_empty, it.is_constant_length, it.is_anchored_at_start, it.is_anchored_at_end];
    let letters: String = "ecsf".chars().zip(holds).filter(|(_, holds)| *holds).map(|(letter, _)| letter).collect();
    format!("{lengths} {letters}")
}

/// The prefix, whether it is the whole match, and whether the pattern is easy.
fn whole(facts: &PatternFacts) -> String {
    let [whole, easy] =
        [(facts.is_prefix_whole, " whole"), (facts.is_easy, " easy")]
            .map(|(holds, word)| if holds { word } else { "" });
    format!("{}{whole}{easy}", facts.prefix.as_deref().unwrap_or("?"))
}

#[test]
fn facts_by_hand() {
    let patterns: [(&str, Flags, &str, &[&str]); 15] = [
        ("", U, " whole easy", &["0..0 0..0 ec"]),
        ("a|bc", U, " easy", &["1..2 1..2 ", ONE, "2..2 2..2 c", ONE, ONE]),
        // characters of two and of four bytes; and of one to three, since k, K and the Kelvin sign are one letter
        ("é{2,}", U, "é easy", &["2.. 4.. ", "1..1 2..2 c"]),
        ("a😀", U, "a😀 whole easy", &["2..2 5..5 c", ONE, "1..1 4..4 c"]),
        ("(?i)k", U, " easy", &["1..1 1..3 c"]),
        (".?", U, " easy", &["0..1 0..4 e", "1..1 1..4 c"]),
        ("[0-9]", Flags::empty(), " easy", &[ONE]),
        // anchors: of one piece, of all branches, and of a repeat that may take no turn
        ("^a$", U, "a whole easy", &["1..1 1..1 csf", "0..0 0..0 ecs", ONE, "0..0 0..0 ecf"]),
        ("^|a", U, " easy", &["0..1 0..1 e", "0..0 0..0 ecs", ONE]),
        ("(^)?", U, " easy", &["0..0 0..0 ec", "0..0 0..0 ecs", "0..0 0..0 ecs"]),
        ("^a", U | Flags::MULTI, "a whole easy", &[ONE, "0..0 0..0 ec", ONE]),
        // a look-behind without a bound
        ("(?<=a|b*)d", U, "d whole", &[ONE, "0..0 0..0 ec", "0.. 0.. e", ONE, "0.. 0.. e", ONE, ONE]),
        // lengths that do not fit
        ("(?:a{4294967296}){4294967296}", U, "a easy", &[MANY, "4294967296..4294967296 4294967296..4294967296 c", ONE]),
        // what is not known, and what is known below it
        (r"(a)\1", U, "?", &["?", ONE, ONE, "?"]),
        ("a++", U, "?", &["?", "1.. 1.. ", ONE]),
    ];
    for (pattern, flags, wanted, nodes) in patterns {
        let found = facts(pattern, flags).unwrap();
        assert_eq!(found.nodes.iter().map(row).collect::<Vec<_>>(), nodes, "{pattern}");
        assert_eq!(whole(&found), wanted, "{pattern}");
    }
}

#[test]
fn there_is_a_row_for_each_node() {
    // more nodes than bytes
    let bars = "|".repeat(5000);
    for pattern in ["(a|b)*c", r"(?<n>a)(?(1)b|c)\g<n>", "(?~|a|b)", "", &bars] {
        let nodes = parse(pattern, U).unwrap().walk().count();
        assert_eq!(facts(pattern, U).unwrap().nodes.len(), nodes, "{pattern}");
    }
    let word = "é".repeat(5000);
    assert_eq!(facts(&word, U).unwrap().prefix, Some(word));
}

#[test]
fn an_invalid_pattern_has_its_error() {
    for pattern in ["a(", r"\q", "(?#"] {
        assert_eq!(facts(pattern, U).unwrap_err(), check(pattern, U).unwrap_err());
    }
}
