//! What no node of a tree has, compared with what is written here by hand.

use fancy_syntax::{check, trivia, Flags, Span, Trivium, TriviumKind};

const U: Flags = Flags::UNICODE;

type Part = (Span, TriviumKind);

fn wanted(parts: &[Part]) -> Vec<Trivium> {
    parts.iter().map(|(span, kind)| Trivium { span: span.clone(), kind: *kind }).collect()
}

#[test]
fn trivia_by_hand() {
    use TriviumKind::{Closing, Comment, Dropped, InlineFlags, InnerComment, InnerLineComment, LineComment, Opening};
    let casei = U | Flags::CASEI;
    let verbose = U | Flags::IGNORE_SPACE;
    let oniguruma = U | Flags::ONIGURUMA_MODE;
    let patterns: [(&str, Flags, &[Part]); 20] = [
        ("", U, &[]),
        (
            "a(?#b)c(?i)d(?:e)",
            U,
            &[
                (1..6, Comment),
                (7..11, InlineFlags { before: U, after: casei }),
                (12..15, Opening { around: casei, inside: casei }),
                (16..17, Closing),
            ],
        ),
        // after a quantifier, and between an atom and its quantifier
        ("a*(?#b)c", U, &[(2..7, Comment)]),
        ("a(?#b)*", U, &[(1..6, Comment)]),
        // flags inside a group
        ("(?i:a)b", U, &[(0..4, Opening { around: U, inside: casei }), (5..6, Closing)]),
        ("(a(?i)b)c", U, &[(2..6, InlineFlags { before: U, after: casei })]),
        (
            "(?x)a # b\nc #",
            U,
            &[(0..4, InlineFlags { before: U, after: verbose }), (6..10, LineComment), (12..13, LineComment)],
        ),
        // no comments: a character after a backslash, characters of a class
        (r"a\#b", verbose, &[]),
        ("[(?#)]", U, &[]),
        // in a token: the counts of a quantifier, the opening of a group, flags, a hex code in a class
        ("a{1(?#c),2}", U, &[(3..8, InnerComment)]),
        ("a{1 #c\n,2}", verbose, &[(4..7, InnerLineComment)]),
        ("((?#b)(?#c)a)", U, &[(1..6, InnerComment), (6..11, InnerComment)]),
        ("((?#c)?:a)", U, &[(0..8, Opening { around: U, inside: U }), (1..6, InnerComment), (9..10, Closing)]),
        ("(?i(?#c)s)", U, &[(0..10, InlineFlags { before: U, after: casei | Flags::DOTNL }), (3..8, InnerComment)]),
        (r"[a\x(?#c){61}]", U, &[(4..9, InnerComment)]),
        // characters of two bytes
        ("é(?#é)", U, &[(2..8, Comment)]),
        ("(?s)", Flags::empty(), &[(0..4, InlineFlags { before: Flags::empty(), after: Flags::DOTNL })]),
        // what leaves nothing in the tree
        ("(a)(?(1)|)", U, &[(3..6, Dropped), (7..10, Dropped)]),
        ("(a)(?(1) (?#c)| )", verbose, &[(3..6, Dropped), (7..9, Dropped), (9..14, Comment), (14..17, Dropped)]),
        (
            "a(?:)*b",
            oniguruma,
            &[(1..4, Opening { around: oniguruma, inside: oniguruma }), (4..5, Closing), (5..6, Dropped)],
        ),
    ];
    for (pattern, flags, parts) in patterns {
        assert_eq!(trivia(pattern, flags).unwrap(), wanted(parts), "{pattern}");
    }
}

#[test]
fn an_invalid_pattern_has_its_error() {
    for pattern in ["a(?#b)(", r"(?:a\q)", "(?#"] {
        assert_eq!(trivia(pattern, U).unwrap_err(), check(pattern, U).unwrap_err());
    }
}
