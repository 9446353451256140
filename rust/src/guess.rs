//! How long the buffers for a tree should be, guessed from the characters of a pattern.

/// How many items a tree has at most, unless its pattern is an unusual one. Only the library knows it: if a guess is too low, it
/// says so, and is called once more.
#[derive(Debug, Clone, Copy)]
pub(crate) struct Guess {
    pub nodes: usize,
    /// The bytes of all texts, or of the message of an error.
    pub texts: usize,
    /// The names, or the numbers of back references.
    pub groups: usize,
}

/// The bytes of a message beside those of its pattern are fewer.
const MESSAGE: usize = 128;
/// As many groups as most patterns have.
const FEW_GROUPS: usize = 16;
/// The nodes for which a buffer is small: 123 KB. Then no character is looked at.
const FEW_NODES: usize = 1400;

impl Guess {
    /// That of a pattern.
    pub(crate) fn of(pattern: &str) -> Guess {
        let guess = Guess::of_length(pattern.len());
        if guess.nodes <= FEW_NODES {
            guess
        } else {
            Guess::counted(pattern)
        }
    }

    /// The greatest of all patterns of this length whose groups are few.
    pub(crate) fn of_length(length: usize) -> Guess {
        Guess { nodes: length + length / 3 + 2, texts: length + MESSAGE, groups: FEW_GROUPS }
    }

    /// That of a pattern by its characters, each of which is a node at most, as are an escape and a class. A comment makes no
    /// node. With a bar, with a closing parenthesis and with the pattern a branch ends, which may be a node itself: a
    /// concatenation, or one for nothing. Where there are bars, an alternation is around the branches of a group or of the
    /// pattern.
    fn counted(pattern: &str) -> Guess {
        let bytes = pattern.as_bytes();
        // from the bytes are taken those that are no node of their own
        let (mut inside, mut comments, mut groups, mut bars) = (0, 0, 0, 0_usize);
        let mut at = 0;
        while let Some(&byte) = bytes.get(at) {
            at += 1;
            if byte.is_ascii_alphanumeric() {
                continue;
            }
            match byte {
                b'\\' => (at, inside) = (at + 1, inside + 1),
                b'[' => {
                    let more = through(pattern, at, ']');
                    (at, inside) = (at + more, inside + more);
                }
                b'(' if bytes[at..].starts_with(b"?#") => {
                    let more = through(pattern, at, ')');
                    (at, comments) = (at + more, comments + more + 1);
                }
                b'(' => groups += 1,
                b'|' => bars += 1,
                // the other bytes of a character
                0x80..=0xBF => inside += 1,
                _ => {}
            }
        }
        let texts = bytes.len() - comments;
        let nodes = 1 + texts.saturating_sub(inside) + bars.min(groups + 1);
        Guess { nodes, texts: texts + MESSAGE, groups: groups + FEW_GROUPS }
    }
}

/// How many bytes there are from an index through the next such character. If it is an escaped one, or that of a class in a
/// class, the guess is higher than it has to be.
fn through(pattern: &str, at: usize, last: char) -> usize {
    let rest = &pattern[at..];
    rest.find(last).map_or(rest.len(), |before| before + 1)
}

#[cfg(test)]
mod tests {
    use super::*;
    use crate::{Flags, Rows};

    #[test]
    fn a_guess_is_not_much_higher() {
        for (pattern, nodes) in [
            ("", 1),
            ("aé€😀", 5),
            ("(?#aaaa)", 1),
            ("(?#\\)aa)", 4),
            ("[aaaa]b", 3),
            ("\\d\\é", 3),
            ("a|b", 5),
            ("(a|b)", 7),
            ("((a))", 6),
            ("(|)(|)", 9),
        ] {
            assert_eq!(Guess::counted(pattern).nodes, nodes, "{pattern}");
        }
        let guess = Guess::of(&format!("(?#{})", "(".repeat(1_000_000)));
        assert_eq!((guess.nodes, guess.texts, guess.groups), (1, MESSAGE, FEW_GROUPS));
    }

    #[test]
    fn a_guess_is_high_enough() {
        for unit in r"a é | ab| () (|) (ab|cd) (?:a|) a* a++ (?<n>a)\k<n> ()(?(1)a|) []a] \d".split(' ') {
            for count in 0..50 {
                let pattern = unit.repeat(count);
                let (mut rows, guess) = (Rows::new(), Guess::counted(&pattern));
                let of_length = Guess::of_length(pattern.len());
                assert!(guess.nodes <= of_length.nodes && guess.texts <= of_length.texts, "{pattern}");
                let Ok(rows) = rows.parse(&pattern, Flags::UNICODE) else { continue };
                assert!(rows.root().walk().len() <= guess.nodes, "{pattern}");
                assert!(rows.texts().len() <= guess.texts, "{pattern}");
                assert!(rows.names().len() <= guess.groups && rows.backrefs().len() <= guess.groups, "{pattern}");
            }
        }
    }
}
