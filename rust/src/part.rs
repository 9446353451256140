//! A part of a tree, written in a time that does not depend on how large the rest of the tree is.

use crate::call::{reserve, RowsIn};
use crate::ffi::{Info, Name, Node};
use crate::written::pattern_of_rows;
use crate::{numbers, Error, Flags};

/// The rows of names in the order of their groups. Those of one name keep their order, which is that of its groups.
pub(crate) fn by_group(names: &[Name]) -> Result<Vec<Name>, Error> {
    let mut sorted = Vec::new();
    reserve(&mut sorted, names.len())?;
    sorted.extend_from_slice(names);
    sorted.sort_unstable_by_key(|name| name.group);
    Ok(sorted)
}

/// The first and the last number of the groups among the rows of a node, in which each number in between is too.
fn groups_of(rows: &[Node]) -> Option<(usize, usize)> {
    let mut groups = rows.iter().filter(|row| row.kind == numbers::NODE_GROUP).map(|row| row.group);
    let first = groups.next()?;
    Some((first, groups.next_back().unwrap_or(first)))
}

/// Writes the tree of rows as a pattern, with the names of its groups out of those of all.
pub(crate) fn pattern_of_part(
    rows: RowsIn<'_>,
    by_group: &[Name],
    info: &Info,
    flags: Flags,
) -> Result<Option<String>, Error> {
    // the text is the same: of all names, `names_from` in `crates/fancy_c/src/group_rows.rt` keeps those of groups among the rows
    let own = rows.own();
    let (first, last) = groups_of(own).unwrap_or((1, 0));
    let from = &by_group[by_group.partition_point(|name| name.group < first)..];
    let named = &from[..from.partition_point(|name| name.group <= last)];
    // without names, the library reads no row before these
    if named.is_empty() {
        return pattern_of_rows(rows, &[], info, flags);
    }
    let (mut nodes, mut names) = (Vec::new(), Vec::new());
    reserve(&mut nodes, own.len())?;
    reserve(&mut names, named.len())?;
    nodes.extend(own.iter().map(|row| Node { end: row.end - rows.index, ..*row }));
    // in rows that begin with these, its first group has the number 1
    names.extend(named.iter().map(|name| Name { group: (name.group - first).saturating_add(1), ..*name }));
    pattern_of_rows(RowsIn { nodes: &nodes, texts: rows.texts, index: 0 }, &names, info, flags)
}

#[cfg(test)]
mod tests {
    use super::*;
    use crate::{NodeRef, Rows};

    /// xorshift64
    struct Random(u64);

    impl Random {
        fn below(&mut self, bound: usize) -> usize {
            self.0 ^= self.0 << 13;
            self.0 ^= self.0 >> 7;
            self.0 ^= self.0 << 17;
            (self.0 >> 11) as usize % bound
        }

        /// A pattern of a few parts, of which many have or name groups. Where a letter is a name, several groups have it.
        fn pattern(&mut self, levels: usize) -> String {
            let mut pattern = String::new();
            for _ in 0..1 + self.below(4) {
                let form = FORMS[self.below(if levels == 0 { 13 } else { FORMS.len() })];
                let form = form.replace('m', ["m", "n", "o"][self.below(3)]);
                let inner = if form.contains('X') { self.pattern(levels - 1) } else { String::new() };
                pattern.push_str(&form.replace('X', &inner));
            }
            pattern
        }
    }

    /// The first thirteen have nothing in them.
    const FORMS: [&str; 21] = [
        "a",
        "|",
        r"\k<m>",
        r"\k<m>",
        r"\k<m+1>",
        r"\k<2>",
        r"\k<-1>",
        r"\2",
        r"\g<m>",
        r"\g<1>",
        r"\g<+1>",
        "(?P>m)",
        "(?(<m>)a|b)",
        "(?<m>X)",
        "(?<m>X)",
        "(?<m>X)",
        "(X)",
        "(?:X)+",
        "(?=X)",
        "(?(1)X)",
        "(?>X)",
    ];

    /// Checks that nodes have the text that is written with all names. Returns how many nodes besides the root have groups with names.
    fn named_parts(rows: &Rows, flags: Flags) -> usize {
        let nodes = rows.root().walk();
        // of a long pattern some nodes
        let step = nodes.len() / 64 + 1;
        let is_named = |node: &NodeRef| {
            let text = node.to_pattern(flags).unwrap();
            assert_eq!(text, rows.pattern_with_all_names(node.index(), flags).unwrap(), "{node:?} in {rows:?}");
            node.index() > 0 && text.is_some_and(|text| text.contains("(?<"))
        };
        nodes.step_by(step).filter(is_named).count()
    }

    /// The number of the named parts of a pattern; 0 if the pattern is invalid.
    fn named_parts_of(rows: &mut Rows, pattern: &str, flags: Flags) -> usize {
        rows.parse(pattern, flags).map_or(0, |rows| named_parts(rows, flags))
    }

    #[test]
    fn random_parts_are_written_as_with_all_names() {
        let (mut random, mut rows, mut named) = (Random(1), Rows::new(), 0);
        for round in 0..20_000 {
            let flags = if round % 2 == 0 {
                Flags::UNICODE.bits()
            } else {
                random.below(Flags::all().bits() as usize + 1) as u32
            };
            named += named_parts_of(&mut rows, &random.pattern(3), Flags::from_bits_truncate(flags));
        }
        assert!(named > 5_000, "{named}");
    }

    fn unhexed(field: &str) -> String {
        let digits = field.trim_start_matches('-').as_bytes().chunks(2);
        let bytes = digits.map(|pair| u8::from_str_radix(std::str::from_utf8(pair).unwrap(), 16).unwrap());
        String::from_utf8(bytes.collect()).unwrap()
    }

    #[test]
    fn recorded_parts_are_written_as_with_all_names() {
        let (mut rows, mut named) = (Rows::new(), 0);
        for file in ["groups", "layout", "lines", "long", "numbered", "oniguruma", "references", "rows", "short"] {
            let folder = concat!(env!("CARGO_MANIFEST_DIR"), "/../crates/conformance/data");
            let records = std::fs::read_to_string(format!("{folder}/{file}.tsv")).unwrap();
            for line in records.lines() {
                // fewer fields: a tree to print
                let [letters, pattern, _, _, _] = line.split('\t').collect::<Vec<_>>()[..] else { continue };
                let bits = letters.chars().filter_map(|letter| numbers::FLAG_LETTERS.find(letter));
                let flags = Flags::from_bits_truncate(bits.map(|bit| 1 << bit).sum());
                named += named_parts_of(&mut rows, &unhexed(pattern), flags);
            }
        }
        assert!(named > 100, "{named}");
    }
}
