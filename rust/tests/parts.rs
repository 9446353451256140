//! What it costs to write each part of a large tree, and to name each group.

use fancy_syntax::{parse, Error, Flags, Precedence, Rows};

/// The nanoseconds for which this thread has run, by what Linux says of it: those of other threads and programs do not count.
fn time_of_thread() -> u64 {
    let counts = std::fs::read_to_string("/proc/thread-self/schedstat").unwrap();
    counts.split(' ').next().unwrap().parse().unwrap()
}

/// The time in which each of so many branches is written.
fn time_of_branches(count: usize) -> Result<u64, Error> {
    let branches: Vec<_> = (1..=count).map(|n| format!(r"(?<n{n}>a)\k<n{n}>")).collect();
    let mut rows = Rows::new();
    let root = rows.parse(&branches.join("|"), Flags::UNICODE)?.root();
    let start = time_of_thread();
    for (n, branch) in (1..).zip(root.children()) {
        // its group is the first of its text
        let target = if n == 1 { "n1".to_owned() } else { n.to_string() };
        assert_eq!(branch.to_pattern(Flags::UNICODE)?, Some(format!(r"(?<n{n}>a)\k<{target}>")));
        assert_eq!(branch.print(Precedence::Whole)?, None);
        assert_eq!(branch.to_expr().children_iter().count(), 2);
    }
    Ok(time_of_thread() - start)
}

#[test]
fn the_rest_of_a_tree_does_not_matter() -> Result<(), Error> {
    let (few, many) = (time_of_branches(1_600)?, time_of_branches(16_000)?);
    println!("{few} ns for 1,600 branches, {many} for 16,000");
    // ten times as long, and a hundred times if all of the tree were read for each branch
    assert!(many < 30 * few, "{few} and {many}");
    Ok(())
}

/// The time in which each of so many groups is named, in a tree and in rows.
fn time_of_names(count: usize) -> Result<u64, Error> {
    let pattern: String = (1..=count).map(|n| format!("(?<n{n}>a)")).collect();
    let (tree, mut rows) = (parse(&pattern, Flags::UNICODE)?, Rows::new());
    rows.parse(&pattern, Flags::UNICODE)?;
    let start = time_of_thread();
    for (number, name, _) in tree.walk_groups() {
        assert_eq!(name, Some(&*format!("n{number}")));
        assert_eq!(rows.group_name(number), name);
    }
    assert_eq!((rows.group_name(0), rows.group_name(count + 1)), (None, None));
    Ok(time_of_thread() - start)
}

#[test]
fn other_names_do_not_matter() -> Result<(), Error> {
    let (few, many) = (time_of_names(10_000)?, time_of_names(100_000)?);
    println!("{few} ns for 10,000 names, {many} for 100,000");
    assert!(many < 30 * few, "{few} and {many}");
    Ok(())
}
