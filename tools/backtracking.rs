//! Searches with the crate fancy-regex, for `tools/backtracking`. The input has lines in hexadecimal: flags, a pattern, and
//! texts. Writes how many seconds each search takes, the shortest of three, up to the first that takes more than 2; one that the
//! crate gives up takes 3.
use std::io::Read;
use std::time::Instant;

fn text_of(line: &str) -> String {
    let code = |index| u8::from_str_radix(&line[index..index + 2], 16).unwrap();
    String::from_utf8((0..line.len()).step_by(2).map(code).collect()).unwrap()
}

fn main() {
    let mut input = String::new();
    std::io::stdin().read_to_string(&mut input).unwrap();
    let lines: Vec<String> = input.lines().map(text_of).collect();
    let pattern = if lines[0].is_empty() { lines[1].clone() } else { format!("(?{}){}", lines[0], lines[1]) };
    let Ok(regex) = fancy_regex::RegexBuilder::new(&pattern).backtrack_limit(100_000_000).build() else {
        std::process::exit(1)
    };
    for text in &lines[2..] {
        let mut least = f64::INFINITY;
        for _ in 0..3 {
            let start = Instant::now();
            let is_given_up = regex.is_match(text).is_err();
            let taken = start.elapsed().as_secs_f64();
            least = least.min(if is_given_up { taken.max(3.0) } else { taken });
            if least > 1.0 {
                break;
            }
        }
        println!("{least:.9}");
        if least > 2.0 {
            break;
        }
    }
}
