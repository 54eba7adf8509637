//! Finds all matches in a text by dense tables of regex-automata. The patterns are the lines of a file, joined by `|`:
//! `automata PATTERNS TEXT ROUNDS`. Prints the number of matches, and the least time of a round in microseconds.
use regex_automata::RegexBuilder;
use std::time::Instant;

/// The determinizer recurses over the patterns.
const STACK: usize = 512 << 20;

fn measure() {
    let words: Vec<String> = std::env::args().collect();
    let patterns = std::fs::read_to_string(&words[1]).unwrap();
    let joined = patterns.lines().map(|line| format!("(?:{line})")).collect::<Vec<_>>().join("|");
    let regex = RegexBuilder::new().unicode(false).allow_invalid_utf8(true).build(&joined).unwrap();
    let text = std::fs::read(&words[2]).unwrap();
    let rounds: usize = words[3].parse().unwrap();
    let mut matches = 0;
    let mut least = u128::MAX;
    for _ in 0..rounds {
        let begin = Instant::now();
        matches = regex.find_iter(&text).count();
        least = least.min(begin.elapsed().as_micros());
    }
    println!("{matches} {least}");
}

fn main() {
    std::thread::Builder::new().stack_size(STACK).spawn(measure).unwrap().join().unwrap();
}
