//! The walks of `bench search` in plain Rust, over the same tables and texts: `peer TABLE LEN EVERY TIMES`, where
//! TABLE is `literal` or `halves`. Standard output says what the walks answer, standard error how many microseconds
//! the shortest of each took.
//!
//! `Forward` and `Reverse` test the index of each entry, as safe Rust does. `ForwardUnchecked` and `ReverseUnchecked`
//! don't, as a proved program doesn't, and `ForwardColumn` and `ReverseColumn` add the column to the row's place last.
//! `ForwardSteps` is `ForwardUnchecked` and tells how many bytes it read. Each has the tests that a search of any
//! table needs: one for each byte, and others in special rows.

use std::time::{Duration, Instant};

const LITERAL: &[u8] = b"literal";
const HALF: &[u8] = b"abcdefghijkl";
const STRIDE: usize = 512;
const HOME: u32 = 2 * STRIDE as u32;

struct Table {
    words: Vec<u32>,
    classes: [u8; 256],
    max: u32,
    quit: u32,
    min_match: u32,
    max_match: u32,
}

enum Answer {
    Match(Option<usize>),
    Quit(usize),
    Steps(usize),
}

impl Table {
    fn literal() -> Table {
        let mut table = Table::begin(2 + LITERAL.len());
        for (at, letter) in LITERAL.iter().enumerate() {
            let next = if at + 1 < LITERAL.len() { 3 + at } else { 2 };
            table.fill(2 + at, &[*letter], next, 2);
        }
        table
    }

    fn halves() -> Table {
        let mut table = Table::begin(4);
        table.fill(2, HALF, 3, 2);
        table.fill(3, HALF, 3, 2);
        table
    }

    fn begin(rows: usize) -> Table {
        Table {
            words: vec![0; rows * STRIDE],
            classes: std::array::from_fn(|byte| byte as u8),
            max: STRIDE as u32,
            quit: STRIDE as u32,
            min_match: 0,
            max_match: 0,
        }
    }

    fn fill(&mut self, row: usize, bytes: &[u8], inside: usize, outside: usize) {
        for byte in 0..=u8::MAX {
            let next = if bytes.contains(&byte) {
                inside
            } else {
                outside
            };
            self.words[row * STRIDE + byte as usize] = (next * STRIDE) as u32;
        }
    }

    fn is_match(&self, row: u32) -> bool {
        self.min_match <= row && row <= self.max_match && row != 0
    }

    fn checked(&self, row: u32, byte: u8) -> u32 {
        self.words[row as usize + self.classes[byte as usize] as usize]
    }

    fn unchecked(&self, row: u32, byte: u8) -> u32 {
        let column = self.classes[byte as usize] as usize;
        unsafe { *self.words.get_unchecked(row as usize + column) }
    }

    fn column_first(&self, row: u32, byte: u8) -> u32 {
        let column = self.classes[byte as usize] as usize;
        unsafe {
            *self
                .words
                .get_unchecked(column..)
                .get_unchecked(row as usize)
        }
    }
}

/// The last match that a walk tells, with the offset that `told` makes of its byte's, and how many bytes it reads.
#[inline(always)]
fn walk<'t>(
    table: &Table,
    bytes: impl Iterator<Item = (usize, &'t u8)>,
    next: impl Fn(&Table, u32, u8) -> u32,
    told: impl Fn(usize) -> usize,
    end: usize,
) -> (Answer, usize) {
    let (mut row, mut last, mut steps) = (HOME, None, 0);
    for (at, byte) in bytes {
        row = next(table, row, *byte);
        steps += 1;
        if row <= table.max {
            if table.is_match(row) {
                last = Some(told(at));
            } else if row == table.quit {
                return (Answer::Quit(at), steps);
            } else if row == 0 {
                return (Answer::Match(last), steps);
            }
        }
    }
    if table.is_match(table.words[row as usize + 256]) {
        last = Some(end);
    }
    (Answer::Match(last), steps + 1)
}

#[inline(always)]
fn forward(table: &Table, text: &[u8], next: impl Fn(&Table, u32, u8) -> u32) -> (Answer, usize) {
    walk(table, text.iter().enumerate(), next, |at| at, text.len())
}

#[inline(always)]
fn reverse(table: &Table, text: &[u8], next: impl Fn(&Table, u32, u8) -> u32) -> (Answer, usize) {
    walk(table, text.iter().enumerate().rev(), next, |at| at + 1, 0)
}

fn make_text(len: usize, every: usize) -> Vec<u8> {
    let mut seed: u64 = 7;
    let mut text = Vec::with_capacity(len);
    for at in 0..len {
        seed = seed
            .wrapping_mul(6364136223846793005)
            .wrapping_add(1442695040888963407);
        let is_needle = every > 0 && at % every == every - 1;
        text.push(if is_needle {
            b'x'
        } else {
            b'a' + ((seed >> 33) % 23) as u8
        });
    }
    text
}

fn main() {
    let words: Vec<String> = std::env::args().skip(1).collect();
    let number = |at: usize| words[at].parse::<usize>().expect("a number");
    let table = match words[0].as_str() {
        "literal" => Table::literal(),
        "halves" => Table::halves(),
        other => panic!("no table {other}"),
    };
    let text = make_text(number(1), number(2));
    let walks: [(&str, fn(&Table, &[u8]) -> Answer); 7] = [
        ("Forward", |table, text| {
            forward(table, text, Table::checked).0
        }),
        ("ForwardUnchecked", |table, text| {
            forward(table, text, Table::unchecked).0
        }),
        ("ForwardColumn", |table, text| {
            forward(table, text, Table::column_first).0
        }),
        ("ForwardSteps", |table, text| {
            Answer::Steps(forward(table, text, Table::unchecked).1)
        }),
        ("Reverse", |table, text| {
            reverse(table, text, Table::checked).0
        }),
        ("ReverseUnchecked", |table, text| {
            reverse(table, text, Table::unchecked).0
        }),
        ("ReverseColumn", |table, text| {
            reverse(table, text, Table::column_first).0
        }),
    ];
    for (name, walk) in walks {
        let mut least = Duration::MAX;
        for turn in 0..number(3) {
            let begin = Instant::now();
            let answer = walk(&table, &text);
            least = least.min(begin.elapsed());
            if turn == 0 {
                match answer {
                    Answer::Match(found) => println!("{name}: Match({found:?})"),
                    Answer::Quit(at) => println!("{name}: Quit({at})"),
                    Answer::Steps(steps) => println!("{name}: Steps({steps})"),
                }
            }
        }
        eprintln!("{name} {}", least.as_micros());
    }
}
