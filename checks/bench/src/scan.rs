//! The token scanner: `bench scan FORM IMAGE TEXT TIMES`, where FORM is `dense` or `sparse`.
//!
//! IMAGE is a file with an image of that form, as `image all` writes it, and TEXT is a file. The text is cut into
//! tokens TIMES times. Standard output gets the number of tokens, the sum of their patterns and of their lines, and
//! where they end. Standard error gets the least time in microseconds.

use crate::least::Least;
use crate::table_file::{Form, TableFile};
use crate::{Fault, words};
use rx_dense::DFA;
use rx_image::{DenseRead, SparseRead};
use rx_scan::{ScanEnd, Scanner};
use rx_search::Automaton;
use rx_sparse::DFA as SparseDFA;
use std::time::Instant;
use std::{fs, io};

/// The sums over the tokens of a text.
#[derive(Clone, Copy)]
struct Totals {
    tokens: u64,
    patterns: u64,
    lines: u64,
    end: Option<ScanEnd>,
}

/// Measures what the words ask for.
pub(crate) fn run(rt: &HostRuntime, words: &[&str]) -> Result<(), Fault> {
    let [form, image, text, times] = words else {
        return Err(Fault::Usage);
    };
    let times = words::times(times)?;
    let file = TableFile::read(rt, form, image)?;
    let text = fs::read(rt, text)?;
    match file.form {
        Form::Dense => {
            let (table, _) = DFA::<Vec<u32>>::from_bytes(rt.alloc(), &file.bytes)?;
            measure(rt, &table, &text, times)?;
        }
        Form::Sparse => {
            let (table, _) = SparseDFA::<&[u8]>::from_bytes(rt.alloc(), &file.bytes)?;
            measure(rt, &table, &text, times)?;
        }
    }
    Ok(())
}

/// Cuts a text into tokens and sums up their patterns and lines.
fn scan<A: Automaton>(table: &A, text: &[u8]) -> Totals
    requires { A.IsSound table.now }
{
    let mut totals = Totals {
        tokens: 0,
        patterns: 0,
        lines: 0,
        end: None,
    };
    let mut scanner = Scanner::new(table, text);
    for token in &mut scanner {
        totals.tokens = totals.tokens.wrapping_add(1);
        totals.patterns = totals
            .patterns
            .wrapping_add(u64::from(token.pattern.as_u32()));
        totals.lines = totals.lines.wrapping_add(token.line);
    }
    totals.end = scanner.end();
    totals
}

/// Cuts a text into tokens TIMES times, and prints the sums and the least time.
fn measure<A: Automaton>(rt: &HostRuntime, table: &A, text: &[u8], times: u32) -> io::Result<()>
    requires { A.IsSound table.now }
{
    let mut least = Least::new();
    for turn in 0..times {
        let begin = Instant::now(rt)?;
        let totals = scan(table, text);
        least.take(begin.elapsed(rt)?);
        if turn == 0 {
            let (tokens, patterns, lines) = (totals.tokens, totals.patterns, totals.lines);
            println!(rt;
                "tokens {tokens} patterns {patterns} lines {lines} end {:?}",
                totals.end
            )?;
        }
    }
    eprintln!(rt; "{}", least.micros())
}
