//! Comparisons of two tables: `bench equal FORM IMAGE FORM IMAGE TIMES`, where FORM is `dense` or `sparse`.
//!
//! An IMAGE is a file with an image of the form before it. The tables are compared TIMES times. Standard output gets
//! the number of pairs of states, or the length of a shortest word at which the tables differ, and whether the checkers
//! accept the result. Standard error gets the least times of a comparison and of a check, in microseconds.
//!
//! `peer/equal.rs` writes tables and has the same comparison in plain Rust; `compare_equal` times both in turns.

ghost use Rattle.std.specs.Prelude.{◌≤◌};

use crate::least::Least;
use crate::table_file::{Form, TableFile};
use crate::{Fault, words};
use rx_dense::DFA;
use rx_image::{DenseRead, SparseRead};
use rx_equal::{Verdict, check_links, check_parting, compare};
use rx_search::Automaton;
use rx_sparse::DFA as SparseDFA;
use std::time::Instant;

/// The most patterns of a table that is compared.
const MAX_PATTERNS: usize = 65536;

/// Measures what the words ask for.
pub(crate) fn run(rt: &HostRuntime, words: &[&str]) -> Result<(), Fault> {
    let [form, image, other_form, other_image, times] = words else {
        return Err(Fault::Usage);
    };
    let times = words::times(times)?;
    let first = TableFile::read(rt, form, image)?;
    let second = TableFile::read(rt, other_form, other_image)?;
    match first.form {
        Form::Dense => {
            let (table, _) = DFA::<Vec<u32>>::from_bytes(rt.alloc(), &first.bytes)?;
            measure_with(rt, &table, &second, times)
        }
        Form::Sparse => {
            let (table, _) = SparseDFA::<&[u8]>::from_bytes(rt.alloc(), &first.bytes)?;
            measure_with(rt, &table, &second, times)
        }
    }
}

/// Measures comparisons of a table and that of a file.
fn measure_with<A: Automaton>(
    rt: &HostRuntime,
    table: &A,
    second: &TableFile,
    times: u32,
) -> Result<(), Fault>
    requires { A.IsSound table.now }
{
    match second.form {
        Form::Dense => {
            let (other, _) = DFA::<Vec<u32>>::from_bytes(rt.alloc(), &second.bytes)?;
            measure(rt, table, &other, times)
        }
        Form::Sparse => {
            let (other, _) = SparseDFA::<&[u8]>::from_bytes(rt.alloc(), &second.bytes)?;
            measure(rt, table, &other, times)
        }
    }
}

/// Compares two tables TIMES times, and prints the result and the least times.
fn measure<A: Automaton, B: Automaton>(
    rt: &HostRuntime,
    table: &A,
    other: &B,
    times: u32,
) -> Result<(), Fault>
    requires sound { A.IsSound table.now }
    requires other_sound { B.IsSound other.now }
{
    if table.pattern_len() > MAX_PATTERNS || other.pattern_len() > MAX_PATTERNS {
        return Err(Fault::Patterns);
    }
    let alloc = rt.alloc();
    let mut least = Least::new();
    let mut least_check = Least::new();
    for turn in 0..times {
        let begin = Instant::now(rt)?;
        let verdict = compare(alloc, table, other)?;
        least.take(begin.elapsed(rt)?);
        let begin = Instant::now(rt)?;
        let (word, len, holds) = match &verdict {
            Verdict::Equal(links) => (
                "equal",
                links.len(),
                check_links(alloc, table, other, links)?,
            ),
            Verdict::Differ(parting) => (
                "differ",
                parting.word.len(),
                check_parting(table, other, parting),
            ),
        };
        least_check.take(begin.elapsed(rt)?);
        if turn == 0 {
            println!(rt; "{word} {len} {holds}")?;
        }
    }
    eprintln!(rt; "compare {} check {}", least.micros(), least_check.micros())?;
    Ok(())
}
