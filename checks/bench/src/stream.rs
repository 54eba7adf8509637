//! A search of a text in pieces beside a forward search: `bench stream FORM IMAGE TEXT TIMES`, where FORM is `dense`
//! or `sparse`.
//!
//! IMAGE is a file with an image of that form, as `image all` writes it, and TEXT is a file in which nothing matches.
//! The text is searched whole, and in pieces of 4,096 and of 65,536 bytes, each TIMES times. Standard output gets the
//! results, standard error the least time of each in microseconds.

ghost use Rattle.std.specs.Prelude.{◌≤◌, ◌^◌, length};

use crate::least::Least;
use crate::table_file::{Form, TableFile};
use crate::{Fault, words};
use rx_base::{Anchored, Input, MatchError};
use rx_dense::DFA;
use rx_image::{DenseRead, SparseRead};
use rx_search::Automaton;
use rx_sparse::DFA as SparseDFA;
use rx_stream::StreamSearcher;
use std::fs;
use std::time::Instant;

/// The longest text, 1 TiB.
const MOST: usize = 1 << 40;

/// The ways to search a text: whole, or in pieces of this length.
const WAYS: [Option<usize>; 3] = [None, Some(4096), Some(65536)];

/// Measures what the words ask for.
pub(crate) fn run(rt: &HostRuntime, words: &[&str]) -> Result<(), Fault> {
    let [form, image, text, times] = words else {
        return Err(Fault::Usage);
    };
    let times = words::times(times)?;
    let file = TableFile::read(rt, form, image)?;
    let text = fs::read(rt, text)?;
    if text.len() > MOST {
        return Err(Fault::Usage);
    }
    match file.form {
        Form::Dense => {
            let (table, _) = DFA::<Vec<u32>>::from_bytes(rt.alloc(), &file.bytes)?;
            measure_all(rt, &table, &text, times)
        }
        Form::Sparse => {
            let (table, _) = SparseDFA::<&[u8]>::from_bytes(rt.alloc(), &file.bytes)?;
            measure_all(rt, &table, &text, times)
        }
    }
}

/// Searches a text in each way.
fn measure_all<A: Automaton>(
    rt: &HostRuntime,
    table: &A,
    text: &[u8],
    times: u32,
) -> Result<(), Fault>
    requires sound { A.IsSound table.now }
    requires room { length text.now ≤ 2 ^ 62 }
{
    for way in WAYS {
        measure(rt, table, text, way, times)?;
    }
    Ok(())
}

/// Searches a text in one way TIMES times, and prints the result and the least time.
fn measure<A: Automaton>(
    rt: &HostRuntime,
    table: &A,
    text: &[u8],
    way: Option<usize>,
    times: u32,
) -> Result<(), Fault>
    requires sound { A.IsSound table.now }
    requires room { length text.now ≤ 2 ^ 62 }
{
    let mut least = Least::new();
    for turn in 0..times {
        let begin = Instant::now(rt)?;
        let found = search(table, text, way)?;
        least.take(begin.elapsed(rt)?);
        if turn == 0 {
            println!(rt; "{way:?}: {found}")?;
        }
    }
    eprintln!(rt; "{way:?} {}", least.micros())?;
    Ok(())
}

/// Whether a text has a match.
fn search<A: Automaton>(table: &A, text: &[u8], way: Option<usize>) -> Result<bool, MatchError>
    requires sound { A.IsSound table.now }
    requires room { length text.now ≤ 2 ^ 62 }
{
    match way {
        None => whole(table, text),
        Some(len) => feed(table, text, len.max(1)),
    }
}

#[inline(never)]
fn whole<A: Automaton>(table: &A, text: &[u8]) -> Result<bool, MatchError>
    requires { A.IsSound table.now }
{
    match table.try_search_fwd(&Input::new(text)) {
        Ok(found) => Ok(found.is_some()),
        Err(error) => Err(error),
    }
}

#[inline(never)]
fn feed<A: Automaton>(table: &A, text: &[u8], len: usize) -> Result<bool, MatchError>
    requires sound { A.IsSound table.now }
    requires room { length text.now ≤ 2 ^ 62 }
    requires some { 1 ≤ len }
{
    let mut searcher = StreamSearcher::<&A>::new(table, Anchored::No)?;
    let mut start = 0;
    'pieces: while start < text.len() {
        let end = text.len().min(start.saturating_add(len));
        if searcher.feed(&text[start..end], 0).event.is_some() {
            return Ok(true);
        }
        start = end;
    }
    Ok(searcher.finish().is_some())
}
