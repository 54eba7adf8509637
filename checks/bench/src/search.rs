//! Searches of one dense table: `bench search TABLE LEN EVERY TIMES`, where TABLE is `literal`, `halves`, `one`, `two`
//! or `three`.
//!
//! The text has LEN bytes; every EVERY-th byte is a needle, or none if EVERY is 0. Each search is made TIMES times.
//! Standard output gets the results, standard error the least time of each search in microseconds.
//!
//! `peer/search.rs` has the same walks in plain Rust; `compare_search` times both in turns.

ghost use Rattle.std.specs.Prelude.{◌≤◌, IfOk};
ghost use Rattle.rx_dense.specs.Facts.{IsSoundLayout};

mod searches;
mod tables;
mod texts;

use crate::least::Least;
use crate::{Fault, words};
use rx_dense::OwnedDFA;
use searches::{SEARCHES, Search};
use std::io;
use std::time::Instant;
use tables::{Kind, make_table};
use texts::make_text;

/// The longest text, 1 GiB.
const MAX_LEN: usize = 1 << 30;

/// Measures what the words ask for.
pub(crate) fn run(rt: &HostRuntime, words: &[&str]) -> Result<(), Fault> {
    let [kind, len, every, times] = words else {
        return Err(Fault::Usage);
    };
    let kind = Kind::named(kind).ok_or(Fault::Usage)?;
    let len = words::number(len, 0, MAX_LEN)?;
    let every = words::number(every, 0, MAX_LEN)?;
    let times = words::times(times)?;
    let alloc = rt.alloc();
    let dfa = make_table(alloc, kind)?;
    let text = make_text(alloc, len, every)?;
    for search in &SEARCHES {
        measure(rt, *search, &dfa, &text, times)?;
    }
    Ok(())
}

/// Makes a search TIMES times, and prints the result and the least time.
fn measure(
    rt: &HostRuntime,
    search: Search,
    dfa: &OwnedDFA,
    text: &[u8],
    times: u32,
) -> io::Result<()>
    requires { IsSoundLayout dfa.now }
{
    let mut least = Least::new();
    for turn in 0..times {
        let begin = Instant::now(rt)?;
        let answer = search.run(dfa, text);
        least.take(begin.elapsed(rt)?);
        if turn == 0 {
            println!(rt; "{search:?}: {answer:?}")?;
        }
    }
    eprintln!(rt; "{search:?} {}", least.micros())
}
