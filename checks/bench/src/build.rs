//! Builds of dense tables, searches with them, and the sparse tables that are made of them: `bench build FILE REPEATS
//! [parts]`, `bench build FILE REPEATS find TEXT`, or `bench build FILE REPEATS sparse TEXT`.
//!
//! FILE is a script without an input; its plan isn't used. Two tables are built of all expressions, REPEATS
//! times: the forward one, which gives the ends of leftmost-first matches from an anchored and an unanchored start, and
//! the reverse one, which is anchored, reports all matches and gives their starts. UTF-8 mode is off.
//!
//! Standard output gets the sizes of the tables, standard error the least time of each part of a build, in
//! microseconds. With `parts` each NFA is also made into a table without acceleration and into a minimized one without
//! acceleration, which gives the times of these steps.
//!
//! With `find` both tables are built once, and all matches in the file TEXT are found, REPEATS times. Standard output
//! gets the number of matches and of their bytes, standard error the least time in microseconds.
//!
//! With `sparse` the forward table is built once, without acceleration. REPEATS times, in turns, it is made sparse, the
//! image of the sparse table is written and read, and the file TEXT is searched by half searches with each table: each
//! match is sought from where the last one ends. Standard output gets the number of states, the lengths of both images,
//! the most ranges of a state, and the number of matches of each table; standard error the least time of each part, in
//! microseconds.

mod builds;
mod matches;
mod sparse;

use crate::{Fault, words};
use builds::{BuildTimes, Direction, Parts, measure, plain_table};
use matches::time_matches;
use rx_build::dense::OwnedDFA;
use rx_expr::Expr;
use rx_script::{Exprs, ScriptFault, read_script};
use sparse::{Sizes, Turns, table_sizes, take_turns};
use std::alloc::AllocError;
use std::{fs, io};

/// Measures what the words ask for.
pub(crate) fn run(rt: &HostRuntime, words: &[&str]) -> Result<(), Fault> {
    let [file, repeats, rest @ ..] = words else {
        return Err(Fault::Usage);
    };
    let repeats = words::times(repeats)?;
    let exprs = read_file(rt, file)?;
    match rest {
        [] => time_builds(rt, exprs.as_slice(), repeats, Parts::Whole),
        [word] if *word == "parts" => time_builds(rt, exprs.as_slice(), repeats, Parts::Apart),
        [word, text] if *word == "find" => find_all(rt, exprs.as_slice(), repeats, text),
        [word, text] if *word == "sparse" => time_sparse(rt, exprs.as_slice(), repeats, text),
        _ => Err(Fault::Usage),
    }
}

/// The expressions of a script.
fn read_file(rt: &HostRuntime, path: &str) -> Result<Exprs, Fault> {
    let text = fs::read(rt, path)?;
    match read_script(rt.alloc(), &text, false) {
        Ok(script) => Ok(script.exprs),
        Err(ScriptFault::Bad { line, kind }) => Err(Fault::Script { line, kind }),
        Err(ScriptFault::Memory) => Err(Fault::Memory(AllocError)),
    }
}

/// Builds both tables `repeats` times, and prints their sizes and the times.
fn time_builds(rt: &HostRuntime, exprs: &[Expr], repeats: u32, parts: Parts) -> Result<(), Fault> {
    let mut forward = BuildTimes::new();
    let mut reverse = BuildTimes::new();
    for turn in 0..repeats {
        let ends = measure(rt, exprs, Direction::Forward, parts, &mut forward)?;
        let starts = measure(rt, exprs, Direction::Reverse, parts, &mut reverse)?;
        if turn == 0 {
            tell_size(rt, Direction::Forward, &ends)?;
            tell_size(rt, Direction::Reverse, &starts)?;
        }
    }
    tell_times(rt, Direction::Forward, parts, &forward)?;
    tell_times(rt, Direction::Reverse, parts, &reverse)?;
    Ok(())
}

/// Finds all matches in a text `repeats` times, and prints their number and the time.
fn find_all(rt: &HostRuntime, exprs: &[Expr], repeats: u32, path: &str) -> Result<(), Fault> {
    let text = fs::read(rt, path)?;
    let (found, time) = time_matches(rt, exprs, repeats, &text)?;
    println!(rt; "{} matches, {} bytes", found.count, found.bytes)?;
    eprintln!(rt; "{} microseconds", time.micros())?;
    Ok(())
}

/// Makes the forward table sparse `repeats` times and searches a text with both tables. Prints the sizes and the times.
fn time_sparse(rt: &HostRuntime, exprs: &[Expr], repeats: u32, path: &str) -> Result<(), Fault> {
    let text = fs::read(rt, path)?;
    let dense = plain_table(rt.alloc(), exprs)?;
    tell_sizes(rt, &table_sizes(rt.alloc(), &dense)?)?;
    let turns = take_turns(rt, &dense, repeats, &text)?;
    tell_turns(rt, &turns)?;
    Ok(())
}

/// Prints the size of a table.
fn tell_size(rt: &impl Print, direction: Direction, dfa: &OwnedDFA) -> io::Result<()> {
    println!(rt;
        "{direction:?}: {} rows, {} units, {} bytes",
        dfa.state_len(),
        dfa.alphabet_len(),
        dfa.memory_usage()
    )
}

/// Prints the times of the parts of the builds, in microseconds.
fn tell_times(
    rt: &impl Eprint,
    direction: Direction,
    parts: Parts,
    least: &BuildTimes,
) -> io::Result<()> {
    eprintln!(rt;
        "{direction:?}: NFA {}, table {}",
        least.nfa.micros(),
        least.table.micros()
    )?;
    if parts == Parts::Whole {
        return Ok(());
    }
    eprintln!(rt;
        "{direction:?}: without needles {}, minimized {} to {} rows, minimizing {} ns a cell",
        least.plain.micros(),
        least.minimized.micros(),
        least.rows_left,
        least.minimizing()
    )
}

/// Prints the sizes of a table and its sparse form.
fn tell_sizes(rt: &impl Print, sizes: &Sizes) -> io::Result<()> {
    println!(rt;
        "{} rows, dense {} bytes, sparse {} bytes, at most {} ranges",
        sizes.rows, sizes.dense, sizes.sparse, sizes.ranges
    )
}

/// Prints the number of matches by both tables and the times of what was done with them, in microseconds.
fn tell_turns(rt: &(impl Print + Eprint), turns: &Turns) -> io::Result<()> {
    println!(rt;
        "matches: dense {}, sparse {}",
        turns.dense_matches, turns.sparse_matches
    )?;
    eprintln!(rt;
        "made {}, written {}, read {}, dense walk {}, sparse walk {}",
        turns.making.micros(),
        turns.writing.micros(),
        turns.reading.micros(),
        turns.dense_walk.micros(),
        turns.sparse_walk.micros()
    )
}
