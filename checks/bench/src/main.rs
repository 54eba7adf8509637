//! Times parts of the library: `bench SUBJECT WORDS..`.
//!
//! | subject | what is timed |
//! |---|---|
//! | `build` | builds of dense tables, searches with them, and the sparse tables that are made of them |
//! | `equal` | comparisons of two tables |
//! | `image` | reading and writing the image of a dense table |
//! | `refine` | the refinement of a partition, which minimizing uses |
//! | `scan` | the token scanner |
//! | `search` | searches of one dense table |
//! | `stream` | a search of a text in pieces |
//!
//! The head of each subject's module gives its words. Standard output gets what was built or found, and standard error
//! the times. `bench each` runs every subject once on a small input.
//!
//! If a subject isn't measured, standard error says why. The status is 2 for wrong words, 3 if a script has a fault, a
//! table can't be built or a search ends with an error, and 1 if memory, the clock, a file, an image or an output
//! failed.
#![tactic(auto)]

mod build;
mod equal;
mod fault;
mod image;
mod least;
mod refine;
mod scan;
mod search;
mod stream;
mod table_file;
mod words;

use fault::Fault;
use std::env;
use std::process::ExitCode;

/// What `bench each` runs: a small input for each subject. The files are in `data/`.
const EACH: [&[&str]; 7] = [
    &["build", "two.script", "1", "parts"],
    &[
        "equal",
        "dense",
        "first.image",
        "sparse",
        "sparse.image",
        "2",
    ],
    &["image", "20", "1"],
    &["refine", "chain", "16", "2"],
    &["scan", "sparse", "lexer.image", "source.txt", "1"],
    &["search", "halves", "100", "0", "1"],
    &["stream", "sparse", "alarms.image", "text.txt", "1"],
];

fn main(rt: HostRuntime) -> ExitCode {
    match run(&rt) {
        Ok(()) => ExitCode::SUCCESS,
        Err(fault) => {
            let _ = eprintln!(rt; "{fault}");
            fault.status()
        }
    }
}

/// Measures what the program's words ask for.
fn run(rt: &HostRuntime) -> Result<(), Fault> {
    let args: Vec<String> = env::args(rt)?.skip(1).collect(rt.alloc())?;
    let words: Vec<&str> = args.iter().map(|arg| arg.as_str()).collect(rt.alloc())?;
    match words.as_slice() {
        [word] if *word == "each" => measure_each(rt),
        words => measure(rt, words),
    }
}

/// Measures every subject once.
fn measure_each(rt: &HostRuntime) -> Result<(), Fault> {
    for words in EACH {
        measure(rt, words)?;
    }
    Ok(())
}

/// Measures one subject: the first word names it.
fn measure(rt: &HostRuntime, words: &[&str]) -> Result<(), Fault> {
    let [subject, words @ ..] = words else {
        return Err(Fault::Usage);
    };
    match *subject {
        "build" => build::run(rt, words),
        "equal" => equal::run(rt, words),
        "image" => image::run(rt, words),
        "refine" => refine::run(rt, words),
        "scan" => scan::run(rt, words),
        "search" => search::run(rt, words),
        "stream" => stream::run(rt, words),
        _ => Err(Fault::Usage),
    }
}
