//! Timing of sparse tables beside the dense tables that they are made of.

ghost use Rattle.std.specs.Prelude.{IfOk};
ghost use Rattle.rx_order.specs.RowOrder.{IsInOrder};
ghost use Rattle.rx_sparse.specs.Facts.{IsSoundLayout};

use crate::Fault;
use crate::least::Least;
use rx_base::{Input, MatchError, Unit};
use rx_build::BuildError;
use rx_dense::{OwnedDFA, State};
use rx_image::{DenseWrite, SparseRead, SparseWrite};
use rx_search::Automaton;
use rx_sparse::{DFA, ToSparse};
use rx_sparse_build::laws::special_ids_are_rows;
use std::alloc::Global;
use std::io;
use std::time::Instant;

/// The sizes of a dense table and of its sparse form.
#[derive(Clone, Copy, Debug)]
pub(crate) struct Sizes {
    /// The rows of both.
    pub(crate) rows: usize,
    /// The bytes of the dense table's image.
    pub(crate) dense: usize,
    /// The bytes of the sparse table's image.
    pub(crate) sparse: usize,
    /// The most ranges of a state.
    pub(crate) ranges: usize,
}

/// The least time of each part, and the number of matches.
#[derive(Clone, Copy, Debug)]
pub(crate) struct Turns {
    /// Making the dense table sparse.
    pub(crate) making: Least,
    /// Writing the image of the sparse table.
    pub(crate) writing: Least,
    /// Reading that image.
    pub(crate) reading: Least,
    /// Searching the text with the dense table.
    pub(crate) dense_walk: Least,
    /// Searching the text with the sparse table.
    pub(crate) sparse_walk: Least,
    /// The matches by the dense table.
    pub(crate) dense_matches: usize,
    /// The matches by the sparse table.
    pub(crate) sparse_matches: usize,
}

impl Turns {
    /// There was none.
    fn new() -> Turns {
        Turns {
            making: Least::new(),
            writing: Least::new(),
            reading: Least::new(),
            dense_walk: Least::new(),
            sparse_walk: Least::new(),
            dense_matches: 0,
            sparse_matches: 0,
        }
    }
}

/// The sizes of a table and of its sparse form.
pub(crate) fn table_sizes(alloc: Global, dense: &OwnedDFA) -> Result<Sizes, BuildError>
    requires { IsInOrder dense.now }
{
    let (sparse, rows) = sparse_table(alloc, dense)?;
    Ok(Sizes {
        rows,
        dense: dense.write_to_len(),
        sparse: sparse.write_to_len(),
        ranges: most_ranges(dense),
    })
}

/// Takes `repeats` turns: makes a table sparse, writes and reads the image, and searches a text with both tables.
pub(crate) fn take_turns(
    rt: &HostRuntime,
    dense: &OwnedDFA,
    repeats: u32,
    text: &[u8],
) -> Result<Turns, Fault>
    requires { IsInOrder dense.now }
{
    let mut turns = Turns::new();
    for _ in 0..repeats {
        take_turn(rt, dense, text, &mut turns)?;
    }
    Ok(turns)
}

/// Takes a turn. Keeps the times that are less than before.
fn take_turn(
    rt: &HostRuntime,
    dense: &OwnedDFA,
    text: &[u8],
    turns: &mut Turns,
) -> Result<(), Fault>
    requires { IsInOrder dense.now }
{
    let begin = Instant::now(rt)?;
    let (sparse, _) = sparse_table(rt.alloc(), dense)?;
    turns.making.take(begin.elapsed(rt)?);
    let image = time_writing(rt, &sparse, &mut turns.writing)?;
    time_reading(rt, image.as_slice(), &mut turns.reading)?;
    turns.dense_matches = time_walk(rt, dense, text, &mut turns.dense_walk)?;
    turns.sparse_matches = time_walk(rt, &sparse, text, &mut turns.sparse_walk)?;
    Ok(())
}

/// The sparse table of a dense one that was built, and how many rows it has.
fn sparse_table(alloc: Global, dense: &OwnedDFA) -> Result<(DFA<Vec<u8>>, usize), BuildError>
    requires { IsInOrder dense.now }
    ensures { IfOk result (λ x. IsSoundLayout x.0.layout) }
{
    let rows = dense.state_len();
    special_ids_are_rows();
    Ok((dense.to_sparse(alloc)?, rows))
}

/// The image of a sparse table in new memory. `least` takes the time to write it.
fn time_writing(
    rt: &HostRuntime,
    sparse: &DFA<Vec<u8>>,
    least: &mut Least,
) -> Result<Vec<u8>, Fault> {
    let begin = Instant::now(rt)?;
    let image = sparse
        .to_bytes_little_endian(rt.alloc())
        .map_err(|error| io::Error::from(error))?;
    least.take(begin.elapsed(rt)?);
    Ok(image)
}

/// Reads the image of a sparse table. `least` takes the time.
fn time_reading(rt: &HostRuntime, image: &[u8], least: &mut Least) -> Result<(), Fault> {
    let begin = Instant::now(rt)?;
    let read = DFA::<&[u8]>::from_bytes(rt.alloc(), image)?;
    least.take(begin.elapsed(rt)?);
    drop(read);
    Ok(())
}

/// The number of matches in a text. `least` takes the time to find them.
fn time_walk<A: Automaton>(
    rt: &HostRuntime,
    dfa: &A,
    text: &[u8],
    least: &mut Least,
) -> Result<usize, Fault>
    requires { A.IsSound dfa.now }
{
    let begin = Instant::now(rt)?;
    let matches = count_matches(dfa, text)?;
    least.take(begin.elapsed(rt)?);
    Ok(matches)
}

/// The number of matches in a text: each is sought from where the last one ends, and after the last one the text is
/// read to its end. It isn't inlined, so that the compiler doesn't specialize the search for one table.
#[inline(never)]
fn count_matches<A: Automaton>(dfa: &A, text: &[u8]) -> Result<usize, MatchError>
    requires { A.IsSound dfa.now }
{
    let mut matches = 0;
    let mut start = 0;
    for _ in 0..=text.len() {
        match next_start(dfa, text, start)? {
            None => return Ok(matches),
            Some(next) => start = next,
        }
        matches = matches.saturating_add(1);
    }
    Ok(matches)
}

/// Where the search for the next match begins: at the end of the match from `start` on, or one further if that match is
/// empty and lies at `start`.
fn next_start<A: Automaton>(dfa: &A, text: &[u8], start: usize) -> Result<Option<usize>, MatchError>
    requires { A.IsSound dfa.now }
{
    if start > text.len() {
        return Ok(None);
    }
    let input = Input::new(text).range(start, text.len());
    match dfa.try_search_fwd(&input)? {
        None => Ok(None),
        Some(end) => Ok(Some(end.offset().max(start.saturating_add(1)))),
    }
}

/// The most ranges that a row of a table has.
fn most_ranges(dfa: &OwnedDFA) -> usize {
    let mut most = 0usize;
    for row in dfa.states() {
        most = most.max(range_count(&row));
    }
    most
}

/// How many ranges of classes lead from a row elsewhere than to dead.
fn range_count(row: &State<'_>) -> usize {
    let mut count = 0usize;
    for (first, _, _) in row.sparse_transitions() {
        if matches!(first, Unit::Byte(_)) {
            count = count.saturating_add(1);
        }
    }
    count
}
