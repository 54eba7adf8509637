//! Tests that dense tables are made sparse, and that searches of both skip.

use crate::notation::read;
use rx_base::{Anchored, HalfMatch, Input, MatchError, PatternID, Steps, Tally};
use rx_build::dense::Builder;
use rx_dense::OwnedDFA;
use rx_expr::thompson;
use rx_search::{Automaton, Cursor, find_fwd_counted};
use rx_sparse::ToSparse;
use std::alloc::Global;
use std::test::Fail;

/// The dense table of some patterns.
fn build(alloc: Global, patterns: &str) -> Result<OwnedDFA, Fail> {
    let exprs = read(alloc, patterns)?;
    let mut builder = Builder::new();
    builder.thompson(thompson::Config::new().utf8(false));
    Ok(builder.build_many(alloc, &exprs)?)
}

/// The result of a counted search from the start of a text, and its ticks.
fn counted<A: Automaton>(dfa: &A, text: &[u8]) -> Result<(Option<HalfMatch>, u64), MatchError> {
    let input = Input::new(text).anchored(Anchored::Yes);
    let mut cursor = Cursor::<&A, Tally>::forward(dfa, &input)?;
    let mut steps = Steps::new(Tally);
    let end = find_fwd_counted(&mut cursor, &input, &mut steps)?;
    Ok((end, steps.count()))
}

#[test]
fn sparse_tables_skip_as_dense_ones(rt: HostRuntime) -> Result<(), Fail> {
    let alloc = rt.alloc();
    // Three steps: a byte is read from the start row, `x` leaves that row, and so does the unit after the span.
    let dense = build(alloc, "[^x] {0,}")?;
    let sparse = dense.to_sparse(alloc)?;
    let want = HalfMatch::new(PatternID::new(0)?, 3);
    for (end, ticks) in [counted(&dense, b"aaaxaa")?, counted(&sparse, b"aaaxaa")?] {
        assert!(&rt; end == Some(want) && ticks <= 4, "{end:?} {ticks}");
    }
    Ok(())
}
