//! Searches that are timed.

use crate::Fault;
use crate::least::Least;
use rx_base::{Input, MatchError};
use rx_dense::OwnedDFA;
use rx_expr::{Expr, thompson};
use rx_pair::Regex;
use rx_regex_builder::Builder;
use std::time::Instant;

/// How many matches there are, and how many bytes they have.
#[derive(Clone, Copy, Debug, PartialEq, Eq)]
pub(crate) struct Matches {
    /// The matches.
    pub(crate) count: u64,
    /// Their bytes.
    pub(crate) bytes: u64,
}

/// Finds all matches in a text `repeats` times. Returns what was found, and the least time.
pub(crate) fn time_matches(
    rt: &HostRuntime,
    exprs: &[Expr],
    repeats: u32,
    text: &[u8],
) -> Result<(Matches, Least), Fault> {
    let mut builder = Builder::new();
    builder.thompson(thompson::Config::new().utf8(false));
    let regex = builder.build_many(rt.alloc(), exprs)?;
    let mut found = Matches { count: 0, bytes: 0 };
    let mut least = Least::new();
    for _ in 0..repeats {
        let begin = Instant::now(rt)?;
        found = count_matches(&regex, text)?;
        least.take(begin.elapsed(rt)?);
    }
    Ok((found, least))
}

/// All matches in a text.
fn count_matches(regex: &Regex<OwnedDFA>, text: &[u8]) -> Result<Matches, MatchError> {
    let mut found = Matches { count: 0, bytes: 0 };
    for item in regex.find_iter(&Input::new(text)) {
        let piece = item?;
        found.count = found.count.wrapping_add(1);
        found.bytes = found
            .bytes
            .wrapping_add(text[piece.start()..piece.end()].len() as u64);
    }
    Ok(found)
}
