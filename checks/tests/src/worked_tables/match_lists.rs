//! The patterns of match rows.

use crate::worked_tables::checks::id_or_fail;
use rx_base::{PatternID, StateID};
use rx_dense::OwnedDFA;
use rx_search::Automaton;
use std::alloc::Global;
use std::collections::BTreeMap;
use std::test::Fail;

/// The patterns of match rows, by the rows' ids. No search starts in these rows: all start in one of two others.
pub(crate) fn lists(
    alloc: Global,
    dfa: &OwnedDFA,
    rows: &[(usize, &[u32])],
    starts: [usize; 2],
) -> Result<BTreeMap<StateID, Vec<PatternID>>, Fail> {
    let mut lists = BTreeMap::new(alloc);
    for (row, patterns) in rows {
        if *row < 2 {
            return Err(Fail::new("dead or quit is a match row"));
        }
        if starts.contains(row) {
            return Err(Fail::new("a search starts in a match row"));
        }
        let list = list(alloc, dfa, patterns)?;
        lists.insert(id_or_fail(dfa, *row)?, list)?;
    }
    Ok(lists)
}

/// Patterns of a table, at least one.
fn list(alloc: Global, dfa: &OwnedDFA, patterns: &[u32]) -> Result<Vec<PatternID>, Fail> {
    let mut list = Vec::new(alloc);
    for pattern in patterns {
        let id = PatternID::new(*pattern as usize)?;
        if id.as_usize() >= dfa.pattern_len() {
            return Err(Fail::new("a pattern is past the last"));
        }
        list.push(id)?;
    }
    if list.is_empty() {
        return Err(Fail::new("a match row has no patterns"));
    }
    Ok(list)
}
