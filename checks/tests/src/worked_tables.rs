//! Dense tables worked by hand, for tests that list their rows.
//!
//! Rows are named by their numbers. Row 0 is dead, and row 1 is quit.

mod checks;
mod match_lists;

use checks::{id_or_fail, is_routed};
use match_lists::lists;
use rx_base::{Anchored, ByteClassSet, ByteSet, LookMatcher, Start, StartKind, Unit};
use rx_dense::{Flags, OwnedDFA};
use rx_order::shuffle;
use std::alloc::{AllocError, Global};
use std::test::Fail;

/// All start contexts.
const STARTS: [Start; 6] = [
    Start::NonWordByte,
    Start::WordByte,
    Start::Text,
    Start::LineLF,
    Start::LineCR,
    Start::CustomLineTerminator,
];

/// A table of three patterns, sound and in order. For each row after quit, `rows` has the targets of three columns; a
/// column is given by the last byte of each of its classes, or end of input. `matches` has the match rows with their
/// patterns. Unanchored searches start in the first of two rows, anchored ones in the second.
pub fn table(
    alloc: Global,
    columns: &[&[Unit]; 3],
    rows: &[[usize; 3]],
    matches: &[(usize, &[u32])],
    starts: [usize; 2],
) -> Result<OwnedDFA, Fail> {
    let mut dfa = begin(alloc, columns)?;
    for _ in rows {
        dfa.add_empty_state()?;
    }
    for (row, nexts) in rows.iter().enumerate() {
        fill(&mut dfa, columns, row + 2, nexts)?;
    }
    start_in(&mut dfa, starts)?;
    if !is_routed(&dfa) {
        return Err(Fail::new("dead or quit leads elsewhere, or an end mark or a search to quit"));
    }
    let matches = lists(alloc, &dfa, matches, starts)?;
    shuffle(alloc, &mut dfa, matches)?;
    Ok(dfa)
}

/// The dead and the quit row, with three patterns and the classes of the columns.
fn begin(alloc: Global, columns: &[&[Unit]; 3]) -> Result<OwnedDFA, AllocError> {
    let mut ends = ByteClassSet::empty();
    for units in columns {
        for unit in *units {
            if let Unit::Byte(last) = unit {
                ends.set_range(0, *last);
            }
        }
    }
    let flags = Flags {
        has_empty: false,
        is_utf8: false,
        is_always_start_anchored: false,
    };
    OwnedDFA::initial(
        alloc,
        ends.byte_classes(),
        3,
        StartKind::Both,
        &LookMatcher::new(b'\n'),
        false,
        ByteSet::empty(),
        flags,
    )
}

/// Sets the targets of a row's columns.
fn fill(
    dfa: &mut OwnedDFA,
    columns: &[&[Unit]; 3],
    row: usize,
    nexts: &[usize; 3],
) -> Result<(), Fail> {
    for (units, next) in columns.iter().zip(nexts) {
        for unit in *units {
            let from = id_or_fail(dfa, row)?;
            let to = id_or_fail(dfa, *next)?;
            dfa.set_transition(from, *unit, to);
        }
    }
    Ok(())
}

/// Makes unanchored and anchored searches start in these rows.
fn start_in(dfa: &mut OwnedDFA, rows: [usize; 2]) -> Result<(), Fail> {
    for start in &STARTS {
        let unanchored = id_or_fail(dfa, rows[0])?;
        dfa.set_start_state(Anchored::No, *start, unanchored);
        let anchored = id_or_fail(dfa, rows[1])?;
        dfa.set_start_state(Anchored::Yes, *start, anchored);
    }
    Ok(())
}
