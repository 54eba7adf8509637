//! Tests of the order of rows and of acceleration, on tables worked by hand and on a large one.

use crate::worked_tables::table;
use rx_base::Unit;
use rx_dense::OwnedDFA;
use rx_order::accelerate;
use rx_search::Automaton;
use std::process::Abort;
use std::test::Fail;

/// The special rows of a table: quit and the last special row, then the first and the last match row, accelerated row
/// and start row.
type Order = [[usize; 2]; 4];

/// A table to build, and its special rows before and after it is accelerated. Rows are named by their numbers.
#[derive(Clone, Copy)]
struct Case<'c> {
    /// The targets of a space, an `a`, and the other bytes, for each row after quit.
    rows: &'c [[usize; 3]],
    /// The patterns of the match rows.
    matches: &'c [(usize, &'c [u32])],
    /// The row in which unanchored searches start.
    start: usize,
    shuffled: Order,
    accelerated: Order,
}

/// A space, an `a`, and the other bytes.
const COLUMNS: [&[Unit]; 3] = [
    &[Unit::Byte(b' ')],
    &[Unit::Byte(b'a')],
    &[Unit::Byte(31), Unit::Byte(b'`'), Unit::Byte(255)],
];

/// The patterns of even and of odd match rows in the large table.
const LISTS: [&[u32]; 2] = [&[0], &[1]];

/// Tables worked by hand.
const SMALL: [Case; 3] = [
    // many bytes leave each row, so no row is accelerated; match rows lie between others
    Case {
        rows: &[[0, 3, 4], [0, 5, 2], [0, 2, 0], [0, 0, 6], [2, 3, 4]],
        matches: &[(3, &[1]), (5, &[0, 2])],
        start: 6,
        shuffled: [[1, 4], [2, 3], [0, 0], [4, 4]],
        accelerated: [[1, 4], [2, 3], [0, 0], [4, 4]],
    },
    // only an `a` leaves the start row and row 4, and match rows keep their places
    Case {
        rows: &[[2, 3, 2], [0, 4, 0], [4, 5, 4], [2, 0, 0]],
        matches: &[(3, &[0]), (5, &[1, 0])],
        start: 2,
        shuffled: [[1, 4], [2, 3], [0, 0], [4, 4]],
        accelerated: [[1, 5], [2, 3], [4, 5], [5, 5]],
    },
    // the first match row is accelerated and changes places with the second; a space leaves the start row
    Case {
        rows: &[[3, 4, 2], [3, 4, 3], [0, 5, 0], [5, 2, 5]],
        matches: &[(3, &[2]), (4, &[0, 1]), (5, &[1])],
        start: 2,
        shuffled: [[1, 5], [2, 4], [0, 0], [5, 5]],
        accelerated: [[1, 5], [2, 4], [3, 4], [5, 5]],
    },
];

/// Asserts the special rows of a table.
fn check_order(rt: &impl Abort, dfa: &OwnedDFA, order: &Order) {
    let special = dfa.special();
    let ids = [
        [special.quit, special.max],
        [special.min_match, special.max_match],
        [special.min_accel, special.max_accel],
        [special.min_start, special.max_start],
    ];
    let stride2 = dfa.stride2();
    for (range, rows) in ids.iter().zip(order) {
        assert_eq!(rt; range.map(|id| id.as_usize() >> stride2), *rows);
    }
}

#[test]
fn small_tables(rt: HostRuntime) -> Result<(), Fail> {
    let alloc = rt.alloc();
    for case in &SMALL {
        let mut dfa = table(alloc, &COLUMNS, case.rows, case.matches, [case.start, 0])?;
        check_order(&rt, &dfa, &case.shuffled);
        accelerate(alloc, &mut dfa)?;
        check_order(&rt, &dfa, &case.accelerated);
    }
    Ok(())
}

/// An `a` leads from each row to the next. Other bytes lead even rows to themselves and odd rows to dead. Every third
/// row is a match row: of pattern 0 if it is even, and of pattern 1 if it is odd.
#[test]
fn large_tables(rt: HostRuntime) -> Result<(), Fail> {
    let alloc = rt.alloc();
    let mut rows = Vec::new(alloc);
    let mut matches = Vec::new(alloc);
    for row in 2..100000 {
        let stays = if row % 2 == 0 { row } else { 0 };
        rows.push([stays, (row + 1) % 100000, stays])?;
        if row % 3 == 0 {
            matches.push((row, LISTS[row % 2]))?;
        }
    }
    let mut dfa = table(alloc, &COLUMNS, &rows, &matches, [2, 0])?;
    let special = [[1, 33335], [2, 33334], [0, 0], [33335, 33335]];
    check_order(&rt, &dfa, &special);
    accelerate(alloc, &mut dfa)?;
    let special = [[1, 66667], [2, 33334], [16669, 66667], [66667, 66667]];
    check_order(&rt, &dfa, &special);
    Ok(())
}
