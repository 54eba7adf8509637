//! Tests of minimizing: how many states are left of tables worked by hand, and of long chains.

use crate::worked_tables::table;
use rx_base::Unit;
use rx_dense::OwnedDFA;
use rx_minimize::{Minimizer, minimize};
use std::alloc::Global;
use std::test::Fail;

/// Bytes up to `a`, the other bytes, and end of input.
const COLUMNS: [&[Unit]; 3] = [&[Unit::Byte(b'a')], &[Unit::Byte(255)], &[Unit::Eoi]];

/// A table to build.
#[derive(Clone, Copy)]
struct Case<'c> {
    /// The next rows of each row after quit.
    rows: &'c [[usize; 3]],
    /// The patterns of the match rows.
    matches: &'c [(usize, &'c [u32])],
    /// The rows in which searches start.
    unanchored: usize,
    anchored: usize,
}

impl Case<'_> {
    /// The table, with its rows in order.
    fn table(&self, alloc: Global) -> Result<OwnedDFA, Fail> {
        table(
            alloc,
            &COLUMNS,
            self.rows,
            self.matches,
            [self.unanchored, self.anchored],
        )
    }
}

/// The tables, each with the number of rows that are left. A row gives the target of the bytes up to `a`, that of the
/// other bytes, and that of end of input.
const CASES: [(Case, usize); 8] = [
    // dead and quit alone
    (
        Case {
            rows: &[],
            matches: &[],
            unanchored: 0,
            anchored: 0,
        },
        2,
    ),
    // nothing to merge: row 2 waits for an a, row 3 for another byte, and row 4 is a match row
    (
        Case {
            rows: &[[3, 2, 0], [3, 4, 0], [3, 2, 0]],
            matches: &[(4, &[0])],
            unanchored: 2,
            anchored: 3,
        },
        5,
    ),
    // six match rows that lead to dead, with four pattern lists
    (
        Case {
            rows: &[
                [5, 4, 3],
                [10, 6, 0],
                [8, 9, 7],
                [0, 0, 0],
                [0, 0, 0],
                [0, 0, 0],
                [0, 0, 0],
                [0, 0, 0],
                [0, 0, 0],
            ],
            matches: &[
                (5, &[0]),
                (6, &[1]),
                (7, &[0, 1]),
                (8, &[1, 0]),
                (9, &[0, 1]),
                (10, &[0]),
            ],
            unanchored: 2,
            anchored: 4,
        },
        9,
    ),
    // rows 3 and 4 lead to each other and never match, so they behave like dead; anchored searches start there
    (
        Case {
            rows: &[[3, 5, 4], [4, 3, 4], [4, 4, 3], [4, 3, 0]],
            matches: &[(5, &[2])],
            unanchored: 2,
            anchored: 4,
        },
        4,
    ),
    // row 3 leads to quit, and row 4 to dead
    (
        Case {
            rows: &[[3, 4, 5], [1, 0, 0], [0, 0, 0], [1, 0, 0]],
            matches: &[],
            unanchored: 2,
            anchored: 2,
        },
        4,
    ),
    // searches start in row 5, which behaves like row 2
    (
        Case {
            rows: &[[3, 2, 0], [4, 5, 0], [0, 0, 0], [3, 5, 0]],
            matches: &[(4, &[1])],
            unanchored: 5,
            anchored: 2,
        },
        5,
    ),
    // a copy of the start row in which no search starts
    (
        Case {
            rows: &[[3, 5, 0], [4, 2, 0], [0, 0, 0], [3, 2, 0]],
            matches: &[(4, &[1])],
            unanchored: 5,
            anchored: 0,
        },
        5,
    ),
    // only end of input leads from one match row to another with other patterns
    (
        Case {
            rows: &[[3, 4, 0], [3, 3, 5], [4, 4, 6], [0, 0, 0], [0, 0, 0]],
            matches: &[(3, &[0]), (4, &[0]), (5, &[1]), (6, &[2])],
            unanchored: 2,
            anchored: 2,
        },
        7,
    ),
];

#[test]
fn as_few_rows_as_possible_are_left(rt: HostRuntime) -> Result<(), Fail> {
    let alloc = rt.alloc();
    for (case, left) in &CASES {
        let mut dfa = case.table(alloc)?;
        minimize(alloc, &mut dfa)?;
        assert_eq!(rt; dfa.state_len(), *left);
    }
    Ok(())
}

/// A chain of `2 * count` rows: each leads to the next on any byte, and the last to a match row. If `twice` is set,
/// there are two chains to the match row, and each row of the second behaves like one of the first.
fn chains(alloc: Global, count: usize, twice: bool) -> Result<Vec<[usize; 3]>, Fail> {
    let mut rows = Vec::new(alloc);
    for row in 2..2 * count + 2 {
        let next = if row == count + 1 && twice {
            2 * count + 2
        } else {
            row + 1
        };
        rows.push([next, next, 0])?;
    }
    rows.push([0, 0, 0])?;
    Ok(rows)
}

#[test]
fn long_chains(rt: HostRuntime) -> Result<(), Fail> {
    let alloc = rt.alloc();
    for (twice, left) in [(false, 1003), (true, 503)] {
        let rows = chains(alloc, 500, twice)?;
        let case = Case {
            rows: &rows,
            matches: &[(1002, &[0])],
            unanchored: 2,
            anchored: 502,
        };
        let mut dfa = case.table(alloc)?;
        Minimizer::new(alloc, &mut dfa)?.run()?;
        assert_eq!(rt; dfa.state_len(), left);
    }
    Ok(())
}
