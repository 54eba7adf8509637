//! Tests of the refinement on tables worked by hand and on long chains, of row numbers and of ids.
//!
//! The tests assert the requirements of the refinement for each table, so a table can come from anywhere.

use rx_refine::*;
use rx_spec::Tally;
use std::alloc::{AllocError, Global};
use std::process::Abort;
use std::test::Fail;

/// A table: the number of units, the next row of each row for each unit, and the label of each row.
#[derive(Clone, Copy)]
struct Table<'a> {
    units: usize,
    next: &'a [u32],
    labels: &'a [u32],
}

/// Whether each number is below a bound.
fn are_below(numbers: &[u32], bound: usize) -> bool {
    numbers.iter().all(|number| (*number as usize) < bound)
}

/// The block of each row, and the number of steps.
fn refined(
    alloc: Global,
    incoming: &Incoming<Tally>,
    labels: &[u32],
) -> Result<(Vec<u32>, u64), AllocError> {
    let mut steps = Steps::new(Tally);
    let blocks = refine(alloc, incoming, labels, &mut steps)?;
    Ok((blocks, steps.count()))
}

/// The greatest block number. Asserts that blocks and steps are the same for rows without gaps and for the same rows as
/// ids, `1 << stride2` entries apart.
fn compared_in_place(
    rt: &impl Abort,
    alloc: Global,
    table: Table<'_>,
    stride2: usize,
) -> Result<Option<u32>, Fail> {
    let Table {
        units,
        next,
        labels,
    } = table;
    let rows = labels.len();
    assert!(rt; units <= 64 && rows <= 1048576);
    assert!(rt; units <= 1 << stride2 && next.len() == rows * units);
    assert!(rt; are_below(next, rows) && are_below(labels, rows));
    let incoming = Incoming::new(alloc, rows, units, next)?;
    let told = refined(alloc, &incoming, labels)?;
    let entries = padded(alloc, rows, units, 1 << stride2, next)?;
    let in_place = Incoming::from_ids(alloc, rows, units, stride2, &entries)?;
    let same = refined(alloc, &in_place, labels)?;
    assert!(rt; told.0.as_slice() == same.0.as_slice() && told.1 == same.1);
    Ok(told.0.iter().max().copied())
}

/// The table as ids, with rows `stride` entries apart. The entries after the units of a row aren't ids.
fn padded(
    alloc: Global,
    rows: usize,
    units: usize,
    stride: usize,
    next: &[u32],
) -> Result<Vec<u32>, AllocError> {
    let mut table = vec![in alloc; u32::MAX; rows * stride]?;
    for row in 0..rows {
        for unit in 0..units {
            table[row * stride + unit] = next[row * units + unit] * stride as u32;
        }
    }
    Ok(table)
}

/// The rows of a chain: each leads to the next one, and the last one to itself.
fn chain_rows(alloc: Global, rows: u32) -> Result<Vec<u32>, AllocError> {
    let mut next = Vec::with_capacity(alloc, rows as usize)?;
    for row in 0..rows {
        next.push((row + 1).min(rows - 1))?;
    }
    Ok(next)
}

/// A label for the last row, and one for the others.
fn last_labelled(alloc: Global, rows: u32) -> Result<Vec<u32>, AllocError> {
    let mut labels = Vec::with_capacity(alloc, rows as usize)?;
    for row in 0..rows {
        labels.push(u32::from(row + 1 == rows))?;
    }
    Ok(labels)
}

/// A chain needs as many rounds as it has rows. After the first round, the refinement processes its blocks one by one.
/// All rows are in different blocks.
#[test]
fn chains(rt: HostRuntime) -> Result<(), Fail> {
    let alloc = rt.alloc();
    for rows in [2, 200, 100_000] {
        let next = chain_rows(alloc, rows)?;
        let labels = last_labelled(alloc, rows)?;
        let table = Table {
            units: 1,
            next: &next,
            labels: &labels,
        };
        let greatest = compared_in_place(&rt, alloc, table, 1)?;
        assert!(rt; greatest == Some(rows - 1));
    }
    Ok(())
}

/// Tables worked by hand, with the number of units, the gap after each row, and the greatest block. The last two have
/// no units and no rows.
const WORKED: [(usize, usize, &[u32], &[u32], Option<u32>); 6] = [
    (1, 0, &[1, 2, 3, 3], &[0, 0, 0, 1], Some(3)),
    (1, 0, &[1, 0, 3, 2], &[0, 0, 0, 0], Some(0)),
    (1, 2, &[1, 0, 3, 2], &[0, 0, 0, 1], Some(2)),
    (2, 1, &[1, 2, 0, 0, 2, 1], &[0, 1, 1], Some(2)),
    (0, 0, &[], &[0], Some(0)),
    (3, 2, &[], &[], None),
];

/// Tables of ids are read in place, with no gap, a small one and a large one after the units of a row.
#[test]
fn tables_in_place(rt: HostRuntime) -> Result<(), Fail> {
    for (units, stride2, next, labels, want) in WORKED {
        assert!(rt; stride2 <= 10);
        let table = Table {
            units,
            next,
            labels,
        };
        let greatest = compared_in_place(&rt, rt.alloc(), table, stride2)?;
        assert!(rt; greatest == want, "{next:?}: {greatest:?}");
    }
    Ok(())
}
