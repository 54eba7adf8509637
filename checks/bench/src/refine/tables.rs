//! Tables to refine.

ghost use Rattle.std.specs.Prelude.{◌≡◌, ℕ, ◌+◌, ◌*◌, ◌<◌, ◌≤◌, ◌^◌, length, All, IfOk};

use std::alloc::{AllocError, Global};

/// How the rows of a table lead to one another.
#[derive(Clone, Copy, Debug, PartialEq, Eq)]
pub(crate) enum Kind {
    /// Each unit leads to the next row. The last row has a label of its own.
    Chain,
    /// Each unit leads to some row. Labels are random too.
    Random,
    /// The same, but every second row is like the one before it.
    Twins,
    /// Rows stand in a rectangle, as near to a square as their number allows. Every second unit leads
    /// to the right, the others down. The last row has a label of its own.
    Grid,
}

impl Kind {
    /// The kind of this name.
    pub(crate) fn named(name: &str) -> Option<Kind> {
        match name {
            "chain" => Some(Kind::Chain),
            "random" => Some(Kind::Random),
            "twins" => Some(Kind::Twins),
            "grid" => Some(Kind::Grid),
            _ => None,
        }
    }
}

/// The next rows, row by row.
pub(crate) fn next_rows(
    alloc: Global,
    kind: Kind,
    rows: usize,
    units: usize,
) -> Result<Vec<u32>, AllocError>
    requires some { 2 ≤ rows }
    requires rows { rows ≤ 1000000 }
    requires units { units ≤ 1000 }
    ensures len { IfOk result (λ next. length next.items ≡ rows * units) }
    ensures small { IfOk result (λ next. All (λ row. row < rows) next.items) }
{
    let side = side_of(rows);
    let mut seed = 7;
    let mut next = Vec::with_capacity(alloc, rows * units)?;
    for row in 0..rows {
        for unit in 0..units {
            next.push(next_row(kind, rows, side, row, unit, &mut seed) as u32)?;
        }
    }
    Ok(next)
}

/// The labels, 0 or 1.
pub(crate) fn labels(alloc: Global, kind: Kind, rows: usize) -> Result<Vec<u32>, AllocError>
    ensures len { IfOk result (λ labels. length labels.items ≡ rows) }
    ensures small { IfOk result (λ labels. All (λ label. label < 2) labels.items) }
{
    let mut seed = 11;
    let mut labels = Vec::with_capacity(alloc, rows)?;
    for row in 0..rows {
        labels.push(label(kind, rows, row, &mut seed))?;
    }
    Ok(labels)
}

/// The shorter side of the rectangle of `rows` rows that is closest to a square.
fn side_of(rows: usize) -> usize
    requires { rows ≤ 1000000 }
    ensures { result ≤ 1000 }
{
    let mut side = 0;
    for tried in 1..1001 {
        if tried * tried <= rows && rows % tried == 0 {
            side = tried;
        }
    }
    side
}

fn next_row(kind: Kind, rows: usize, side: usize, row: usize, unit: usize, seed: &mut u64) -> usize
    requires row { row < rows }
    requires rows { rows ≤ 1000000 }
    requires side { side ≤ 1000 }
    ensures { result < rows }
{
    match kind {
        Kind::Chain => step(rows, row, 1),
        Kind::Random => random_below(seed, rows),
        Kind::Twins => random_of(row / 2, unit, rows),
        Kind::Grid => {
            if unit % 2 == 1 {
                step(rows, row, side)
            } else if side > 0 && (row + 1) % side == 0 {
                row
            } else {
                step(rows, row, 1)
            }
        }
    }
}

/// The row `by` rows after this one, or this row if there is none.
fn step(rows: usize, row: usize, by: usize) -> usize
    requires row { row < rows }
    requires rows { rows ≤ 1000000 }
    requires by { by ≤ 1000 }
    ensures { result < rows }
{
    if row + by < rows { row + by } else { row }
}

fn label(kind: Kind, rows: usize, row: usize, seed: &mut u64) -> u32
    requires { row < rows }
    ensures { result < 2 }
{
    match kind {
        Kind::Random => random_below(seed, 2) as u32,
        Kind::Twins => random_of(row / 2, 1000, 2) as u32,
        _ => u32::from(row + 1 == rows),
    }
}

/// A pseudo-random number below the bound, the same again for the same pair.
fn random_of(pair: usize, unit: usize, bound: usize) -> usize
    requires { 0 < bound }
    ensures { result < bound }
{
    let mut seed = (pair as u64).wrapping_mul(1009).wrapping_add(unit as u64);
    random_below(&mut seed, bound);
    seed ^= seed >> 29;
    random_below(&mut seed, bound)
}

/// A pseudo-random number below the bound.
fn random_below(seed: &mut u64, bound: usize) -> usize
    requires { 0 < bound }
    ensures { result < bound }
{
    *seed = seed
        .wrapping_mul(6364136223846793005)
        .wrapping_add(1442695040888963407);
    (*seed >> 33) as usize % bound
}
