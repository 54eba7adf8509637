//! The refinement of one table: `bench refine KIND ROWS UNITS`, where KIND is `chain`, `random`, `twins` or `grid`.
//!
//! Standard output gets the number of blocks, the steps and their limit. Standard error gets the times of building the
//! lists and of the refinement.

ghost use Rattle.std.specs.Prelude.{◌≡◌, ℕ, ◌+◌, ◌*◌, ◌<◌, ◌≤◌, ◌^◌, length, All, IfOk};

mod tables;

use crate::{Fault, words};
use rx_refine::{Incoming, Steps, laws, refine};
use rx_spec::Tally;
use std::io;
use std::time::Instant;
use tables::Kind;

/// Measures what the words ask for.
pub(crate) fn run(rt: &HostRuntime, words: &[&str]) -> Result<(), Fault> {
    let [kind, rows, units] = words else {
        return Err(Fault::Usage);
    };
    let kind = Kind::named(kind).ok_or(Fault::Usage)?;
    let rows = words::number(rows, 2, 1_000_000)?;
    let units = words::number(units, 0, 1000)?;
    measure(rt, kind, rows, units)?;
    Ok(())
}

/// Refines one table, and prints what it took.
fn measure(rt: &HostRuntime, kind: Kind, rows: usize, units: usize) -> io::Result<()>
    requires some { 2 ≤ rows }
    requires rows { rows ≤ 1000000 }
    requires units { units ≤ 1000 }
{
    let alloc = rt.alloc();
    let next = tables::next_rows(alloc, kind, rows, units)?;
    let labels = tables::labels(alloc, kind, rows)?;
    let begin = Instant::now(rt)?;
    let incoming: Incoming<Tally> = Incoming::new(alloc, rows, units, &next)?;
    let built = begin.elapsed(rt)?;
    let mut steps = Steps::new(Tally);
    laws::room();
    let middle = Instant::now(rt)?;
    let blocks = refine(alloc, &incoming, &labels, &mut steps)?;
    let refined = middle.elapsed(rt)?;
    let count = blocks.iter().max().map_or(0, |most| u64::from(*most) + 1);
    let digits = usize::BITS - rows.leading_zeros();
    let limit = (2 * units * rows) as u64 * u64::from(digits);
    let taken = steps.count();
    println!(rt; "{count} blocks, {taken} steps of at most {limit}")?;
    eprintln!(rt; "lists {built:?}, refinement {refined:?}")
}
