//! Reading and writing the image of a dense table, beside copies of it: `bench image ROWS TIMES`.
//!
//! Each is done TIMES times, in turns, in new memory each time. Standard output gets the length of the image in bytes,
//! standard error the least time of each, in microseconds.

ghost use Rattle.std.specs.Prelude.{◌≤◌};

mod images;

use crate::least::Least;
use crate::{Fault, words};
use images::make_image;
use rx_dense::{DFA, OwnedDFA};
use rx_image::{DenseRead, DenseWrite};
use std::time::{Duration, Instant};

/// Measures what the words ask for.
pub(crate) fn run(rt: &HostRuntime, words: &[&str]) -> Result<(), Fault> {
    let [rows, times] = words else {
        return Err(Fault::Usage);
    };
    let rows = words::number(rows, 3, 1_000_000)? as u32;
    let times = words::times(times)?;
    let alloc = rt.alloc();
    let little = make_image(alloc, rows)?;
    let (dfa, len) = DFA::<Vec<u32>>::from_bytes(alloc, &little)?;
    let (big, _) = dfa.to_bytes_big_endian(alloc)?;
    println!(rt; "{len} bytes")?;
    let mut copied = Least::new();
    let mut read_little = Least::new();
    let mut read_big = Least::new();
    let mut written = Least::new();
    for _ in 0..times {
        copied.take(time_copy(rt, &little)?);
        read_little.take(time_read(rt, &little)?);
        read_big.take(time_read(rt, &big)?);
        written.take(time_write(rt, &dfa)?);
    }
    eprintln!(rt; "copied {}", copied.micros())?;
    eprintln!(rt; "read, little endian {}", read_little.micros())?;
    eprintln!(rt; "read, big endian {}", read_big.micros())?;
    eprintln!(rt; "written {}", written.micros())?;
    Ok(())
}

/// How long a copy in new memory takes.
fn time_copy(rt: &HostRuntime, bytes: &[u8]) -> Result<Duration, Fault> {
    let begin = Instant::now(rt)?;
    let copied = Vec::from_slice(rt.alloc(), bytes)?;
    let took = begin.elapsed(rt)?;
    drop(copied);
    Ok(took)
}

/// How long an image takes to be read.
fn time_read(rt: &HostRuntime, bytes: &[u8]) -> Result<Duration, Fault> {
    let begin = Instant::now(rt)?;
    let read = DFA::<Vec<u32>>::from_bytes(rt.alloc(), bytes)?;
    let took = begin.elapsed(rt)?;
    drop(read);
    Ok(took)
}

/// How long the little endian image of a table takes to be written, in new memory.
fn time_write(rt: &HostRuntime, dfa: &OwnedDFA) -> Result<Duration, Fault> {
    let begin = Instant::now(rt)?;
    let written = dfa.to_bytes_little_endian(rt.alloc())?;
    let took = begin.elapsed(rt)?;
    drop(written);
    Ok(took)
}
