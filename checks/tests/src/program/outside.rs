//! Tests of the program where a read or a write fails: the status, and what is written before. `checks/answers` tests
//! the replies of the built program.

mod partings;

use rx_base::{MemSink, MemSource};
use rx_main::*;
use std::alloc::{AllocError, Global};
use std::process::Abort;
use std::test::Fail;

/// A command line.
fn words(alloc: Global, texts: &[&str]) -> Result<Words, AllocError> {
    let mut words = Words::new(alloc);
    for text in texts {
        words.push(text.as_bytes())?;
    }
    Ok(words)
}

/// What a run reads and where it writes. A read gives at most `most_read` bytes, and a write takes at most
/// `most_written`. All writes together have room for `room` bytes. The reads and writes that fail are given by their
/// numbers, from 1.
#[derive(Clone, Copy)]
struct Outside<'a> {
    text: &'a [u8],
    most_read: usize,
    failing_reads: &'a [u64],
    room: usize,
    most_written: usize,
    failing_writes: &'a [u64],
}

/// The status of a run, and the bytes that it wrote.
fn answer(
    rt: &impl Abort,
    alloc: Global,
    texts: &[&str],
    outside: Outside<'_>,
) -> Result<(u8, Vec<u8>), Fail> {
    let words = words(alloc, texts)?;
    assert!(rt; 0 < outside.most_read && 0 < outside.most_written);
    let mut source = MemSource::new(outside.text, outside.most_read, outside.failing_reads);
    let (room, most) = (outside.room, outside.most_written);
    let mut sink = MemSink::new(alloc, room, most, outside.failing_writes)?;
    let status = run(alloc, &words, &mut source, &mut sink);
    Ok((status, Vec::from_slice(alloc, sink.bytes())?))
}

/// Asserts the status of a run and the bytes that it writes.
fn compare(
    rt: &impl Abort,
    alloc: Global,
    texts: &[&str],
    outside: Outside<'_>,
    want: (u8, &str),
) -> Result<(), Fail> {
    let (status, written) = answer(rt, alloc, texts, outside)?;
    let is_wanted = status == want.0 && written.as_slice() == want.1.as_bytes();
    assert!(rt; is_wanted, "{texts:?}: {status}, {written:?}");
    Ok(())
}

/// A run that reads a text. No read or write fails.
fn whole(text: &[u8]) -> Outside<'_> {
    Outside {
        text,
        most_read: 65_536,
        failing_reads: &[],
        room: 4000,
        most_written: 3,
        failing_writes: &[],
    }
}

const SCRIPT: &str = "expr lit 61\nexpr lit 62\ninput 0 2 yes\nhay 6261\n";

/// The script has 47 bytes. With reads of 8 bytes, the sixth gives its last byte, and the seventh its end.
#[test]
fn reads_and_writes_may_fail(rt: HostRuntime) -> Result<(), Fail> {
    let table: &[(&[u64], &[u64], usize, usize, u8, &str)] = &[
        (&[], &[], 100, 5, 0, "match 1 0 1\n"),
        (&[1], &[], 100, 5, 5, ""),
        (&[2, 3], &[], 100, 5, 5, ""),
        (&[7], &[], 100, 5, 5, ""),
        (&[8], &[], 100, 5, 0, "match 1 0 1\n"),
        (&[], &[1], 100, 5, 6, ""),
        (&[], &[2], 100, 5, 6, "match"),
        (&[], &[3], 100, 5, 6, "match 1 0 "),
        (&[], &[4], 100, 5, 0, "match 1 0 1\n"),
        (&[], &[2], 100, 1, 6, "m"),
        (&[1], &[1], 100, 5, 5, ""),
        (&[], &[], 4, 100, 6, "matc"),
    ];
    for (failing_reads, failing_writes, room, most, status, written) in table {
        let outside = Outside {
            text: SCRIPT.as_bytes(),
            most_read: 8,
            failing_reads,
            room: *room,
            most_written: *most,
            failing_writes,
        };
        compare(&rt, rt.alloc(), &["find"], outside, (*status, written))?;
    }
    Ok(())
}

/// A script of 28 bytes: the empty pattern and the empty haystack.
const EMPTY: &str = "expr eps\ninput 0 0 no\nhay -\n";

/// The script is read byte by byte, in 29 reads. The last one gives its end.
#[test]
fn every_read_and_every_write_may_fail(rt: HostRuntime) -> Result<(), Fail> {
    assert!(&rt; EMPTY.len() == 28);
    let line = "match 0 0 0\n";
    for most in [1, 5, 100] {
        let mut outside = Outside {
            text: EMPTY.as_bytes(),
            most_read: 1,
            failing_reads: &[],
            room: 12,
            most_written: most,
            failing_writes: &[],
        };
        for read in 1..=29 {
            let outside = Outside {
                failing_reads: &[read],
                ..outside
            };
            compare(&rt, rt.alloc(), &["find"], outside, (5, ""))?;
        }
        let unread = Outside {
            failing_reads: &[30],
            ..outside
        };
        compare(&rt, rt.alloc(), &["find"], unread, (0, line))?;
        for room in 0..=12 {
            outside.room = room;
            let status = if room < 12 { 6 } else { 0 };
            let written = line.get(..room).unwrap_or("");
            compare(&rt, rt.alloc(), &["find"], outside, (status, written))?;
        }
    }
    Ok(())
}

/// The image of a script's table.
fn image(rt: &impl Abort, alloc: Global, table: &str, script: &str) -> Result<Vec<u8>, Fail> {
    let (status, image) = answer(rt, alloc, &["image", table, "le"], whole(script.as_bytes()))?;
    assert!(rt; status == 0, "no image: {status}");
    Ok(image)
}

#[test]
fn reads_and_writes_of_a_comparison_may_fail(rt: HostRuntime) -> Result<(), Fail> {
    let alloc = rt.alloc();
    let mut bytes = image(&rt, alloc, "fwd", "expr lit 61")?;
    let other = Vec::from_slice(alloc, &bytes)?;
    bytes.extend_from_slice(&other)?;
    assert!(&rt; bytes.len() == 1696);
    // with reads of 1000 bytes, two give bytes, and the third gives the end
    let table: &[(&[u64], &[u64], usize, u8, &str)] = &[
        (&[1], &[], 100, 5, ""),
        (&[2], &[], 100, 5, ""),
        (&[3], &[], 100, 5, ""),
        (&[4], &[], 100, 0, "equal 6\n"),
        (&[], &[1], 100, 6, ""),
        (&[], &[2], 100, 6, "equ"),
        (&[], &[4], 100, 0, "equal 6\n"),
        (&[], &[], 4, 6, "equa"),
        (&[1], &[1], 100, 5, ""),
    ];
    for (failing_reads, failing_writes, room, status, written) in table {
        let outside = Outside {
            most_read: 1000,
            failing_reads,
            room: *room,
            failing_writes,
            ..whole(&bytes)
        };
        let words = ["equal", "dense", "dense", "848"];
        compare(&rt, alloc, &words, outside, (*status, written))?;
    }
    Ok(())
}

/// The fifth byte of the text isn't read.
#[test]
fn a_failed_read_leaves_what_was_told(rt: HostRuntime) -> Result<(), Fail> {
    let alloc = rt.alloc();
    let mut bytes = image(&rt, alloc, "all", "expr alt lit 53616d77697365 lit 53616d")?;
    let len = format!(in alloc; "{}", bytes.len())?;
    let failing = [(bytes.len() as u64).saturating_add(5)];
    bytes.extend_from_slice(b"Samwise")?;
    let outside = Outside {
        most_read: 1,
        failing_reads: &failing,
        ..whole(&bytes)
    };
    let words = ["feed", "dense", "no", len.as_str()];
    compare(&rt, alloc, &words, outside, (5, "match 0 3\n"))
}
