//! Tests of sources and sinks: in memory, over std's traits, and with calls that fail.

use rx_base::{MemSink, MemSource, ReadAnswer, ReadSource, Sink, Source, WriteAnswer, WriteSink};
use std::io;
use std::io::{ErrorKind, Read};
use std::process::Abort;
use std::test::Fail;

/// Compares what a sink returns for each piece.
fn compare_writes(rt: &impl Abort, sink: &mut impl Sink, want: &[(&[u8], WriteAnswer)]) {
    for (piece, answer) in want {
        assert!(rt; !piece.is_empty());
        assert!(rt; sink.write(piece) == *answer, "{piece:?}");
    }
}

#[test]
fn bytes_are_kept_up_to_the_capacity(rt: HostRuntime) -> Result<(), Fail> {
    let mut sink = MemSink::new(rt.alloc(), 4, 3, &[2])?;
    let want: &[(&[u8], WriteAnswer)] = &[
        (b"abcd", WriteAnswer::Took(3)),
        (b"d", WriteAnswer::Failed),
        (b"de", WriteAnswer::Took(1)),
        (b"e", WriteAnswer::Failed),
    ];
    compare_writes(&rt, &mut sink, want);
    assert!(rt; sink.bytes() == b"abcd".as_slice());
    Ok(())
}

#[test]
fn a_writer_takes_bytes_while_it_has_room(rt: HostRuntime) {
    let mut room = [0; 3];
    let want: &[(&[u8], WriteAnswer)] = &[
        (b"ab", WriteAnswer::Took(2)),
        (b"cd", WriteAnswer::Took(1)),
        (b"d", WriteAnswer::Failed),
    ];
    compare_writes(&rt, &mut WriteSink::new(room.as_mut_slice()), want);
    assert!(rt; room.as_slice() == b"abc".as_slice());
}

/// Compares what a source returns for each read, and the first bytes of the buffer after it.
fn compare_reads(
    rt: &impl Abort,
    source: &mut impl Source,
    buffer: &mut [u8],
    want: &[(ReadAnswer, &[u8])],
) {
    for (answer, bytes) in want {
        assert!(rt; !buffer.is_empty());
        assert!(rt;
            source.read(buffer) == *answer && buffer.starts_with(bytes),
            "{bytes:?}"
        );
    }
}

#[test]
fn bytes_come_in_steps_around_a_failing_read(rt: HostRuntime) {
    let want: &[(ReadAnswer, &[u8])] = &[
        (ReadAnswer::Got(2), b"ab\0"),
        (ReadAnswer::Failed, b""),
        (ReadAnswer::Got(2), b"cd"),
        (ReadAnswer::Got(1), b"e"),
        (ReadAnswer::End, b""),
        (ReadAnswer::End, b""),
    ];
    let mut source = MemSource::new(b"abcde", 2, &[2]);
    compare_reads(&rt, &mut source, &mut [0; 3], want);
}

#[derive(Drop)]
struct FailsOnce {
    done: bool,
}

impl Read for FailsOnce {
    fn read(&mut self, buf: &mut [u8]) -> io::Result<usize> {
        if self.done || buf.is_empty() {
            return Ok(0);
        }
        self.done = true;
        Err(io::Error::from(ErrorKind::Other))
    }
}

#[test]
fn a_reader_gives_its_bytes_and_its_errors(rt: HostRuntime) {
    let text: &[u8] = b"abc";
    let want: &[(ReadAnswer, &[u8])] = &[
        (ReadAnswer::Got(2), b"ab"),
        (ReadAnswer::Got(1), b"c"),
        (ReadAnswer::End, b""),
    ];
    compare_reads(&rt, &mut ReadSource::new(text), &mut [0; 2], want);
    let want: &[(ReadAnswer, &[u8])] = &[(ReadAnswer::Failed, b""), (ReadAnswer::End, b"")];
    let mut source = ReadSource::new(FailsOnce { done: false });
    compare_reads(&rt, &mut source, &mut [0; 2], want);
}
