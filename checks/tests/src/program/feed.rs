//! Tests of feeding a text in pieces: that images are read and texts searched, that lines are written in order, and
//! what is written before a source or a sink fails.

use crate::notation::read;
use rx_base::{Anchored, MatchKind, MemSink, MemSource, PatternID};
use rx_build::dense::{Builder, Config};
use rx_image::{DenseWrite, SparseWrite};
use rx_expr::thompson;
use rx_feed::{Fault, feed};
use rx_sparse_build::BuildSparse;
use rx_spec::Form;
use std::alloc::Global;
use std::process::Abort;
use std::test::Fail;

const FORMS: [Form; 2] = [Form::Dense, Form::Sparse];

/// The most bytes that a read gives.
const STEPS: [usize; 3] = [1, 3, 4096];

/// The image of the table for all matches of three patterns.
fn image(alloc: Global, form: Form) -> Result<Vec<u8>, Fail> {
    let exprs = read(alloc, "Samwise Sam |")?;
    let mut builder = Builder::new();
    builder.configure(Config::new().match_kind(MatchKind::All));
    builder.thompson(thompson::Config::new().utf8(false));
    match form {
        Form::Dense => Ok(
            builder
                .build_many(alloc, &exprs)?
                .to_bytes_little_endian(alloc)?
                .0,
        ),
        Form::Sparse => Ok(
            builder
                .build_many_sparse(alloc, &exprs)?
                .to_bytes_little_endian(alloc)?,
        ),
    }
}

/// How reads and writes go: the most bytes of each, the room for what is written, and the numbers of the read and the
/// write that fail. The first is 1, and 0 is none.
#[derive(Clone, Copy, Debug)]
struct Outside {
    most_read: usize,
    failing_read: u64,
    room: usize,
    most_written: usize,
    failing_write: u64,
}

const PLAIN: Outside = Outside {
    most_read: 4096,
    failing_read: 0,
    room: 5000,
    most_written: 3,
    failing_write: 0,
};

/// Asserts the result and the lines of a run over some bytes. The first of them, as many as `ask` says, are the image.
fn compare(
    rt: &impl Abort,
    alloc: Global,
    ask: (Form, Anchored, usize),
    bytes: &[u8],
    outside: Outside,
    want: Result<u8, Fault>,
    want_lines: &[u8],
) -> Result<(), Fail> {
    assert!(rt; 0 < outside.most_read && 0 < outside.most_written);
    let failing_reads = [outside.failing_read];
    let failing_writes = [outside.failing_write];
    let mut source = MemSource::new(bytes, outside.most_read, &failing_reads);
    let mut sink = MemSink::new(alloc, outside.room, outside.most_written, &failing_writes)?;
    let (form, mode, len) = ask;
    let told = feed(alloc, form, mode, len, &mut source, &mut sink);
    let lines = sink.bytes();
    assert!(rt; told == want, "{form:?} {mode:?} {outside:?}: {told:?}");
    assert!(rt;
        lines == want_lines,
        "{form:?} {mode:?} {outside:?}: {lines:?}"
    );
    Ok(())
}

/// An image and a text after it.
fn joined(alloc: Global, image: &[u8], text: &[u8]) -> Result<Vec<u8>, Fail> {
    let mut bytes = Vec::from_slice(alloc, image)?;
    bytes.extend_from_slice(text)?;
    Ok(bytes)
}

// ---- a text of two matches

const TEXT: &[u8] = b"Samwise";

const LINES: &[u8] = b"match 0 3\nmatch 0 7\nend 7\n";

const FIRST_LINE: &[u8] = b"match 0 3\n";

#[test]
fn lines_come_in_order(rt: HostRuntime) -> Result<(), Fail> {
    let alloc = rt.alloc();
    for form in FORMS {
        let image = image(alloc, form)?;
        let bytes = joined(alloc, &image, TEXT)?;
        for most_read in STEPS {
            let outside = Outside { most_read, ..PLAIN };
            compare(
                &rt,
                alloc,
                (form, Anchored::No, image.len()),
                &bytes,
                outside,
                Ok(0),
                LINES,
            )?;
            compare(
                &rt,
                alloc,
                (form, Anchored::Yes, image.len()),
                &bytes,
                outside,
                Ok(0),
                LINES,
            )?;
        }
    }
    Ok(())
}

/// Lets one read after another fail, in reads of this many bytes: every read of the text, and the read that finds its
/// end. The text takes `text_reads` reads, the last included.
fn fail_reads(
    rt: &impl Abort,
    alloc: Global,
    form: Form,
    most_read: usize,
    text_reads: u64,
) -> Result<(), Fail> {
    assert!(rt; 0 < most_read);
    let image = image(alloc, form)?;
    let bytes = joined(alloc, &image, TEXT)?;
    let image_reads = image.len().div_ceil(most_read) as u64;
    for count in 0..text_reads {
        let taken = (count as usize).saturating_mul(most_read);
        let failing_read = image_reads.saturating_add(count).saturating_add(1);
        let outside = Outside {
            most_read,
            failing_read,
            ..PLAIN
        };
        let lines = if taken < 4 {
            b"".as_slice()
        } else {
            FIRST_LINE
        };
        compare(
            rt,
            alloc,
            (form, Anchored::No, image.len()),
            &bytes,
            outside,
            Err(Fault::Source),
            lines,
        )?;
    }
    Ok(())
}

#[test]
fn reads_of_a_text_may_fail(rt: HostRuntime) -> Result<(), Fail> {
    let alloc = rt.alloc();
    for form in FORMS {
        fail_reads(&rt, alloc, form, 1, 8)?;
        fail_reads(&rt, alloc, form, 3, 4)?;
        fail_reads(&rt, alloc, form, 4096, 2)?;
    }
    Ok(())
}

#[test]
fn reads_of_an_image_may_fail(rt: HostRuntime) -> Result<(), Fail> {
    let alloc = rt.alloc();
    for form in FORMS {
        let image = image(alloc, form)?;
        let bytes = joined(alloc, &image, TEXT)?;
        let most_read = 64;
        for failing_read in 1..=image.len().div_ceil(most_read) as u64 {
            let outside = Outside {
                most_read,
                failing_read,
                ..PLAIN
            };
            compare(
                &rt,
                alloc,
                (form, Anchored::No, image.len()),
                &bytes,
                outside,
                Err(Fault::Source),
                b"",
            )?;
        }
    }
    Ok(())
}

/// For each write, in pieces of three bytes and a line at a time, the number of bytes written before it.
const WRITTEN: [usize; 10] = [0, 3, 6, 9, 10, 13, 16, 19, 20, 23];

#[test]
fn writes_may_fail(rt: HostRuntime) -> Result<(), Fail> {
    let alloc = rt.alloc();
    for form in FORMS {
        let image = image(alloc, form)?;
        let bytes = joined(alloc, &image, TEXT)?;
        let mut failing_write = 0u64;
        for written in WRITTEN {
            failing_write = failing_write.saturating_add(1);
            let lines = LINES.get(..written).unwrap_or(b"");
            for most_read in STEPS {
                let outside = Outside {
                    most_read,
                    failing_write,
                    ..PLAIN
                };
                compare(
                    &rt,
                    alloc,
                    (form, Anchored::No, image.len()),
                    &bytes,
                    outside,
                    Err(Fault::Sink),
                    lines,
                )?;
            }
        }
    }
    Ok(())
}

#[test]
fn sinks_may_be_full(rt: HostRuntime) -> Result<(), Fail> {
    let alloc = rt.alloc();
    for form in FORMS {
        let image = image(alloc, form)?;
        let bytes = joined(alloc, &image, TEXT)?;
        for room in 0..LINES.len() {
            let outside = Outside {
                room,
                most_written: 1,
                ..PLAIN
            };
            let lines = LINES.get(..room).unwrap_or(b"");
            compare(
                &rt,
                alloc,
                (form, Anchored::No, image.len()),
                &bytes,
                outside,
                Err(Fault::Sink),
                lines,
            )?;
        }
    }
    Ok(())
}

// ---- no text

#[test]
fn images_and_modes_are_refused_before_the_text(rt: HostRuntime) -> Result<(), Fail> {
    let alloc = rt.alloc();
    for form in FORMS {
        let image = image(alloc, form)?;
        let bytes = joined(alloc, &image, TEXT)?;
        let mode = Anchored::Pattern(PatternID::ZERO);
        compare(
            &rt,
            alloc,
            (form, mode, image.len()),
            &bytes,
            PLAIN,
            Ok(4),
            b"unsupported p0\n",
        )?;
        let len = image.len().saturating_sub(1);
        compare(
            &rt,
            alloc,
            (form, Anchored::No, len),
            &bytes,
            PLAIN,
            Ok(1),
            b"refused buffer\n",
        )?;
        let outside = Outside { room: 3, ..PLAIN };
        compare(
            &rt,
            alloc,
            (form, Anchored::No, len),
            &bytes,
            outside,
            Err(Fault::Sink),
            b"ref",
        )?;
    }
    Ok(())
}

#[test]
fn an_image_may_end_the_source(rt: HostRuntime) -> Result<(), Fail> {
    let alloc = rt.alloc();
    for form in FORMS {
        let image = image(alloc, form)?;
        compare(
            &rt,
            alloc,
            (form, Anchored::No, image.len()),
            &image,
            PLAIN,
            Ok(0),
            b"end 0\n",
        )?;
        compare(
            &rt,
            alloc,
            (form, Anchored::No, 1_000_000),
            &image,
            PLAIN,
            Ok(0),
            b"end 0\n",
        )?;
        compare(
            &rt,
            alloc,
            (form, Anchored::No, 4),
            b"",
            PLAIN,
            Ok(1),
            b"refused generic\n",
        )?;
    }
    Ok(())
}
