//! Tests of the texts of errors of images' readers and writers.

use rx_wire::{
    DeserializeError, LE, SerializeError, read_endianness_check, read_label, read_version,
    try_read_pattern_id, try_read_state_id, try_read_u16, write_endianness_check, write_label,
    write_version,
};
use std::alloc::Global;
use std::fmt::Display;
use std::process::Abort;
use std::test::Fail;

/// Compares the text of an error.
fn says(rt: &impl Abort, alloc: Global, error: &impl Display, want: &str) -> Result<(), Fail> {
    let told = error.to_string(alloc)?;
    assert!(rt; told.as_str() == want, "{told}");
    Ok(())
}

/// The greatest id and one, little endian.
const PAST: [u8; 4] = [0xFF, 0xFF, 0xFF, 0x7F];

#[test]
fn readers_say_what_is_wrong(rt: HostRuntime) -> Result<(), Fail> {
    let refused: [(Option<DeserializeError>, &str); 9] = [
        (
            try_read_u16(&[7], "a").err(),
            "buffer is too small to read a",
        ),
        (
            try_read_state_id(&PAST, "a").err(),
            "failed to read state ID for a: 2147483647 is above the greatest id, 2147483646",
        ),
        (
            try_read_pattern_id(&PAST, "a").err(),
            "failed to read pattern ID for a: 2147483647 is above the greatest id, 2147483646",
        ),
        (
            read_endianness_check(&[0xFF, 0xFE, 0]).err(),
            "buffer is too small to read endianness check",
        ),
        (
            read_endianness_check(&[4, 3, 2, 1]).err(),
            "endianness mismatch: expected 0xFEFF but got 0x1020304. (Are you trying to load an object serialized \
             with a different endianness?)",
        ),
        (
            read_version(&[3, 0, 0, 0], 2).err(),
            "unsupported version: expected version 2 but found version 3",
        ),
        (
            read_label(b"foo", "foo").err(),
            "could not find NUL terminated label at start of serialized object",
        ),
        (
            read_label(b"fo\0", "foo").err(),
            "could not find properly sized label at start of serialized object",
        ),
        (
            read_label(b"fo\0\0", "foo").err(),
            "label mismatch: start of serialized object should contain a NUL terminated \"foo\" label, but a \
             different label was found",
        ),
    ];
    for (error, want) in refused {
        says(&rt, rt.alloc(), &error.ok_or("read")?, want)?;
    }
    Ok(())
}

#[test]
fn writers_say_what_is_wrong(rt: HostRuntime) -> Result<(), Fail> {
    let refused: [(Option<SerializeError>, &str); 3] = [
        (
            write_endianness_check::<LE>(&mut [0; 3]).err(),
            "destination buffer is too small to write endianness check",
        ),
        (
            write_version::<LE>(3, &mut [0; 3]).err(),
            "destination buffer is too small to write version number",
        ),
        (
            write_label("foo", &mut [0; 3]).err(),
            "destination buffer is too small to write label",
        ),
    ];
    for (error, want) in refused {
        says(&rt, rt.alloc(), &error.ok_or("written")?, want)?;
    }
    Ok(())
}
