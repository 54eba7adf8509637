//! Tests that the place and the word that `equal` names part the tables, by the checker of the library.

use crate::program::outside::{answer, image, whole};
use rx_base::{Anchored, Unit};
use rx_dense::OwnedDFA;
use rx_image::DenseRead;
use rx_equal::{Parting, Place, UnitList, check_parting};
use std::alloc::{AllocError, Global};
use std::test::Fail;

/// The value of a hexadecimal digit.
fn digit(byte: u8) -> u8 {
    match byte {
        b'0'..=b'9' => byte - b'0',
        b'a'..=b'f' => byte - b'a' + 10,
        _ => 0,
    }
}

/// The byte that two hexadecimal digits name.
fn byte_of(text: &str) -> Option<u8> {
    match text.as_bytes() {
        [high, low] => Some((digit(*high) << 4) | digit(*low)),
        _ => None,
    }
}

/// The unit that a word of a line names.
fn unit_of(text: &str) -> Option<Unit> {
    if text == "eoi" {
        return Some(Unit::Eoi);
    }
    let byte = byte_of(text)?;
    Some(Unit::Byte(byte))
}

/// The place and the word of a `differ` line of the mode `no`.
fn parting_of(alloc: Global, line: &str) -> Result<Option<Parting>, AllocError> {
    let Some(rest) = line.strip_prefix("differ no ") else {
        return Ok(None);
    };
    let Some((behind, read)) = rest.trim_end().split_once(' ') else {
        return Ok(None);
    };
    let mut word = UnitList::new(alloc);
    for text in read.split(',') {
        if let Some(unit) = unit_of(text) {
            word.push(unit)?;
        }
    }
    let place = Place::new(Anchored::No, byte_of(behind));
    Ok(Some(Parting { place, word }))
}

#[test]
fn the_checker_accepts_what_is_told(rt: HostRuntime) -> Result<(), Fail> {
    let alloc = rt.alloc();
    let first = image(&rt, alloc, "fwd", "expr lit 61")?;
    let second = image(&rt, alloc, "fwd", "expr lit 62")?;
    assert!(&rt; first.len() == 848);
    let mut bytes = Vec::from_slice(alloc, &first)?;
    bytes.extend_from_slice(&second)?;
    let (status, line) = answer(
        &rt,
        alloc,
        &["equal", "dense", "dense", "848"],
        whole(&bytes),
    )?;
    assert!(&rt; status == 1);
    let line = std::str::from_utf8(line.as_slice()).unwrap_or("");
    let parting = parting_of(alloc, line)?;
    let accepted = match (
        OwnedDFA::from_bytes(alloc, &first),
        OwnedDFA::from_bytes(alloc, &second),
        parting,
    ) {
        (Ok((a, _)), Ok((b, _)), Some(parting)) => check_parting(&a, &b, &parting),
        _ => false,
    };
    assert!(&rt; accepted, "{line}");
    Ok(())
}
