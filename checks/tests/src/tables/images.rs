//! Tests of images: tables read in place and copied are the same, accelerators are read and written alone, and the
//! texts of errors name the part of an image that is wrong.

mod texts;

use crate::notation::read;
use rx_build::dense::DenseBuild;
use rx_dense::{Accel, Accels, OwnedDFA};
use rx_dense_image::{AccelImage, AccelsImage};
use rx_image::{DenseRead, DenseWrite, SparseRead, SparseWrite};
use rx_sparse::DFA;
use rx_sparse_build::SparseBuild;
use rx_wire::{DeserializeError, LE};
use std::alloc::Global;
use std::test::Fail;
use texts::{CUT_DENSE, CUT_SPARSE, INVERTED_DENSE, INVERTED_SPARSE};

/// Whether a table that was read is the same lent and copied.
fn is_alike(alloc: Global, image: &[u8]) -> Result<bool, Fail> {
    let (dfa, size) = DFA::<&[u8]>::from_bytes(alloc, image)?;
    let copy = dfa.to_owned(alloc)?;
    let lent = copy.as_ref();
    Ok(
        size == image.len()
            && copy.row_bytes() == dfa.row_bytes()
            && lent.row_bytes() == dfa.row_bytes()
            && lent.order() == dfa.order(),
    )
}

#[test]
fn sparse_tables_are_alike_lent_and_copied(rt: HostRuntime) -> Result<(), Fail> {
    let alloc = rt.alloc();
    let built = DFA::<Vec<u8>>::new_many(alloc, &read(alloc, "abc")?)?;
    assert!(&rt; is_alike(alloc, &built.to_bytes_little_endian(alloc)?)?);
    assert!(&rt; is_alike(alloc, &built.to_bytes_big_endian(alloc)?)?);
    Ok(())
}

#[test]
fn accelerators_are_read_and_written_alone(rt: HostRuntime) -> Result<(), Fail> {
    let alloc = rt.alloc();
    let mut accels = Accels::empty(alloc)?;
    accels.add(Accel::from_slice(&[2, 7, 8, 9])?)?;
    let mut bytes = [9; 13];
    assert!(&rt; accels.write_to::<LE>(&mut bytes).is_ok());
    assert!(&rt; bytes == [1, 0, 0, 0, 2, 7, 8, 0, 0, 0, 0, 0, 9]);
    assert!(&rt; Accel::from_slice(&[4, 7, 8, 9]).is_err());
    Ok(())
}

/// A way to spoil an image at a place.
#[derive(Clone, Copy)]
enum Spoil {
    /// It ends there.
    Cut,
    /// The byte there is inverted.
    Invert,
}

/// A copy of an image, spoilt at a place.
fn spoilt(alloc: Global, image: &[u8], at: usize, spoil: Spoil) -> Result<Vec<u8>, Fail> {
    let mut copy = Vec::new(alloc);
    for (place, byte) in image.iter().enumerate() {
        match spoil {
            Spoil::Cut if place >= at => {}
            Spoil::Invert if place == at => copy.push(!*byte)?,
            _ => copy.push(*byte)?,
        }
    }
    Ok(copy)
}

/// What is said of an image.
fn told(alloc: Global, is_sparse: bool, image: &[u8]) -> Result<String, Fail> {
    let error = if is_sparse {
        DFA::<&[u8]>::from_bytes(alloc, image).err()
    } else {
        OwnedDFA::from_bytes(alloc, image).err()
    };
    match error {
        Some(error) => Ok(error.to_string(alloc)?),
        None => Ok(format!(in alloc; "read")?),
    }
}

/// All that is said of an image that is spoilt at each of its places in turn, without the numbers: a line each, in the
/// order of the places.
fn told_of_all(alloc: Global, is_sparse: bool, image: &[u8], spoil: Spoil) -> Result<String, Fail> {
    let mut lines = String::new(alloc);
    for at in 0..image.len() {
        let text = told(alloc, is_sparse, &spoilt(alloc, image, at, spoil)?)?;
        let line = text.split(": ").next().unwrap_or("");
        if lines.lines().all(|other| other != line) {
            lines.push_str(&format!(in alloc; "{line}\n")?)?;
        }
    }
    Ok(lines)
}

#[test]
fn errors_of_dense_images_name_the_part(rt: HostRuntime) -> Result<(), Fail> {
    let alloc = rt.alloc();
    let (image, _) = OwnedDFA::new_many(alloc, &read(alloc, "abc")?)?.to_bytes_little_endian(
        alloc,
    )?;
    assert!(&rt; told_of_all(alloc, false, &image, Spoil::Cut)?.as_str() == CUT_DENSE);
    assert!(&rt; told_of_all(alloc, false, &image, Spoil::Invert)?.as_str() == INVERTED_DENSE);
    Ok(())
}

#[test]
fn errors_of_sparse_images_name_the_part(rt: HostRuntime) -> Result<(), Fail> {
    let alloc = rt.alloc();
    let image = DFA::<Vec<u8>>::new_many(alloc, &read(alloc, "abc")?)?.to_bytes_little_endian(
        alloc,
    )?;
    assert!(&rt; told_of_all(alloc, true, &image, Spoil::Cut)?.as_str() == CUT_SPARSE);
    assert!(&rt; told_of_all(alloc, true, &image, Spoil::Invert)?.as_str() == INVERTED_SPARSE);
    Ok(())
}
