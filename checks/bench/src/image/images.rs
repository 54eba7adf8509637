//! Images to read.

ghost use Rattle.std.specs.Prelude.{◌≤◌, ◌<◌};

use std::alloc::{AllocError, Global};

/// How many words a row has, as the exponent of a power of two.
const STRIDE2: u32 = 5;

/// How many words a row has.
const STRIDE: u32 = 1 << STRIDE2;

/// How many bytes are in a class.
const CLASS_LEN: u32 = 16;

/// How many columns a row has: one for each class and one for the end of input.
const ALPHABET: u32 = 256 / CLASS_LEN + 1;

/// The number for no universal start, and for no patterns with start rows of their own.
const NONE: u32 = 0xFFFFFFFF;

/// The little-endian image of a table of `rows` rows. The transitions of all but the first two are pseudo-random.
pub(crate) fn make_image(alloc: Global, rows: u32) -> Result<Vec<u8>, AllocError>
    requires some { 3 ≤ rows }
    requires few { rows ≤ 1000000 }
{
    let mut image = Vec::new(alloc);
    image.extend_from_slice(b"rust-regex-automata-dfa-dense\0\0\0")?;
    put_words(&mut image, &[0xFEFF, 2, 0, 0, rows, STRIDE2])?;
    for byte in 0..256u32 {
        image.push((byte / CLASS_LEN) as u8)?;
    }
    put_rows(&mut image, rows)?;
    put_starts(&mut image)?;
    // no match rows, no patterns, no special rows but dead and quit, no needles, no quit bytes
    put_words(&mut image, &[0, 0, 0])?;
    put_words(&mut image, &[STRIDE, STRIDE, 0, 0, 0, 0, 0, 0])?;
    put_words(&mut image, &[0; 9])?;
    Ok(image)
}

fn put_words(image: &mut Vec<u8>, words: &[u32]) -> Result<(), AllocError> {
    for word in words {
        image.extend_from_slice(&word.to_le_bytes())?;
    }
    Ok(())
}

fn put_rows(image: &mut Vec<u8>, rows: u32) -> Result<(), AllocError>
    requires some { 3 ≤ rows }
    requires few { rows ≤ 1000000 }
{
    put_words(image, &[0; 2 * STRIDE as usize])?;
    let mut seed = 12345;
    for _ in 2..rows {
        for column in 0..STRIDE {
            let next = if column < ALPHABET {
                next_row(rows, &mut seed)
            } else {
                0
            };
            put_words(image, &[next * STRIDE])?;
        }
    }
    Ok(())
}

/// A pseudo-random row past the first two.
fn next_row(rows: u32, seed: &mut u64) -> u32
    requires { 3 ≤ rows }
    ensures { result < rows }
{
    *seed = seed
        .wrapping_mul(6364136223846793005)
        .wrapping_add(1442695040888963407);
    2 + (*seed >> 33) as u32 % (rows - 2)
}

/// A start table of both modes, all of whose searches start at row 2.
fn put_starts(image: &mut Vec<u8>) -> Result<(), AllocError> {
    put_words(image, &[0])?;
    image.extend_from_slice(&[0; 256])?;
    put_words(image, &[6, NONE, NONE, NONE])?;
    put_words(image, &[2 * STRIDE; 12])
}
