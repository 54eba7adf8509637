//! Texts to search.

ghost use Rattle.std.specs.Prelude.{◌≡◌, length, IfOk};

use super::tables::NEEDLES;
use std::alloc::Global;
use std::io;

/// The number of letters in a text, from `a` on. None of them is a needle.
const LETTERS: u64 = 23;

/// A text of pseudo-random letters in which each byte whose offset is a multiple of `every` is the first needle. With
/// `every` = 0 none is.
pub(crate) fn make_text(alloc: Global, len: usize, every: usize) -> io::Result<Vec<u8>>
    ensures { IfOk result (λ text. length text.items ≡ len) }
{
    let mut seed: u64 = 7;
    let mut text = Vec::with_capacity(alloc, len)?;
    for at in 0..len {
        seed = seed
            .wrapping_mul(6364136223846793005)
            .wrapping_add(1442695040888963407);
        let is_needle = every > 0 && at % every == every - 1;
        text.push(if is_needle { NEEDLES[0] } else { letter(seed) })?;
    }
    Ok(text)
}

/// A letter chosen by the high bits of a number.
fn letter(seed: u64) -> u8 {
    b'a' + ((seed >> 33) % LETTERS) as u8
}
