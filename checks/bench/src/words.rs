//! Numbers among the program's words.

ghost use Rattle.std.specs.Prelude.{◌≤◌, IfOk};

use crate::Fault;

/// The number that a word spells, from `low` to `high`.
pub(crate) fn number(word: &str, low: usize, high: usize) -> Result<usize, Fault>
    ensures low { IfOk result (λ number. low ≤ number) }
    ensures high { IfOk result (λ number. number ≤ high) }
{
    match word.parse::<usize>() {
        Ok(number) if low <= number && number <= high => Ok(number),
        _ => Err(Fault::Usage),
    }
}

/// How many times something is done.
pub(crate) fn times(word: &str) -> Result<u32, Fault> {
    word.parse::<u32>().map_err(|_| Fault::Usage)
}
