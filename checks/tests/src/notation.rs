//! Expressions as short texts, for tables of tests.
//!
//! A text is words with one space between two, in postfix order: `a b . c |` is either `ab` or `c`. Each expression
//! that is left at the end is a pattern, so `a b` is two patterns.
//!
//! | word | what it is |
//! |---|---|
//! | `_` | the empty expression |
//! | `.` | the last two, one after the other |
//! | `\|` | one of the last two |
//! | `{2,4}` `{2,}` | from 2 to 4 rounds of the last one, or at least 2 rounds |
//! | `{2,4}?` `{2,}?` | the same, but lazy |
//! | `[ab]` `[^ab]` | one of these bytes, or any other byte |
//! | `\d` `\w` `\S` | a digit; a digit, a letter or `_`; a byte that isn't white space |
//! | `^` `$` `<word>` | an assertion |
//! | any other | these bytes |

use rx_base::{ByteSet, Look};
use rx_expr::Expr;
use std::alloc::Global;
use std::test::Fail;

/// The words of the assertions.
const LOOKS: &[(&str, Look)] = &[
    ("^", Look::Start),
    ("$", Look::End),
    ("<startlf>", Look::StartLF),
    ("<endlf>", Look::EndLF),
    ("<startcrlf>", Look::StartCRLF),
    ("<endcrlf>", Look::EndCRLF),
    ("<word>", Look::WordAscii),
    ("<wordneg>", Look::WordAsciiNegate),
    ("<uword>", Look::WordUnicode),
    ("<uwordneg>", Look::WordUnicodeNegate),
    ("<wordstart>", Look::WordStartAscii),
    ("<wordend>", Look::WordEndAscii),
    ("<uwordstart>", Look::WordStartUnicode),
    ("<uwordend>", Look::WordEndUnicode),
    ("<wordstarthalf>", Look::WordStartHalfAscii),
    ("<wordendhalf>", Look::WordEndHalfAscii),
    ("<uwordstarthalf>", Look::WordStartHalfUnicode),
    ("<uwordendhalf>", Look::WordEndHalfUnicode),
];

/// The word of an assertion.
pub fn word_of(wanted: Look) -> &'static str {
    for (word, look) in LOOKS {
        if *look == wanted {
            return *word;
        }
    }
    "no word"
}

/// Reads a list of patterns.
pub fn read(alloc: Global, text: &str) -> Result<Vec<Expr>, Fail> {
    let mut parts = Vec::new(alloc);
    if !text.is_empty() {
        for word in text.split(' ') {
            let part = part_of(alloc, word, &mut parts)?;
            parts.push(part)?;
        }
    }
    Ok(parts)
}

/// Reads one pattern.
pub fn read_one(alloc: Global, text: &str) -> Result<Expr, Fail> {
    last(&mut read(alloc, text)?)
}

/// The expression of a word. Takes its parts from the expressions read so far.
fn part_of(alloc: Global, word: &str, parts: &mut Vec<Expr>) -> Result<Expr, Fail> {
    match word.as_bytes() {
        b"_" => Ok(Expr::empty()),
        b"." => {
            let second = last(parts)?;
            Ok(Expr::concat(alloc, last(parts)?, second)?)
        }
        b"|" => {
            let second = last(parts)?;
            Ok(Expr::alternate(alloc, last(parts)?, second)?)
        }
        [b'{', bounds @ .., b'}'] => repeated(alloc, bounds, true, last(parts)?),
        [b'{', bounds @ .., b'}', b'?'] => repeated(alloc, bounds, false, last(parts)?),
        _ => leaf(alloc, word),
    }
}

/// Takes the last expression.
fn last(parts: &mut Vec<Expr>) -> Result<Expr, Fail> {
    Ok(parts.pop().ok_or("a part is missing")?)
}

/// The repetition with the bounds that `2,4` or `2,` spells.
fn repeated(alloc: Global, bounds: &[u8], greedy: bool, body: Expr) -> Result<Expr, Fail> {
    let (mut min, mut max) = (0u32, None);
    for byte in bounds {
        match (*byte, max) {
            (b',', _) => max = Some(0),
            (digit, None) => min = with_digit(min, digit),
            (digit, Some(most)) => max = Some(with_digit(most, digit)),
        }
    }
    let max = if bounds.ends_with(b",") { None } else { max };
    Ok(Expr::repeat(alloc, min, max, greedy, body)?)
}

/// The number with one more digit.
fn with_digit(number: u32, digit: u8) -> u32 {
    number
        .wrapping_mul(10)
        .wrapping_add(u32::from(digit.wrapping_sub(b'0')))
}

/// An assertion, a class or a literal.
fn leaf(alloc: Global, word: &str) -> Result<Expr, Fail> {
    for (name, look) in LOOKS {
        if *name == word {
            return Ok(Expr::look(*look));
        }
    }
    match class_of(word.as_bytes()) {
        Some(set) => Ok(Expr::class(set)),
        None => Ok(Expr::literal(alloc, word.as_bytes())?),
    }
}

/// The bytes of a class, or `None` if the word isn't one.
fn class_of(word: &[u8]) -> Option<ByteSet> {
    let mut set = ByteSet::empty();
    for byte in 0..=255 {
        if is_in_class(word, byte)? {
            set.add(byte);
        }
    }
    Some(set)
}

/// Whether a byte is in the class of a word, or `None` if the word isn't one.
fn is_in_class(word: &[u8], byte: u8) -> Option<bool> {
    match word {
        b"\\d" => Some(byte.is_ascii_digit()),
        b"\\w" => Some(byte.is_ascii_alphanumeric() || byte == b'_'),
        b"\\S" => Some(!matches!(byte, b'\t'..=b'\r' | b' ')),
        [b'[', b'^', others @ .., b']'] => Some(!others.contains(&byte)),
        [b'[', bytes @ .., b']'] => Some(bytes.contains(&byte)),
        _ => None,
    }
}
