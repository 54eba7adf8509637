//! Tests of the 18 assertions, against tables worked by hand.

use rx_base::{Look, LookMatcher};
use std::process::Abort;

/// Whether an assertion holds at these offsets of a haystack and at no other. `offsets` has a digit for each.
fn holds_at(look: Look, haystack: &[u8], offsets: &str) -> bool {
    let matcher = LookMatcher::default();
    for (at, digit) in b"0123456789".iter().enumerate() {
        let holds = at <= haystack.len() && matcher.matches(look, haystack, at);
        if holds != offsets.as_bytes().contains(digit) {
            return false;
        }
    }
    haystack.len() < 10
}

/// Compares where each assertion holds with the cells of its row. A cell lists the offsets in one haystack.
fn compare(rt: &impl Abort, haystacks: &[&str], table: &[(Look, &[&str])]) {
    for (look, cells) in table {
        assert!(rt; cells.len() == haystacks.len());
        for (haystack, offsets) in haystacks.iter().zip(*cells) {
            let holds = holds_at(*look, haystack.as_bytes(), offsets);
            assert!(rt; holds, "{look:?} in {haystack}");
        }
    }
}

#[test]
fn assertions_hold_where_the_tables_say(rt: HostRuntime) {
    let lines: &[(Look, &[&str])] = &[
        (Look::Start, &["0", "0", "0", "0", "0"]),
        (Look::End, &["0", "1", "1", "2", "3"]),
        (Look::StartLF, &["0", "01", "0", "01", "02"]),
        (Look::EndLF, &["0", "01", "1", "02", "13"]),
    ];
    compare(&rt, &["", "\n", "a", "\na", "a\na"], lines);

    let haystacks = &["", "a", "ab", " a ", "a ", "\u{1d6c3}b", "b\u{1d6c3}"];
    let words: &[(Look, &[&str])] = &[
        (Look::WordAscii, &["", "01", "02", "12", "01", "45", "01"]),
        (
            Look::WordAsciiNegate,
            &["0", "", "1", "03", "2", "0123", "2345"],
        ),
        (Look::WordStartAscii, &["", "0", "0", "1", "0", "4", "0"]),
        (Look::WordEndAscii, &["", "1", "2", "2", "1", "5", "1"]),
        (
            Look::WordStartHalfAscii,
            &["0", "0", "0", "013", "02", "01234", "02345"],
        ),
        (
            Look::WordEndHalfAscii,
            &["0", "1", "2", "023", "12", "01235", "12345"],
        ),
    ];
    compare(&rt, haystacks, words);
}
