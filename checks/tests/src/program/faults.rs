//! Tests of the texts of errors of building and searching by a plan.

use crate::notation::read;
use rx_base::{Input, MatchError, StartKind};
use rx_regex::{Plan, compile_and_find};
use std::test::Fail;

/// A setting that differs from the usual plan.
#[derive(Clone, Copy)]
enum Change {
    None,
    Quit(u8),
    Starts(StartKind),
    NfaLimit(usize),
    DfaLimit(usize),
    DeterminizeLimit(usize),
}

/// The usual plan with a change.
fn plan_with(change: Change) -> Plan {
    let mut plan = Plan::new();
    match change {
        Change::None => {}
        Change::Quit(byte) => plan.quit.add(byte),
        Change::Starts(kind) => plan.start_kind = kind,
        Change::NfaLimit(limit) => plan.nfa_limit = Some(limit),
        Change::DfaLimit(limit) => plan.dfa_limit = Some(limit),
        Change::DeterminizeLimit(limit) => plan.determinize_limit = Some(limit),
    }
    plan
}

const UNSUPPORTED: &str =
    "unsupported regex feature for DFAs: cannot build DFAs for regexes with Unicode word boundaries; \
     switch to ASCII word boundaries, or heuristically enable Unicode word boundaries or use a different \
     regex engine";

const NFA_REFUSED: &str = "error building NFA";

/// Patterns, a change of the plan, and the error's text; an empty text is no error.
const ROWS: &[(&str, Change, &str)] = &[
    ("<uword> \\d {1,} <uword> . .", Change::None, UNSUPPORTED),
    ("a {65536,65536} {65536,65536}", Change::None, NFA_REFUSED),
    ("a", Change::NfaLimit(159), NFA_REFUSED),
    ("a", Change::NfaLimit(160), ""),
    (
        "a",
        Change::DfaLimit(163),
        "DFA exceeded size limit of 163 during determinization",
    ),
    (
        "a",
        Change::DeterminizeLimit(71),
        "determinization exceeded size limit of 71",
    ),
    (
        "a",
        Change::Starts(StartKind::Anchored),
        "the mode No is not supported",
    ),
    ("a", Change::Quit(b'b'), "quit at the byte 0x62 at 0"),
];

#[test]
fn faults_say_why(rt: HostRuntime) -> Result<(), Fail> {
    let alloc = rt.alloc();
    for (patterns, change, want) in ROWS {
        let exprs = read(alloc, *patterns)?;
        let input = Input::new(b"ba").range(1, 2);
        let told = match compile_and_find(alloc, &exprs, &plan_with(*change), &input) {
            Ok(_) => String::new(alloc),
            Err(fault) => fault.to_string(alloc)?,
        };
        assert!(rt; told.as_str() == *want, "{patterns}: {told}");
    }
    Ok(())
}

#[test]
fn a_search_tells_its_quit_byte(rt: HostRuntime) -> Result<(), Fail> {
    let told = MatchError::quit(b'z', 3).to_string(rt.alloc())?;
    assert!(rt; told.as_str() == "quit search after observing byte 122 at offset 3");
    Ok(())
}
