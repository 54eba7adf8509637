//! Tests of the plain powerset states, with examples worked by hand.

use crate::notation::read;
use rx_base::{MatchKind, Start, Unit};
use rx_expr::thompson::{Compiler, Config};
use rx_powerset::PowerState;
use rx_powerset::laws::{equal, same_rank};
use std::alloc::Global;
use std::process::Abort;
use std::test::Fail;

/// How a text is read: which matches are reported, whether in reverse, and the start context.
#[derive(Clone, Copy)]
struct Way(MatchKind, bool, Start);

const FORWARD: Way = Way(MatchKind::LeftmostFirst, false, Start::Text);

const ALL_FORWARD: Way = Way(MatchKind::All, false, Start::Text);

/// The patterns that are reported after each byte and after end of input: a digit for each pattern, and a dot after
/// each unit. The search is anchored.
fn told(alloc: Global, patterns: &str, way: Way, units: &str) -> Result<String, Fail> {
    let exprs = read(alloc, patterns)?;
    let mut compiler = Compiler::new();
    compiler.configure(Config::new().reverse(way.1));
    let nfa = compiler.build_many(alloc, &exprs)?;
    let mut state = PowerState::start(alloc, &nfa, nfa.start_anchored(), way.2)?;
    let mut out = String::new(alloc);
    for byte in units.as_bytes() {
        state = state.step(alloc, &nfa, way.0, Unit::Byte(*byte))?;
        show(&state, &mut out)?;
    }
    state = state.step(alloc, &nfa, way.0, Unit::Eoi)?;
    show(&state, &mut out)?;
    Ok(out)
}

fn show(state: &PowerState, out: &mut String) -> Result<(), Fail> {
    for i in 0..state.pattern_len() {
        write!(out, "{}", state.pattern(i).as_u32())?;
    }
    Ok(out.push('.')?)
}

/// Compares which patterns are reported in some texts.
fn compare(rt: &impl Abort, alloc: Global, rows: &[(&str, Way, &str, &str)]) -> Result<(), Fail> {
    for (patterns, way, units, want) in rows {
        let told = told(alloc, patterns, *way, units)?;
        assert!(rt; told.as_str() == *want, "{patterns} at {units}: {told}");
    }
    Ok(())
}

#[test]
fn matches_are_told_by_preference_or_all(rt: HostRuntime) -> Result<(), Fail> {
    let rows: &[(&str, Way, &str, &str)] = &[
        // only the preferred matches are reported
        ("ab abc", FORWARD, "abcd", "..0..."),
        ("abc ab", FORWARD, "abcd", "..1.0.."),
        // all matches are reported
        ("ab abc", ALL_FORWARD, "abc", "..0.1."),
        ("a a", ALL_FORWARD, "a", ".01."),
    ];
    compare(&rt, rt.alloc(), rows)
}

#[test]
fn assertions_see_both_neighbours(rt: HostRuntime) -> Result<(), Fail> {
    let rows: &[(&str, Way, &str, &str)] = &[
        ("<word> a . <word> .", FORWARD, "a b", ".0..."),
        ("<word> a . <word> .", FORWARD, "ab", "..."),
        ("<word> a . <word> .", FORWARD, "a", ".0."),
        // in reverse, the byte that was read last comes after the position
        (
            "^ a . $ .",
            Way(MatchKind::All, true, Start::Text),
            "a",
            ".0.",
        ),
        (
            "^ a . $ .",
            Way(MatchKind::All, true, Start::WordByte),
            "a",
            "..",
        ),
    ];
    compare(&rt, rt.alloc(), rows)
}

#[test]
fn states_tell_their_parts(rt: HostRuntime) -> Result<(), Fail> {
    let alloc = rt.alloc();
    let nfa = Compiler::new().build_many(alloc, &read(alloc, "a")?)?;
    let dead = PowerState::dead(alloc);
    let anchored = PowerState::start(alloc, &nfa, nfa.start_anchored(), Start::Text)?;
    let free = PowerState::start(alloc, &nfa, nfa.start_unanchored(), Start::Text)?;
    assert!(rt; (dead.size(), anchored.size(), free.size()) == (8, 12, 16));
    let again = PowerState::start(alloc, &nfa, nfa.start_anchored(), Start::WordByte)?;
    assert!(rt; anchored == again && anchored != free && dead < anchored);
    assert!(rt; equal(&anchored, &again) && same_rank(&anchored, &again));
    let gone = anchored.step(alloc, &nfa, MatchKind::All, Unit::Byte(b'b'))?;
    assert!(rt; gone == dead);
    Ok(())
}
