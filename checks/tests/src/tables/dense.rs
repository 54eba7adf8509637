//! Tests that dense tables are made, small and large, and of the texts of errors.

use rx_base::{ByteClassSet, ByteClasses, ByteSet, LookMatcher, PatternID, StartKind, StateID};
use rx_dense::{Accel, Accels, AddError, Flags, OwnedDFA, PatternMapError};
use std::alloc::{AllocError, Global};
use std::collections::BTreeMap;
use std::fmt::Display;
use std::process::Abort;
use std::test::Fail;

/// Classes in which each of some bytes is alone.
fn classes_apart(bytes: &[u8]) -> ByteClasses {
    let mut ends = ByteClassSet::empty();
    for byte in bytes {
        ends.set_range(*byte, *byte);
    }
    ends.byte_classes()
}

/// A table of the dead and the quit row, with start states for each of three patterns. `z` is a quit byte, and `y` ends
/// lines.
fn begin(alloc: Global, classes: ByteClasses) -> Result<OwnedDFA, AllocError> {
    let mut quitset = ByteSet::empty();
    quitset.add(b'z');
    let flags = Flags {
        has_empty: true,
        is_utf8: false,
        is_always_start_anchored: true,
    };
    let lookm = LookMatcher::new(b'y');
    OwnedDFA::initial(
        alloc,
        classes,
        3,
        StartKind::Both,
        &lookm,
        true,
        quitset,
        flags,
    )
}

/// The id of a row, if there is such a row.
fn id(rt: &impl Abort, dfa: &OwnedDFA, row: usize) -> StateID {
    assert!(rt; row < dfa.state_len());
    StateID::must(row << dfa.stride2())
}

/// The needles of a row: at most three different bytes, none of them a space.
fn accel(rt: &impl Abort, needles: &[u8]) -> Accel {
    let mut accel = Accel::new();
    for needle in needles {
        assert!(rt; !accel.needles().contains(needle));
        assert!(rt; accel.add(*needle));
    }
    accel
}

/// The needles of several rows.
fn accels(alloc: Global, rows: &[Accel]) -> Result<Accels, AllocError> {
    let mut accels = Accels::empty(alloc)?;
    for row in rows {
        accels.add(row.clone()?)?;
    }
    Ok(accels)
}

/// Pattern lists, by the ids of their rows.
fn lists(
    rt: &impl Abort,
    alloc: Global,
    dfa: &OwnedDFA,
    rows: &[(usize, &[u32])],
) -> Result<BTreeMap<StateID, Vec<PatternID>>, Fail> {
    let mut lists = BTreeMap::new(alloc);
    for (row, patterns) in rows {
        let mut list = Vec::new(alloc);
        for pattern in patterns.iter() {
            list.push(PatternID::new(*pattern as usize)?)?;
        }
        lists.insert(id(rt, dfa, *row), list)?;
    }
    Ok(lists)
}

#[test]
fn small_tables_are_made(rt: HostRuntime) -> Result<(), Fail> {
    let alloc = rt.alloc();
    let mut dfa = begin(alloc, classes_apart(b"xz"))?;
    dfa.add_empty_state()?;
    dfa.add_empty_state()?;
    assert_eq!(rt; dfa.memory_usage(), 4 * (32 + 30 + 1));
    dfa.set_pattern_map(&lists(&rt, alloc, &dfa, &[(3, &[1]), (2, &[1, 0])])?)?;
    assert_eq!(rt; dfa.memory_usage(), 4 * (32 + 30 + 4 + 3 + 1));
    dfa.set_pattern_map(&BTreeMap::new(alloc))?;
    dfa.set_accels(accels(alloc, &[accel(&rt, b"xz")])?);
    assert_eq!(rt; dfa.memory_usage(), 4 * (32 + 30 + 1 + 2));
    Ok(())
}

/// Compares the text of an error.
fn says(rt: &impl Abort, alloc: Global, error: &impl Display, want: &str) -> Result<(), Fail> {
    let told = error.to_string(alloc)?;
    assert!(rt; told.as_str() == want, "{told}");
    Ok(())
}

#[test]
fn errors_say_what_is_wrong(rt: HostRuntime) -> Result<(), Fail> {
    let alloc = rt.alloc();
    says(
        &rt,
        alloc,
        &AddError::TooManyStates,
        "the table has no further ids",
    )?;
    says(&rt, alloc, &AddError::Memory, "out of memory")?;
    says(
        &rt,
        alloc,
        &PatternMapError::TooMany,
        "the lists of patterns are too long",
    )?;
    says(&rt, alloc, &PatternMapError::Memory, "out of memory")
}

#[test]
fn large_tables_are_made(rt: HostRuntime) -> Result<(), Fail> {
    let alloc = rt.alloc();
    let mut dfa = begin(alloc, ByteClasses::singletons())?;
    for _ in 2..3000 {
        dfa.add_empty_state()?;
    }
    let mut lists = BTreeMap::new(alloc);
    let mut needles = Accels::empty(alloc)?;
    for row in 2..2002 {
        let mut list = Vec::new(alloc);
        for pattern in 0..100 {
            list.push(PatternID::must(pattern))?;
        }
        lists.insert(id(&rt, &dfa, row), list)?;
        assert!(rt; needles.len() < 2000);
        needles.add(accel(&rt, b"xyz"))?;
    }
    dfa.set_pattern_map(&lists)?;
    assert_eq!(rt; needles.memory_usage(), 4 + 8 * 2000);
    dfa.set_accels(needles);
    let copy = dfa.to_owned(alloc)?;
    let words = 3000 * 512 + 30 + 2 * 2000 + 100 * 2000 + 1 + 2 * 2000;
    assert_eq!(rt; copy.memory_usage(), 4 * words);
    assert_eq!(rt; copy.as_ref().memory_usage(), 4 * words);
    Ok(())
}
