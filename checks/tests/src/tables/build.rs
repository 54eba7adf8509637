//! Tests of building tables: the numbers of states and the texts of errors.

use crate::notation::read;
use rx_base::Input;
use rx_build::BuildError;
use rx_build::dense::{Builder, Config, DFA, DenseBuild};
use rx_dense::OwnedDFA;
use rx_expr::thompson;
use rx_search::Automaton;
use std::alloc::Global;
use std::process::Abort;
use std::test::Fail;

/// A setting that differs from the usual configuration.
#[derive(Clone, Copy)]
enum Change {
    Minimize,
    UnicodeWord,
    TableLimit(usize),
    StatesLimit(usize),
    NfaLimit(usize),
}

use Change::*;

fn changed(config: Config, change: Change) -> Config {
    match change {
        Minimize => config.minimize(true),
        UnicodeWord => config.unicode_word_boundary(true),
        TableLimit(bytes) => config.dfa_size_limit(Some(bytes)),
        StatesLimit(bytes) => config.determinize_size_limit(Some(bytes)),
        NfaLimit(_) => config,
    }
}

fn nfa_changed(config: thompson::Config, change: Change) -> thompson::Config {
    match change {
        NfaLimit(bytes) => config.nfa_size_limit(Some(bytes)),
        _ => config,
    }
}

/// The table of some patterns, or the error of the build.
fn build(
    alloc: Global,
    patterns: &str,
    changes: &[Change],
) -> Result<Result<OwnedDFA, BuildError>, Fail> {
    let exprs = read(alloc, patterns)?;
    let mut config = Config::new();
    let mut nfa_config = thompson::Config::new().utf8(false);
    for change in changes {
        config = changed(config, *change);
        nfa_config = nfa_changed(nfa_config, *change);
    }
    let mut builder = Builder::new();
    builder.configure(config);
    builder.thompson(nfa_config);
    Ok(builder.build_many(alloc, &exprs))
}

/// The number of states, or the text of the build's error.
fn told(alloc: Global, patterns: &str, changes: &[Change]) -> Result<String, Fail> {
    match build(alloc, patterns, changes)? {
        Ok(dfa) => Ok(format!(in alloc; "{} states", dfa.state_len())?),
        Err(error) => Ok(format!(in alloc; "{error}")?),
    }
}

/// Patterns, settings, and the number of states of their table or the error.
type Case = (&'static str, &'static [Change], &'static str);

fn check(rt: &impl Abort, alloc: Global, cases: &[Case]) -> Result<(), Fail> {
    for (patterns, changes, wanted) in cases {
        let shape = told(alloc, patterns, changes)?;
        assert!(rt; shape.as_str() == *wanted, "{patterns}: {shape}");
    }
    Ok(())
}

#[test]
fn tables(rt: HostRuntime) -> Result<(), Fail> {
    let cases: &[Case] = &[
        ("", &[TableLimit(0)], "2 states"),
        ("abc", &[], "11 states"),
        ("[]", &[], "4 states"),
        ("[]", &[Minimize], "2 states"),
    ];
    check(&rt, rt.alloc(), cases)
}

#[test]
fn refusals(rt: HostRuntime) -> Result<(), Fail> {
    let alloc = rt.alloc();
    let table = "7 states";
    check(
        &rt,
        alloc,
        &[
            ("a", &[TableLimit(164)], table),
            (
                "a",
                &[TableLimit(163)],
                "DFA exceeded size limit of 163 during determinization",
            ),
            ("a", &[StatesLimit(72)], table),
            (
                "a",
                &[StatesLimit(71)],
                "determinization exceeded size limit of 71",
            ),
            ("a", &[NfaLimit(160)], table),
            ("a", &[NfaLimit(159)], "error building NFA"),
            (
                "<uword>",
                &[],
                "unsupported regex feature for DFAs: cannot build DFAs for regexes with Unicode word boundaries; \
                 switch to ASCII word boundaries, or heuristically enable Unicode word boundaries or use a different \
                 regex engine",
            ),
            ("<uword>", &[UnicodeWord], "7 states"),
        ],
    )?;
    match build(alloc, "a", &[StatesLimit(0)])? {
        Ok(_) => assert!(&rt; false),
        Err(error) => assert!(&rt; error.is_size_limit_exceeded()),
    }
    Ok(())
}

#[test]
fn everywhere_and_nowhere(rt: HostRuntime) -> Result<(), Fail> {
    let alloc = rt.alloc();
    let input = Input::new(b"foo12345");
    let always = DFA::<Vec<u32>>::always_match(alloc)?;
    match always.try_search_fwd(&input)? {
        Some(found) => assert!(&rt; found.offset() == 0 && found.pattern().as_usize() == 0),
        None => assert!(&rt; false),
    }
    let never = DFA::<Vec<u32>>::never_match(alloc)?;
    assert!(&rt; never.try_search_fwd(&input)?.is_none());
    Ok(())
}

#[test]
fn settings(rt: HostRuntime) -> Result<(), Fail> {
    let config = Config::new().unicode_word_boundary(true);
    assert!(&rt; config.clone()?.quit(0xff, false).is_err());
    match config.quit(0xff, true) {
        Ok(config) => assert!(&rt; config.get_quit(0xff) && !config.get_quit(0x80)),
        Err(_) => assert!(&rt; false),
    }
    let alloc = rt.alloc();
    let exprs = read(alloc, "ab cd")?;
    let many = DFA::<Vec<u32>>::new_many(alloc, &exprs)?;
    assert!(&rt; many.is_utf8() && many.pattern_len() == 2);
    Ok(())
}
