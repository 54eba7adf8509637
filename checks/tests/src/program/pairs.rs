//! Tests of the settings of pairs, and of tables that don't belong together.

use crate::notation::read;
use rx_base::{Anchored, Input, MatchKind, PatternID, PatternSet, StartKind};
use rx_build::dense;
use rx_dense::OwnedDFA;
use rx_expr::thompson;
use rx_regex::{Builder, Regex, RegexBuild};
use rx_search::Automaton;
use std::alloc::Global;
use std::process::Abort;
use std::test::Fail;

/// All matches in a haystack as text.
fn matches<A: Automaton>(alloc: Global, regex: &Regex<A>, haystack: &[u8]) -> Result<String, Fail> {
    let mut text = String::new(alloc);
    for found in regex.find_iter(&Input::new(haystack)) {
        let found = found?;
        let (pattern, start, end) = (found.pattern().as_u32(), found.start(), found.end());
        text.push_str(&format!(in alloc; "{pattern} {start} {end};")?)?;
    }
    Ok(text)
}

/// Compares the matches of the empty expression in a character of three bytes.
fn compare<A: Automaton>(
    rt: &impl Abort,
    alloc: Global,
    regex: &Regex<A>,
    want: &str,
) -> Result<(), Fail> {
    let told = matches(alloc, regex, b"\xe2\x98\x83")?;
    assert!(rt; told.as_str() == want, "{told}");
    Ok(())
}

#[test]
fn a_new_pair_tells_whole_characters(rt: HostRuntime) -> Result<(), Fail> {
    let alloc = rt.alloc();
    let exprs = read(alloc, "_")?;
    let want = "0 0 0;0 3 3;";
    let regex = Regex::<OwnedDFA>::new_many(alloc, &exprs)?;
    compare(&rt, alloc, &regex, want)?;
    let regex = Regex::<OwnedDFA>::new_many_sparse(alloc, &exprs)?;
    compare(&rt, alloc, &regex, want)
}

#[test]
fn without_utf8_mode_a_pair_tells_each_byte(rt: HostRuntime) -> Result<(), Fail> {
    let alloc = rt.alloc();
    let exprs = read(alloc, "_")?;
    let want = "0 0 0;0 1 1;0 2 2;0 3 3;";
    let mut builder = Builder::new();
    builder.thompson(thompson::Config::new().utf8(false));
    let regex = builder.build_many(alloc, &exprs)?;
    compare(&rt, alloc, &regex, want)?;
    let regex = builder.build_many_sparse(alloc, &exprs)?;
    compare(&rt, alloc, &regex, want)
}

#[test]
fn settings_hold_for_both_tables(rt: HostRuntime) -> Result<(), Fail> {
    let alloc = rt.alloc();
    let exprs = read(alloc, "a b")?;
    let mut builder = Regex::<OwnedDFA>::builder();
    builder.dense(dense::Config::new().starts_for_each_pattern(true));
    builder.dense(dense::Config::new().specialize_start_states(true));
    builder.thompson(thompson::Config::new().utf8(false));
    let regex = builder.build_many(alloc, &exprs)?;
    assert!(rt; regex.forward().pattern_len() == 2 && regex.reverse().pattern_len() == 2);
    let second = Anchored::Pattern(PatternID::new(1)?);
    let found = regex.find(&Input::new(b"ba").anchored(second))?;
    assert!(rt; found.is_some() && regex.is_match(&Input::new(b"xxb"))?);
    // in reverse, every search is anchored
    let backward = regex.reverse().try_search_rev(&Input::new(b"ba"));
    assert!(rt; backward.is_err());
    Ok(())
}

/// A table of some patterns.
#[derive(Clone, Copy)]
enum Of {
    /// Forward, with start states for both modes.
    Forward(&'static str),
    /// Forward, with unanchored start states only.
    Anywhere(&'static str),
    /// In reverse, for all matches and with anchored start states only, as in a pair.
    Reverse(&'static str),
    /// The same with start states for both modes.
    ReverseOfBoth(&'static str),
}

use Of::*;

impl Of {
    fn build(self, alloc: Global) -> Result<OwnedDFA, Fail> {
        let (patterns, reverse, kind) = match self {
            Forward(patterns) => (patterns, false, StartKind::Both),
            Anywhere(patterns) => (patterns, false, StartKind::Unanchored),
            Reverse(patterns) => (patterns, true, StartKind::Anchored),
            ReverseOfBoth(patterns) => (patterns, true, StartKind::Both),
        };
        let mut config = dense::Config::new().start_kind(kind);
        if reverse {
            config = config.match_kind(MatchKind::All);
        }
        let mut builder = dense::Builder::new();
        builder.configure(config);
        builder.thompson(thompson::Config::new().reverse(reverse));
        Ok(builder.build_many(alloc, &read(alloc, patterns)?)?)
    }
}

/// The result of a search by a pair: a match, none, or the text of the error.
fn told(
    alloc: Global,
    regex: &Regex<OwnedDFA>,
    text: &str,
    anchored: bool,
) -> Result<String, Fail> {
    let mode = if anchored {
        Anchored::Yes
    } else {
        Anchored::No
    };
    let input = Input::new(text.as_bytes()).anchored(mode);
    let told = match regex.try_search(&input) {
        Ok(None) => format!(in alloc; "none")?,
        Ok(Some(m)) => format!(in alloc; "{} {} {}", m.pattern().as_u32(), m.start(), m.end())?,
        Err(error) => format!(in alloc; "{error}")?,
    };
    Ok(told)
}

/// Two tables, a text, whether the search is anchored, and its result.
type Pair = (Of, Of, &'static str, bool, &'static str);

const NO_START_FOR_2: &str =
    "no start for the end HalfMatch { pattern: PatternID { index: 0 }, offset: 2 }, but None";

/// A search keeps the end of a forward match if the match is empty, if the search is anchored, or if the forward table
/// is always anchored. Otherwise a reverse search of the second table from that end must find the same pattern.
const PAIRS: &[Pair] = &[
    (Forward("a"), Reverse("b"), "xa", false, NO_START_FOR_2),
    (Forward("a"), Reverse("b"), "ab", true, "0 0 1"),
    (Forward("^ a ."), Reverse("b"), "ab", false, "0 0 1"),
    (Forward("_"), Reverse("b"), "a", false, "0 0 0"),
    // with swapped roles, the reverse table is searched forward, and it has only anchored start states
    (
        Reverse("b"),
        Forward("a"),
        "xa",
        false,
        "searches in the mode No are not supported",
    ),
    (Reverse("b"), Forward("a"), "ba", true, "0 0 1"),
    (Reverse("b"), Forward("a"), "xa", true, "none"),
    (
        ReverseOfBoth("b"),
        Forward("a"),
        "xb",
        false,
        NO_START_FOR_2,
    ),
    (ReverseOfBoth("b"), Forward("a"), "xa", false, "none"),
    // two forward tables: the second reads its patterns from their ends
    (Forward("a"), Forward("a"), "xa", false, "0 1 2"),
    (Forward("aba"), Forward("aba"), "xaba", false, "0 1 4"),
    (
        Forward("ab"),
        Forward("ab"),
        "xab",
        false,
        "no start for the end HalfMatch { pattern: PatternID { index: 0 }, offset: 3 }, but None",
    ),
    (Forward("ab"), Forward("ab"), "ab", true, "0 0 2"),
    (
        Forward("ab ba"),
        Forward("ab ba"),
        "xab",
        false,
        "no start for the end HalfMatch { pattern: PatternID { index: 0 }, offset: 3 }, but Some(HalfMatch { pattern: \
         PatternID { index: 1 }, offset: 1 })",
    ),
    (
        Forward("a"),
        Anywhere("a"),
        "xa",
        false,
        "searches in the mode Yes are not supported",
    ),
];

#[test]
fn tables_that_do_not_belong_together_disagree(rt: HostRuntime) -> Result<(), Fail> {
    let alloc = rt.alloc();
    for (first, second, text, anchored, wanted) in PAIRS {
        let (forward, reverse) = (first.build(alloc)?, second.build(alloc)?);
        let regex = Builder::new().build_from_dfas(forward, reverse);
        let told = told(alloc, &regex, *text, *anchored)?;
        assert!(rt; told.as_str() == *wanted, "{text}: {told}, not {wanted}");
    }
    Ok(())
}

#[test]
fn overlapping_matches_fill_a_pattern_set(rt: HostRuntime) -> Result<(), Fail> {
    let alloc = rt.alloc();
    let mut builder = dense::Builder::new();
    builder.configure(dense::Config::new().match_kind(MatchKind::All));
    let dfa = builder.build_many(alloc, &read(alloc, "Samwise Sam |")?)?;
    let input = Input::new(b"Samwise");
    let mut patterns = PatternSet::new(alloc, dfa.pattern_len())?;
    dfa.try_which_overlapping_matches(&input, &mut patterns)?;
    assert!(rt; patterns.len() == 1 && patterns.contains(PatternID::new(0)?));
    Ok(())
}
