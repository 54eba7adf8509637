//! The searches that are timed.
//!
//! Each is a function of its own that isn't inlined, so that the compiler doesn't specialize it for one table.

ghost use Rattle.std.specs.Prelude.{◌<◌, length, IfSome};
ghost use Rattle.rx_dense.specs.Facts.{IsSoundLayout};

use memchr::{memchr, memchr2, memchr3};
use rx_base::{HalfMatch, Input, MatchError, Steps, Tally};
use rx_dense::OwnedDFA;
use rx_search::{Automaton, Cursor, find_fwd_counted};

/// All of them.
pub(crate) const SEARCHES: [Search; 5] = [
    Search::Forward,
    Search::Reverse,
    Search::Counted,
    Search::Steps,
    Search::Memchr,
];

/// What is timed.
#[derive(Clone, Copy, Debug)]
pub(crate) enum Search {
    /// A forward search.
    Forward,
    /// A search in reverse.
    Reverse,
    /// A forward search that counts its steps. The count isn't read.
    Counted,
    /// The same search. The count is read.
    Steps,
    /// Finds the needles of the start state with `memchr` alone, one after another.
    Memchr,
}

/// The result of a search.
#[derive(Debug, Drop)]
pub(crate) enum Answer {
    /// The match, if there is one.
    Match(Option<HalfMatch>),
    /// How many steps were counted.
    Steps(u64),
    /// How many needles there are.
    Needles(usize),
}

impl Search {
    /// Searches a text.
    pub(crate) fn run(self, dfa: &OwnedDFA, text: &[u8]) -> Result<Answer, MatchError>
        requires sound { IsSoundLayout dfa.now }
    {
        match self {
            Search::Forward => Ok(Answer::Match(search_fwd(dfa, text)?)),
            Search::Reverse => Ok(Answer::Match(search_rev(dfa, text)?)),
            Search::Counted => Ok(Answer::Match(search_counted(dfa, text)?)),
            Search::Steps => Ok(Answer::Steps(count_steps(dfa, text)?)),
            Search::Memchr => {
                let start = dfa.start_state_forward(&Input::new(text))?;
                let needles = dfa.accelerator(start);
                Ok(Answer::Needles(count_needles(needles.as_slice(), text)))
            }
        }
    }
}

#[inline(never)]
fn search_fwd(dfa: &OwnedDFA, text: &[u8]) -> Result<Option<HalfMatch>, MatchError>
    requires { IsSoundLayout dfa.now }
{
    dfa.try_search_fwd(&Input::new(text))
}

#[inline(never)]
fn search_rev(dfa: &OwnedDFA, text: &[u8]) -> Result<Option<HalfMatch>, MatchError>
    requires { IsSoundLayout dfa.now }
{
    dfa.try_search_rev(&Input::new(text))
}

#[inline(never)]
fn search_counted(dfa: &OwnedDFA, text: &[u8]) -> Result<Option<HalfMatch>, MatchError>
    requires { IsSoundLayout dfa.now }
{
    let input = Input::new(text);
    let mut cursor = Cursor::<&OwnedDFA, Tally>::forward(dfa, &input)?;
    find_fwd_counted(&mut cursor, &input, &mut Steps::new(Tally))
}

#[inline(never)]
fn count_steps(dfa: &OwnedDFA, text: &[u8]) -> Result<u64, MatchError>
    requires { IsSoundLayout dfa.now }
{
    let input = Input::new(text);
    let mut cursor = Cursor::<&OwnedDFA, Tally>::forward(dfa, &input)?;
    let mut steps = Steps::new(Tally);
    find_fwd_counted(&mut cursor, &input, &mut steps)?;
    Ok(steps.count())
}

/// How many needles a text has.
#[inline(never)]
fn count_needles(needles: &[u8], text: &[u8]) -> usize {
    let mut count = 0;
    let mut rest = text;
    while let Some(at) = first_needle(needles, rest) {
        count += 1;
        rest = &rest[at + 1..];
    }
    count
}

/// The place of the first needle.
#[inline(always)]
fn first_needle(needles: &[u8], text: &[u8]) -> Option<usize>
    ensures { IfSome result (λ at. at < length text.now) }
{
    match needles {
        [a] => memchr(*a, text),
        [a, b] => memchr2(*a, *b, text),
        [a, b, c] => memchr3(*a, *b, *c, text),
        _ => None,
    }
}
