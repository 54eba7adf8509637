//! Tests of expressions and their NFAs, with examples worked by hand, and of the texts of errors.

mod shown;

use crate::notation::{read, read_one};
use rx_expr::thompson::{BuildError, Compiler, Config, NFA};
use rx_expr::{Expr, ExprError};
use shown::{shown, shown_nfa};
use std::alloc::Global;
use std::fmt::Display;
use std::process::Abort;
use std::test::Fail;

/// Compares the mirror of an expression with its text.
fn compare_mirror(rt: &impl Abort, alloc: Global, expr: &Expr, want: &str) -> Result<(), Fail> {
    let mirror = expr.mirror(alloc)?;
    let told = shown(alloc, &mirror)?;
    assert!(rt; told.as_str() == want, "{told}");
    Ok(())
}

#[test]
fn mirrors_swap_the_parts(rt: HostRuntime) -> Result<(), Fail> {
    let alloc = rt.alloc();
    let expr = read_one(alloc, "^ a b . c | . {2,5}?")?;
    compare_mirror(&rt, alloc, &expr, "b a . c | ^ . {2,5}?")?;
    let literal = Expr::literal(alloc, b"abcde")?;
    compare_mirror(&rt, alloc, &literal, "e d . c . b a . .")?;
    let long = vec![in alloc; b'a'; 3000]?;
    assert!(&rt; Expr::literal(alloc, &long)?.mirror(alloc)?.min_len() == 3000);
    Ok(())
}

/// The limit in the error, if the NFA of these expressions exceeds its size limit.
fn exceeded(alloc: Global, compiler: &Compiler, exprs: &[Expr]) -> Option<usize> {
    match compiler.build_many(alloc, exprs) {
        Err(BuildError::ExceededSizeLimit { limit }) => Some(limit),
        _ => None,
    }
}

/// Whether an NFA of this many states is built with a limit of 40 bytes a state, and rejected with one byte less.
fn is_limited(
    alloc: Global,
    compiler: &mut Compiler,
    exprs: &[Expr],
    count: u64,
) -> Result<bool, BuildError> {
    let limit = count.saturating_mul(40) as usize;
    let less = limit.saturating_sub(1);
    compiler.configure(Config::new().nfa_size_limit(Some(less)));
    let told = exceeded(alloc, compiler, exprs);
    compiler.configure(Config::new().nfa_size_limit(Some(limit)));
    let again = compiler.build_many(alloc, exprs)?;
    Ok(told == Some(less) && again.rows().len() as u64 == count)
}

/// Compares the states of an NFA, and checks that `rows_len` returns their number.
fn compare_rows(
    rt: &impl Abort,
    alloc: Global,
    text: &str,
    reverse: bool,
    want: &str,
) -> Result<(), Fail> {
    let exprs = read(alloc, text)?;
    let mut compiler = Compiler::new();
    compiler.configure(Config::new().reverse(reverse));
    let nfa = compiler.build_many(alloc, &exprs)?;
    let told = shown_nfa(alloc, &nfa)?;
    let count = compiler.rows_len(&exprs);
    let is_counted = count == nfa.rows().len() as u64 && 0 < count && count < 20;
    assert!(rt; told.as_str() == want && is_counted, "of {text}: {told}");
    let is_limited = is_limited(alloc, &mut compiler, &exprs, count)?;
    assert!(rt; is_limited, "of {text}");
    Ok(())
}

#[test]
fn rows_are_those_worked_by_hand(rt: HostRuntime) -> Result<(), Fail> {
    let rows: &[(&str, bool, &str)] = &[
        ("", false, "fail 0=0"),
        ("", true, "fail 0=0"),
        ("_", false, "#0 0|2 .>1 0:1 0"),
        ("a b . c |", false, "#0 b>0 a>1 c>0 2|3 4|6 .>5 4:5 4"),
        ("a b . c |", true, "#0 a>0 b>1 c>0 2|3 4|6 .>5 4:5 4"),
        ("a b", true, "#0 a>0 #1 b>2 1|3 4|6 .>5 4:5 1 3"),
        ("a b _", false, "#0 a>0 #1 b>2 #2 3|4 1|5 6|8 .>7 6:7 1 3 4"),
        ("^ a .", false, "#0 a>0 ^>1 2=2 2"),
        ("^ a .", true, "#0 ^>0 a>1 2|4 .>3 2:3 2"),
        ("a $ .", true, "#0 a>0 $>1 2=2 2"),
        ("^ a . ^", false, "#0 a>0 ^>1 #1 ^>3 2|4 5=5 2 4"),
        ("^ a . b", false, "#0 a>0 ^>1 #1 b>3 2|4 5|7 .>6 5:6 2 4"),
        ("a {2,4}", false, "#0 a>0 1|0 a>2 3|0 a>4 a>5 6|8 .>7 6:7 6"),
        ("a {0,1}?", false, "#0 a>0 0|1 2|4 .>3 2:3 2"),
        ("_ {0,2}", true, "#0 0|0 1|0 2|4 .>3 2:3 2"),
        ("a {1,}?", false, "#0 0|2 a>1 a>1 3|5 .>4 3:4 3"),
        ("a {0,}", true, "#0 2|0 a>1 1|4 .>3 1:3 1"),
        ("a b . {2,2}", true, "#0 a>0 b>1 a>2 b>3 4|6 .>5 4:5 4"),
    ];
    for (text, reverse, want) in rows {
        compare_rows(&rt, rt.alloc(), text, *reverse, want)?;
    }
    Ok(())
}

/// Compares an NFA of one state, and whether it has an empty match.
fn compare_row(
    rt: &impl Abort,
    alloc: Global,
    nfa: &NFA,
    want: &str,
    has_empty: bool,
) -> Result<(), Fail> {
    let told = shown_nfa(alloc, nfa)?;
    assert!(rt; told.as_str() == want && is_plain(nfa), "{told}");
    assert!(rt; nfa.has_empty() == has_empty && !nfa.is_utf8(), "{told}");
    Ok(())
}

/// Whether an NFA reads forward and its lines end with `\n`.
fn is_plain(nfa: &NFA) -> bool {
    !nfa.is_reverse() && nfa.line_terminator() == b'\n'
}

#[test]
fn one_row_matches_everywhere_or_nowhere(rt: HostRuntime) -> Result<(), Fail> {
    let alloc = rt.alloc();
    compare_row(&rt, alloc, &NFA::always_match(alloc)?, "#0 0=0 0", true)?;
    compare_row(&rt, alloc, &NFA::never_match(alloc)?, "fail 0=0", false)
}

/// What `rows_len` returns, and the error of a build with a limit.
fn rows_refused(alloc: Global, text: &str, limit: Option<usize>) -> Result<(u64, String), Fail> {
    let exprs = read(alloc, text)?;
    let mut compiler = Compiler::new();
    compiler.configure(Config::new().nfa_size_limit(limit));
    let error = compiler.build_many(alloc, &exprs).err().ok_or("built")?;
    Ok((compiler.rows_len(&exprs), error.to_string(alloc)?))
}

#[test]
fn too_many_rows_are_refused_at_once(rt: HostRuntime) -> Result<(), Fail> {
    let many = "2147483648 rows are more than there are ids";
    let large = "the rows take more than 0 bytes";
    let rows: &[(&str, Option<usize>, u64, bool)] = &[
        ("[^] {65536,65536} {65536,65536}", None, 2147483648, true),
        ("[^] {65536,65536} {65536,65536}", Some(0), 2147483648, true),
        (
            "[^] {1,1} {2147483645,2147483645}",
            Some(0),
            2147483648,
            true,
        ),
        (
            "[^] {1,1} {2147483644,2147483644}",
            Some(0),
            2147483647,
            false,
        ),
    ];
    for (text, limit, count, is_many) in rows {
        let want = if *is_many { many } else { large };
        let (told_count, told) = rows_refused(rt.alloc(), text, *limit)?;
        assert!(rt;
            told_count == *count && told.as_str() == want,
            "{text}: {told}"
        );
    }
    Ok(())
}

/// Compares the text of an error.
fn says(rt: &impl Abort, alloc: Global, error: &impl Display, want: &str) -> Result<(), Fail> {
    let told = error.to_string(alloc)?;
    assert!(rt; told.as_str() == want, "{told}");
    Ok(())
}

#[test]
fn refusals_say_why(rt: HostRuntime) -> Result<(), Fail> {
    let rows: &[(ExprError, &str)] = &[
        (
            ExprError::BadRange,
            "a repetition's most rounds are fewer than its least",
        ),
        (
            ExprError::EmptyBody,
            "a repetition without an end has a body that can be empty",
        ),
        (ExprError::TooDeep, "the expression is deeper than 200"),
        (ExprError::Memory, "out of memory"),
    ];
    for (error, want) in rows {
        says(&rt, rt.alloc(), error, want)?;
    }
    let rows: &[(BuildError, &str)] = &[
        (
            BuildError::TooManyPatterns { given: 2147483648 },
            "2147483648 patterns are more than there are ids",
        ),
        (
            BuildError::TooManyStates { given: 2147483649 },
            "2147483649 rows are more than there are ids",
        ),
        (
            BuildError::ExceededSizeLimit { limit: 39 },
            "the rows take more than 39 bytes",
        ),
        (BuildError::Memory, "out of memory"),
    ];
    for (error, want) in rows {
        says(&rt, rt.alloc(), error, want)?;
    }
    Ok(())
}
