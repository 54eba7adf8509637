//! Tests of the callers of `docs/calling`, on tables of a few patterns.

use example_callers::{
    base, build, dense, dense_image, expr, image, pair, regex, scan, search, sparse_build,
    sparse_image, stream,
};
use rx_base::{Anchored, ByteSet, Input};
use rx_dense::OwnedDFA;
use rx_expr::Expr;
use rx_regex::{Regex, RegexBuild};
use rx_stream::StreamSearcher;
use std::alloc::Global;
use std::process::Abort;
use std::test::Fail;

/// `(?m:^)(?:warn|error): ` and up to three digits.
fn patterns(alloc: Global) -> Result<Vec<Expr>, Fail> {
    let mut digits = ByteSet::empty();
    for byte in b'0'..=b'9' {
        digits.add(byte);
    }
    let mut patterns = Vec::new(alloc);
    patterns.push(expr::level(alloc)?)?;
    patterns.push(expr::some_of(alloc, digits, 3)?)?;
    Ok(patterns)
}

/// The table of these patterns that a scanner needs, written and read again.
fn table(alloc: Global) -> Result<OwnedDFA, Fail> {
    let table = build::scanner_table(alloc, &patterns(alloc)?)?;
    let image = dense_image::save(alloc, &table)?;
    Ok(dense_image::load(alloc, &image)?)
}

#[test]
fn dense_tables_begin_scan_and_stream(rt: HostRuntime) -> Result<(), Fail> {
    let table = table(rt.alloc())?;
    assert!(&rt; matches!(dense::begins(&table, b"warn: 1"), Ok(true)));
    assert!(&rt; matches!(dense::begins(&table, b"a warn: 1"), Ok(false)));
    assert!(&rt; dense::bytes_for_each_state(&table) > 0);
    assert!(&rt; matches!(scan::count(&table, b"error: 12345"), Ok(3)));
    assert!(&rt; matches!(scan::count(&table, b"error: x"), Err(7)));
    Ok(())
}

#[test]
fn pieces_have_the_matches_of_the_text(rt: HostRuntime) -> Result<(), Fail> {
    let table = table(rt.alloc())?;
    let mut searcher = StreamSearcher::new(&table, Anchored::Yes)?;
    assert!(&rt; stream::feed(&mut searcher, b"war") == Some(0));
    assert!(&rt; stream::feed(&mut searcher, b"n: 12") == Some(1));
    assert!(&rt; stream::finish(&mut searcher) == 0);
    assert!(&rt; stream::feed(&mut searcher, b"3").is_none());
    Ok(())
}

#[test]
fn sparse_tables_report_ends(rt: HostRuntime) -> Result<(), Fail> {
    let alloc = rt.alloc();
    let table = sparse_build::smallest(alloc, &patterns(alloc)?)?;
    assert!(&rt; matches!(search::first_end(&table, b"a 12345"), Ok(Some(5))));
    let found = search::patterns_in(alloc, &table, b"a 12345")?;
    assert!(&rt; found.is_some_and(|set| set.len() == 1));
    Ok(())
}

#[test]
fn sparse_images_are_searched(rt: HostRuntime) -> Result<(), Fail> {
    let alloc = rt.alloc();
    let table = sparse_build::smallest(alloc, &patterns(alloc)?)?;
    let saved = sparse_image::save(alloc, &table)?;
    assert!(&rt; matches!(sparse_image::is_suspicious(alloc, &saved, b"a1"), Ok(true)));
    assert!(&rt; matches!(sparse_image::is_suspicious(alloc, &saved, b"ab"), Ok(false)));
    assert!(&rt; sparse_image::is_suspicious(alloc, b"ab", &saved).is_err());
    Ok(())
}

#[test]
fn tables_of_a_plan_find_a_match(rt: HostRuntime) -> Result<(), Fail> {
    let alloc = rt.alloc();
    let built = regex::build(alloc, &patterns(alloc)?)?;
    let found = regex::first(&built, &base::input_at(b"1 warn: 12345", 8))?;
    assert!(&rt; found.is_some_and(|found| found.start() == 8 && found.end() == 11));
    Ok(())
}

#[test]
fn images_of_pairs_find_a_match(rt: HostRuntime) -> Result<(), Fail> {
    let alloc = rt.alloc();
    let saved = regex::build_image(alloc, &patterns(alloc)?)?;
    let found = image::first_by_image(alloc, &saved, b"1 warn: 12345")??;
    assert!(&rt; found.is_some_and(|found| found.start() == 0 && found.end() == 1));
    Ok(())
}

#[test]
fn pairs_find_matches(rt: HostRuntime) -> Result<(), Fail> {
    let alloc = rt.alloc();
    let pair = Regex::<OwnedDFA>::new_many(alloc, &patterns(alloc)?)?;
    assert!(&rt; matches!(pair::count(&pair, b"1 warn: 12345"), Ok(3)));
    assert!(&rt; matches!(pair.find(&Input::new(b"x")), Ok(None)));
    Ok(())
}
