//! Tests of assertions, of sets of patterns, and of sources and sinks.

mod assertions;
mod outside;

use rx_base::{PatternID, PatternSet};
use std::test::Fail;

#[test]
fn pattern_sets_hold_what_was_put_in(rt: HostRuntime) -> Result<(), Fail> {
    for capacity in [1, 2, 1000000] {
        let mut set = PatternSet::new(rt.alloc(), capacity)?;
        let last = PatternID::must(capacity - 1);
        assert!(rt; set.is_empty() && set.insert(last) && !set.insert(last));
        assert!(rt; set.contains(last) && set.len() == 1 && set.is_full() == (capacity == 1));
    }
    Ok(())
}
