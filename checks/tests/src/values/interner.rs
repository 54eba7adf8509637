//! Tests that lists are numbered and found again.

use rx_interner::{Interned, Interner};
use std::test::Fail;

#[test]
fn ten_thousand_lists_are_found_again(rt: HostRuntime) -> Result<(), Fail> {
    let mut interner = Interner::new(rt.alloc());
    for step in 0..20_000u32 {
        let number = step % 10_000;
        let key = vec![in rt.alloc(); number; number as usize % 7 + 1]?;
        assert!(rt; interner.len() <= 10_000);
        let interned = interner.intern(&key)?;
        assert_eq!(rt;
            interned,
            Interned {
                id: number,
                is_new: step < 10_000
            }
        );
    }
    assert_eq!(rt; interner.len(), 10_000);
    Ok(())
}
