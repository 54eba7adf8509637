//! Tests, row by row, whether a table may be put in order.

use rx_base::StateID;
use rx_dense::OwnedDFA;
use rx_search::Automaton;
use std::test::Fail;

/// The id of a row.
fn id(dfa: &OwnedDFA, row: usize) -> StateID {
    StateID::must(row << dfa.stride2())
}

/// The id of a row, if there is such a row.
pub(crate) fn id_or_fail(dfa: &OwnedDFA, row: usize) -> Result<StateID, Fail> {
    if row >= dfa.state_len() {
        return Err(Fail::new("there is no such row"));
    }
    Ok(id(dfa, row))
}

/// Whether dead and quit lead to dead, no row leads to quit on end of input, and no search starts in dead or quit.
pub(crate) fn is_routed(dfa: &OwnedDFA) -> bool {
    let len = dfa.state_len();
    if len < 2 {
        return false;
    }
    let quit = id(dfa, 1);
    leads_to_dead(dfa, id(dfa, 0))
        && leads_to_dead(dfa, quit)
        && !starts_at(dfa, quit)
        && (0..len).all(|row| dfa.next_eoi_state(id(dfa, row)) != quit)
}

/// Whether a row leads to dead on every unit.
fn leads_to_dead(dfa: &OwnedDFA, id: StateID) -> bool {
    (0..=255u8).all(|byte| dfa.is_dead_state(dfa.next_state(id, byte)))
        && dfa.is_dead_state(dfa.next_eoi_state(id))
}

/// Whether some search starts in a row.
fn starts_at(dfa: &OwnedDFA, id: StateID) -> bool {
    dfa.starts().any(|start| start.0 == id)
}
