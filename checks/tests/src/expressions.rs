//! Tests of expressions, their NFAs and their powerset states.

mod expr;
mod powerset;
