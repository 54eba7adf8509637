//! Tests of the library. `checks/tests/run` compiles and runs them without proofs.
//!
//! They test what no contract states: that calls succeed on small and on large inputs, examples worked by hand, failing
//! reads and writes, and the texts of errors. What a contract requires of a table worked by hand, the tests assert.

mod expressions;
mod notation;
mod program;
mod tables;
mod values;
mod worked_tables;
