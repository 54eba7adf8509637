//! Tests of the values below the tables: bytes, ids, sets, fields, lists and partitions.

mod base;
mod interner;
mod refine;
mod wire;
