//! Tests of tables: dense and sparse, put in order, minimized, built, written and read.

mod build;
mod dense;
mod images;
mod minimize;
mod order;
mod sparse;
