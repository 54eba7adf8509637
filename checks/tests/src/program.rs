//! Tests of the program, its parts and the examples of callers: failing reads and writes, lines of `feed`, pairs of
//! tables, and the texts of errors.

mod callers;
mod faults;
mod feed;
mod outside;
mod pairs;
