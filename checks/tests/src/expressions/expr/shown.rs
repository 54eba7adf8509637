//! Expressions and NFAs as lines of text, for tables of tests.

use crate::notation::word_of;
use rx_base::{ByteSet, PatternID};
use rx_expr::thompson::{NFA, Row};
use rx_expr::{Expr, ExprKind};
use std::alloc::{AllocError, Global};
use std::test::Fail;

/// Writes an expression in the notation in which it is read, from what its kind gives.
fn write_expr(expr: &Expr, out: &mut String) -> Result<(), AllocError> {
    match expr.kind() {
        ExprKind::Empty => out.push('_'),
        ExprKind::Class(set) => write_class(set, out),
        ExprKind::Look(look) => out.push_str(word_of(look)),
        ExprKind::Concat(first, second) => {
            write_expr(first, out)?;
            out.push(' ')?;
            write_expr(second, out)?;
            out.push_str(" .")
        }
        ExprKind::Alternate(first, second) => {
            write_expr(first, out)?;
            out.push(' ')?;
            write_expr(second, out)?;
            out.push_str(" |")
        }
        ExprKind::Repeat {
            min,
            max,
            greedy,
            body,
        } => {
            write_expr(body, out)?;
            write_bounds(min, max, greedy, out)
        }
    }
}

fn write_bounds(
    min: u32,
    max: Option<u32>,
    greedy: bool,
    out: &mut String,
) -> Result<(), AllocError> {
    let lazy = if greedy { "" } else { "?" };
    match max {
        Some(max) => write!(out, " {{{min},{max}}}{lazy}"),
        None => write!(out, " {{{min},}}{lazy}"),
    }
}

/// Writes a single byte as it is, and several in brackets.
fn write_class(set: ByteSet, out: &mut String) -> Result<(), AllocError> {
    let (low, high) = set.halves();
    if low.count_ones() + high.count_ones() == 1 {
        return write_set(set, out);
    }
    out.push('[')?;
    write_set(set, out)?;
    out.push(']')
}

/// Writes the letters of a set, or a point for the set of every byte.
fn write_set(set: ByteSet, out: &mut String) -> Result<(), AllocError> {
    if set == ByteSet::full() {
        return out.push('.');
    }
    for byte in 0..=255u8 {
        if set.contains(byte) {
            out.push(byte as char)?;
        }
    }
    Ok(())
}

pub(super) fn shown(alloc: Global, expr: &Expr) -> Result<String, AllocError> {
    let mut out = String::new(alloc);
    write_expr(expr, &mut out)?;
    Ok(out)
}

/// Writes a state with its next states: the two of a Split with a bar between them, the pattern of a match after `#`.
fn write_row(row: &Row, out: &mut String) -> Result<(), AllocError> {
    match *row {
        Row::Bytes { set, next } => {
            write_set(set, out)?;
            write!(out, ">{}", next.as_u32())
        }
        Row::Split { first, second } => write!(out, "{}|{}", first.as_u32(), second.as_u32()),
        Row::Look { look, next } => write!(out, "{}>{}", word_of(look), next.as_u32()),
        Row::Match { pattern } => write!(out, "#{}", pattern.as_u32()),
        Row::Fail => out.push_str("fail"),
    }
}

/// The states in order, then the anchored and the unanchored start state, then the start states of the patterns. The
/// sign between the first two is `=` if they are always one, and `:` otherwise.
pub(super) fn shown_nfa(alloc: Global, nfa: &NFA) -> Result<String, Fail> {
    let mut out = String::new(alloc);
    for row in nfa.rows() {
        write_row(row, &mut out)?;
        out.push(' ')?;
    }
    write_starts(nfa, &mut out)?;
    Ok(out)
}

fn write_starts(nfa: &NFA, out: &mut String) -> Result<(), Fail> {
    let always = nfa.is_always_start_anchored();
    let sign = if always { '=' } else { ':' };
    let (anchored, free) = (nfa.start_anchored(), nfa.start_unanchored());
    write!(out, "{}{sign}{}", anchored.as_u32(), free.as_u32())?;
    for k in 0..nfa.pattern_len() {
        let start = nfa.start_pattern(PatternID::new(k)?).ok_or("no start")?;
        write!(out, " {}", start.as_u32())?;
    }
    Ok(())
}
