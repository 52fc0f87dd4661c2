//! Checks of texts whose shape is chosen at run time: an enum on both sides.

use super::{print_alone, Row};
use crate::check::Check;
use crate::port::{self, Copied};
use crate::question::ask;
use oracle::explain::Naming::{First, Text};
use std::hint::black_box;

const COPIES: usize = 16;

fn copied(text: &str) -> Copied<'_> {
    Copied { bytes: text.as_bytes(), copies: COPIES }
}

fn print_row(
    only: &str,
    name: String,
    text: &str,
    port: &dyn Fn(crate::question::Question, usize) -> usize,
    check: &dyn Fn() -> Check,
) {
    if name.contains(only) {
        let texts = black_box(vec![text.to_string(); COPIES]);
        Row {
            name,
            target: 1.2,
            naming: (Text, First),
            items: COPIES,
            port,
            original: &|question, naming, rounds| ask::<_, str, _>(&check(), &texts, question, naming, rounds),
        }
        .print();
    }
}

fn print_nots(only: &str, depth: usize) {
    print_row(
        only,
        format!("{depth} nested `not`, enum"),
        "ab",
        &|question, rounds| port::nots(depth, copied("ab"), question, rounds),
        &|| Check::nots(black_box(depth)),
    );
}

fn print_and(only: &str, leaves: usize, text: &str, kind: &str) {
    print_row(
        only,
        format!("`and` of {} in a row, {kind}, enum", leaves + 1),
        text,
        &|question, rounds| port::row(leaves, copied(text), question, rounds),
        &|| Check::row(black_box(leaves)),
    );
}

fn print_full(only: &str, levels: u8, text: &str, kind: &str) {
    print_row(
        only,
        format!("and/or tree of {} leaves, {kind}, enum", 1 << levels),
        text,
        &|question, rounds| port::full(levels, copied(text), question, rounds),
        &|| Check::full(black_box(levels), true),
    );
}

// The original has no `xor`. A chain's printed text alone grows with the square of its length.
fn print_xors(only: &str, xors: usize, on_the_right: bool) {
    let side = if on_the_right { "right" } else { "left" };
    let name = format!("chain of {xors} `xor` on the {side}, enum, the port alone");
    if name.contains(only) {
        print_alone(&name, COPIES, &|question, rounds| port::xors(xors, on_the_right, copied("ab"), question, rounds));
    }
}

pub fn print(only: &str) {
    for depth in [10, 100, 1000] {
        print_nots(only, depth);
    }
    for leaves in [9, 99, 999] {
        print_and(only, leaves, "ab", "all true");
    }
    print_and(only, 63, "a", "last false");
    for levels in [3, 6, 9] {
        print_full(only, levels, "ab", "all true");
    }
    print_full(only, 6, "x", "all false");
    for xors in [8, 64, 256] {
        print_xors(only, xors, false);
        print_xors(only, xors, true);
    }
}
