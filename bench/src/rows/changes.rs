//! What would turn a verdict, beside the case of the same verdict. The original has no such call.

use crate::clock::alone;
use crate::port::{self, Copied};
use crate::question::Question::{self, Case, Change};
use crate::table::time;
use std::hint::black_box;

const COPIES: usize = 16;

fn print_row(only: &str, name: &str, items: usize, port: &dyn Fn(Question, usize) -> usize) {
    if name.contains(only) {
        assert_eq!(port(Change, 1), items, "{name}: each verdict has a change");
        let cell = |question| time(alone(&|rounds| port(question, rounds)) / items as f64);
        println!("|{name}|{}|{}|", cell(Case), cell(Change));
    }
}

fn print_numbers(only: &str) {
    let items: Vec<i64> = (0..1024).map(|at: i64| at * 7919 % 41 - 12).collect();
    let (lo, hi) = black_box((5, 10));
    print_row(only, "`ge(5).and(le(10))`, numbers", items.len(), &|question, rounds| {
        port::between(lo, hi, &items, question, rounds)
    });
}

fn print_checks(only: &str) {
    let copied = |text: &'static str| Copied { bytes: text.as_bytes(), copies: COPIES };
    for (name, text) in [("100 in a row, all true", "ab"), ("100 in a row, last false", "a"), ("100 in a row, all false", "x")] {
        print_row(only, &format!("`and` of {name}, enum"), COPIES, &|question, rounds| {
            port::row(99, copied(text), question, rounds)
        });
    }
    for (name, text) in [("all true", "ab"), ("all false", "x")] {
        print_row(only, &format!("and/or tree of 64 leaves, {name}, enum"), COPIES, &|question, rounds| {
            port::full(6, copied(text), question, rounds)
        });
    }
    for (side, on_the_right) in [("left", false), ("right", true)] {
        print_row(only, &format!("chain of 64 `xor` on the {side}, enum"), COPIES, &|question, rounds| {
            port::xors(64, on_the_right, copied("ab"), question, rounds)
        });
    }
}

fn print_lists(only: &str) {
    for (what, member, last) in [("none fails", 0, 0), ("the last fails", 0, -1), ("all fail", -1, -1)] {
        let mut members = vec![member; 999];
        members.push(last);
        print_row(only, &format!("`ge(0).of_each()` of 1000 members, {what}"), 1, &|question, rounds| {
            port::each(0, &members, question, rounds)
        });
    }
}

pub fn print(only: &str) {
    print_numbers(only);
    print_checks(only);
    print_lists(only);
}
