//! Checks of texts, and of bytes that may be a text.

use super::{print_alone, Row};
use crate::port::{self, Copied};
use crate::question::{ask, Question};
use oracle::explain::Naming::{self, First};
use predicates::prelude::*;
use std::hint::black_box;

// This many bytes of words in which no two neighbours are always the same.
fn prose(len: usize) -> String {
    let words = ["lorem ", "ipsum ", "dolor ", "sit ", "amet, "];
    let mut text = String::new();
    let mut at = 0;
    while text.len() < len {
        text.push_str(words[(at * at + at / 7) % words.len()]);
        at += 1;
    }
    text.truncate(len);
    text
}

// Copies of a text, so that the compiler can't decide once for all rounds.
fn copied(bytes: &[u8], copies: usize) -> Copied<'_> {
    Copied { bytes, copies }
}

/// The original's texts: copies of their own, as the port has.
fn texts(text: &str, copies: usize) -> Vec<String> {
    black_box(vec![text.to_string(); copies])
}

fn print_text(
    only: &str,
    name: &str,
    target: f64,
    copies: usize,
    port: &dyn Fn(Question, usize) -> usize,
    original: &dyn Fn(Question, Naming, usize) -> usize,
) {
    if name.contains(only) {
        Row { name: name.to_string(), target, naming: (First, First), items: copies, port, original }.print();
    }
}

fn print_contains(only: &str, name: &str, pattern: &str, text: &str, copies: usize) {
    print_text(
        only,
        name,
        1.2,
        copies,
        &|question, rounds| port::contains(pattern, copied(text.as_bytes(), copies), question, rounds),
        &|question, naming, rounds| {
            let predicate = predicate::str::contains(black_box(pattern));
            ask::<_, str, _>(&predicate, &texts(text, copies), question, naming, rounds)
        },
    );
}

fn print_starts_with(only: &str, name: &str, pattern: &str, text: &str, copies: usize) {
    print_text(
        only,
        name,
        1.1,
        copies,
        &|question, rounds| port::starts_with(pattern, copied(text.as_bytes(), copies), question, rounds),
        &|question, naming, rounds| {
            let predicate = predicate::str::starts_with(black_box(pattern));
            ask::<_, str, _>(&predicate, &texts(text, copies), question, naming, rounds)
        },
    );
}

fn print_count(only: &str, name: &str, target: f64, pattern: &str, text: &str) {
    let count = text.matches(pattern).count();
    print_text(
        only,
        name,
        target,
        1,
        &|question, rounds| port::count(pattern, count, copied(text.as_bytes(), 1), question, rounds),
        &|question, naming, rounds| {
            let predicate = predicate::str::contains(black_box(pattern)).count(black_box(count));
            ask::<_, str, _>(&predicate, &texts(text, 1), question, naming, rounds)
        },
    );
}

fn print_trimmed(only: &str, name: &str, text: &str, copies: usize) {
    print_text(
        only,
        name,
        1.1,
        copies,
        &|question, rounds| port::trimmed(copied(text.as_bytes(), copies), question, rounds),
        &|question, naming, rounds| {
            let predicate = predicate::str::is_empty().trim();
            ask::<_, str, _>(&predicate, &texts(text, copies), question, naming, rounds)
        },
    );
}

fn print_from_utf8(only: &str, name: &str, bytes: &[u8], copies: usize) {
    print_text(
        only,
        name,
        1.1,
        copies,
        &|question, rounds| port::from_utf8(copied(bytes, copies), question, rounds),
        &|question, naming, rounds| {
            let items = black_box(vec![bytes.to_vec(); copies]);
            ask::<_, [u8], _>(&predicate::str::is_empty().not().from_utf8(), &items, question, naming, rounds)
        },
    );
}

fn print_patterns(only: &str) {
    let words = ["The ", "two ", "Turtles ", "tell ", "Tales "];
    let text: String = (0..).map(|at: usize| words[(at * at + at / 7) % 5]).take(1 << 18).collect();
    let text = &text[..1 << 20];
    let count = (text.matches('T').count(), "`is_match(\"T[a-z]*\")` counted over 1 MiB, no original");
    if count.1.contains(only) {
        let text = copied(text.as_bytes(), 1);
        assert_eq!(port::matches("T[a-z]*", count.0, text, Question::Verdict, 1), 1, "the count of the pattern");
        print_alone(count.1, 1, &|question, rounds| port::matches("T[a-z]*", count.0, text, question, rounds));
    }
}

pub fn print(only: &str) {
    let (kilo, mega) = (prose(1 << 10), prose(1 << 20));
    let plain = "a".repeat(1 << 20);
    print_contains(only, "`contains`, absent, 1 KiB", "needle", &kilo, 16);
    print_contains(only, "`contains`, absent, 1 MiB", "needle", &mega, 1);
    let at_end = format!("{}needle", &kilo[..(1 << 10) - 6]);
    print_contains(only, "`contains`, at the end, 1 KiB", "needle", &at_end, 16);
    let worst = format!("{}b", "a".repeat(32));
    print_contains(only, "`contains` of 32 `a` and `b`, 1 MiB of `a`", &worst, &plain, 1);
    print_starts_with(only, "`starts_with`, 1 KiB", "lorem", &kilo, 16);
    print_count(only, "count of `ipsum`, 1 MiB", 1.5, "ipsum", &mega);
    print_count(only, "count of `m`, 1 MiB", 1.5, "m", &mega);
    print_count(only, "count of `aa`, 1 MiB of `a`", 1.0, "aa", &plain);
    print_count(only, "count of the empty pattern, 1 MiB", 1.5, "", &mega);
    let wide = "ä".repeat(1 << 19);
    print_count(only, "count of `ä`, 1 MiB of `ä`", 1.5, "ä", &wide);
    print_trimmed(only, "`is_empty().trim()`, 1 KiB of words", &kilo, 16);
    print_trimmed(only, "`is_empty().trim()`, 1 KiB of spaces", &" ".repeat(1 << 10), 16);
    print_from_utf8(only, "`from_utf8`, 1 KiB ASCII", kilo.as_bytes(), 16);
    print_from_utf8(only, "`from_utf8`, 1 KiB of `ä`", "ä".repeat(1 << 9).as_bytes(), 16);
    let mut other = kilo.clone().into_bytes();
    other[(1 << 10) - 1] = 0xff;
    print_from_utf8(only, "`from_utf8`, 1 KiB, last byte wrong", &other, 16);
    print_patterns(only);
}
