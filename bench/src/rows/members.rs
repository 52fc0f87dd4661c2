//! Membership among numbers, and the making of it.

use crate::clock::{assert_same, beside};
use crate::port::{self, Held};
use crate::question::{ask, Question};
use crate::table::cell;
use oracle::explain::Naming::First;
use predicates::prelude::*;
use std::hint::black_box;

fn members(count: i64) -> Vec<i64> {
    (0..count).map(|at| (at * 7919 % count) * 2).collect()
}

fn original(held: Held, members: &[i64], items: &[i64], rounds: usize) -> usize {
    let members = black_box(members).to_vec();
    let question = Question::Verdict;
    match held {
        Held::Listed => ask(&predicate::in_iter(members), items, question, First, rounds),
        Held::Sorted => ask(&predicate::in_iter(members).sort(), items, question, First, rounds),
        Held::Hashed => ask(&predicate::in_hash(members), items, question, First, rounds),
    }
}

// These rows have no question but the verdict.
fn is_asked(name: &str, only: &str) -> bool {
    name.contains(only) && Question::asked().contains(&Question::Verdict)
}

fn print_row(only: &str, held: Held, members: &[i64], items: &[i64], kind: &str) {
    let name = format!("`{}`, {} members, {kind}", held.name(), members.len());
    if !is_asked(&name, only) {
        return;
    }
    let port = |rounds: usize| port::member(held, members, items, Question::Verdict, rounds);
    let original = |rounds: usize| original(held, members, items, rounds);
    assert_same(&name, Question::Verdict, port(1), original(1));
    // A list is searched from front to back.
    let target = if held == Held::Listed { 1.5 } else { 1.1 };
    let cell = cell(&name, beside(&port, &original, items.len()), target);
    println!("|{name}|{cell}|");
}

pub fn print(only: &str) {
    for count in [10, 1_000, 100_000] {
        let members = members(count);
        let hits: Vec<i64> = (0..count.min(64)).map(|at| at * 6007 % count * 2).collect();
        let misses: Vec<i64> = hits.iter().map(|hit| hit + 1).collect();
        for held in Held::ALL {
            print_row(only, held, &members, &hits, "hits");
            print_row(only, held, &members, &misses, "misses");
        }
    }
}

fn make_original(held: Held, members: &[i64], item: i64, rounds: usize) -> usize {
    (0..rounds)
        .filter(|_| {
            let members = black_box(members).to_vec();
            match held {
                Held::Listed => black_box(predicate::in_iter(members)).eval(&item),
                Held::Sorted => black_box(predicate::in_iter(members).sort()).eval(&item),
                Held::Hashed => black_box(predicate::in_hash(members)).eval(&item),
            }
        })
        .count()
}

pub fn print_making(only: &str) {
    for count in [1_000, 100_000] {
        let members = members(count);
        let first = members[0];
        for held in Held::ALL {
            let name = format!("making of `{}`, {count} members", held.name());
            if !is_asked(&name, only) {
                continue;
            }
            let port = |rounds: usize| port::make_member(held, &members, first, rounds);
            let original = |rounds: usize| make_original(held, &members, first, rounds);
            assert_same(&name, Question::Verdict, port(1), original(1));
            println!("|{name}|{}|", cell(&name, beside(&port, &original, 1), 1.1));
        }
    }
}
