//! Checks of numbers, put together by type, and of structs.

use super::{print_alone, Row};
use crate::port;
use crate::question::{ask, Question};
use oracle::explain::Naming::{self, Address};
use predicates::prelude::*;
use std::hint::black_box;

const SOME: (i64, i64) = (5, 10);

fn print_row(
    only: &str,
    name: &str,
    items: usize,
    port: &dyn Fn(Question, usize) -> usize,
    original: &dyn Fn(Question, Naming, usize) -> usize,
) {
    if name.contains(only) {
        Row { name: name.to_string(), target: 1.1, naming: (Address, Address), items, port, original }.print();
    }
}

fn print_between(only: &str, items: &[i64]) {
    let (lo, hi) = black_box(SOME);
    print_row(
        only,
        "`ge(5).and(le(10))`, numbers",
        items.len(),
        &|question, rounds| port::between(lo, hi, items, question, rounds),
        &|question, naming, rounds| {
            let (lo, hi) = black_box(SOME);
            ask(&predicate::ge(lo).and(predicate::le(hi)), items, question, naming, rounds)
        },
    );
    print_row(
        only,
        "the same, operators chosen at run time",
        items.len(),
        &|question, rounds| port::chosen(lo, hi, items, question, rounds),
        &|question, naming, rounds| {
            let between = predicate::ge(lo).and(predicate::le(hi));
            ask(black_box(&between), items, question, naming, rounds)
        },
    );
}

struct Person {
    age: i64,
}

fn print_parts(only: &str, ages: &[i64]) {
    print_row(
        only,
        "`function` of a struct",
        ages.len(),
        &|question, rounds| port::function(ages, question, rounds),
        &|question, naming, rounds| {
            let people: Vec<Person> = ages.iter().map(|&age| Person { age }).collect();
            let adult = predicate::function(|person: &Person| person.age >= 18);
            ask::<_, Person, _>(&adult, &people, question, naming, rounds)
        },
    );
    let name = "`ge(18).of(\"age\", ..)` of a struct, no original";
    if name.contains(only) {
        print_alone(name, ages.len(), &|question, rounds| port::part(ages, question, rounds));
    }
}

pub fn print(only: &str) {
    let items: Vec<i64> = (0..1024).map(|at: i64| at * 7919 % 41 - 12).collect();
    print_between(only, &items);
    print_parts(only, &items);
}
