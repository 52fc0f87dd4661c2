//! What is measured: each row, its items, and what both sides are asked.

mod changes;
mod checks;
mod lists;
mod members;
mod numbers;
mod texts;
mod thresholds;

use crate::clock::{assert_same, beside};
use crate::question::Question;
use crate::table::{cell, time};
use oracle::explain::Naming;
use std::hint::black_box;

/// A row on both sides: the sum of the answers over this many rounds.
pub struct Row<'a> {
    pub name: String,
    /// The greatest ratio that is wanted of `eval`.
    pub target: f64,
    /// How the original's renderer looks up the name of a part, to check and to time.
    pub naming: (Naming, Naming),
    /// How many items a round has.
    pub items: usize,
    pub port: &'a dyn Fn(Question, usize) -> usize,
    pub original: &'a dyn Fn(Question, Naming, usize) -> usize,
}

impl Row<'_> {
    /// Checks that both sides answer the same, and prints the row.
    pub fn print(&self) {
        let (check, naming) = self.naming;
        let mut cells = Vec::new();
        for question in Question::asked() {
            assert_same(&self.name, question, (self.port)(question, 1), (self.original)(question, check, 1));
            let port = |rounds: usize| (self.port)(question, rounds);
            let original = |rounds: usize| black_box((self.original)(question, naming, rounds));
            let target = match question {
                Question::Verdict => self.target,
                // Shown, with no target of its own.
                Question::OtherCase => f64::INFINITY,
                Question::Case | Question::Lines | Question::Change => 1.0,
            };
            let pair = beside(&port, &original, self.items);
            cells.push(cell(&format!("{}, {}", self.name, question.name()), pair, target));
        }
        println!("|{}|{}|", self.name, cells.join("|"));
    }
}

/// Prints what has nothing beside it. A round has this many items.
pub fn print_alone(name: &str, items: usize, port: &dyn Fn(Question, usize) -> usize) {
    let times: Vec<String> = Question::ALL
        .into_iter()
        .map(|question| time(crate::clock::alone(&|rounds| port(question, rounds)) / items as f64))
        .collect();
    println!("|{name}|{}|", times.join("|"));
}

/// Prints the tables, or those rows whose name begins so.
pub fn print(only: &str) {
    println!("|What|`eval`|`find_case`, other verdict|owned case|rendered|");
    println!("|---|---|---|---|---|");
    numbers::print(only);
    checks::print(only);
    texts::print(only);
    lists::print(only);
    thresholds::print(only);
    // Where one question alone is asked, both sides answer it.
    if Question::asked().len() == Question::ALL.len() {
        println!("\n|What would have to change, the port alone|owned case|change|");
        println!("|---|---|---|");
        changes::print(only);
    }
    println!("\n|Membership|`eval`|");
    println!("|---|---|");
    members::print(only);
    println!("\n|Making|time|");
    println!("|---|---|");
    members::print_making(only);
}
