//! Lists: the port's `of_each` beside a loop by hand over the original's predicate.

use super::Row;
use crate::port;
use crate::question::{Owned, Question};
use oracle::explain::{render, Naming};
use predicates::prelude::*;
use predicates::reflection::Case;
use std::hint::black_box;

/// What each member is compared with.
pub(super) const LEAST: i64 = 0;

/// The cases by hand, which the port shows under one node: that of the first member that fails with its number, or
/// all.
enum Found<'a> {
    Failing(usize, Case<'a>),
    All(Vec<Case<'a>>),
}

/// Writes the lines of a member's case under the list's node.
pub(super) fn write_member(case: &Case<'_>, naming: Naming, lines: &mut String, text: &mut String) {
    lines.clear();
    render(case, naming, lines);
    let mut before = "  item: ";
    for line in lines.lines() {
        text.push_str(before);
        text.push_str(line);
        text.push('\n');
        before = "  ";
    }
}

/// What is asked of a list by hand, over a predicate of its members.
pub(super) trait ByHand {
    type Found<'a>;

    fn holds<P: Predicate<i64>>(least: &P, members: &[i64]) -> bool;

    fn find<'a, P: Predicate<i64>>(least: &'a P, members: &[i64], expected: bool) -> Option<Self::Found<'a>>;

    /// Makes what was found its own, with all that it holds.
    fn own(found: &Self::Found<'_>);

    fn write(found: &Self::Found<'_>, naming: Naming, lines: &mut String, text: &mut String);
}

/// The sum of the answers about all lists over all rounds: of the verdicts, of what is found of the expected ones, owned
/// or written.
fn by_hand<H: ByHand>(lists: &[Vec<i64>], question: Question, naming: Naming, rounds: usize) -> usize {
    let least = predicate::ge(black_box(LEAST));
    let mut sum = 0;
    if question == Question::Verdict {
        for _ in 0..rounds {
            for members in black_box(lists) {
                sum += usize::from(H::holds(&least, members));
            }
        }
        return sum;
    }
    let opposite = question == Question::OtherCase;
    let expected: Vec<bool> = lists.iter().map(|members| H::holds(&least, members) != opposite).collect();
    let (mut lines, mut text) = (String::new(), String::new());
    for _ in 0..rounds {
        for (members, &expected) in black_box(lists).iter().zip(&expected) {
            let found = H::find(&least, members, expected);
            match question {
                Question::Case => sum += usize::from(found.as_ref().map(H::own).is_some()),
                Question::Lines => {
                    if let Some(found) = &found {
                        H::write(found, naming, &mut lines, &mut text);
                    }
                    sum += black_box(&text).len();
                }
                _ => sum += usize::from(found.is_some()),
            }
        }
    }
    sum
}

/// Prints the row of a list, if its name has the word.
pub(super) fn print_row<H: ByHand>(
    only: &str,
    name: String,
    members: Vec<i64>,
    port: impl Fn(&[i64], Question, usize) -> usize,
) {
    if name.contains(only) {
        let lists = [members];
        Row {
            name,
            target: 1.0,
            naming: (Naming::Address, Naming::Address),
            items: 1,
            port: &|question, rounds| port(&lists[0], question, rounds),
            original: &|question, naming, rounds| by_hand::<H>(&lists, question, naming, rounds),
        }
        .print();
    }
}

/// That each member holds.
struct Each;

impl ByHand for Each {
    type Found<'a> = Found<'a>;

    fn holds<P: Predicate<i64>>(least: &P, members: &[i64]) -> bool {
        members.iter().all(|member| least.eval(member))
    }

    fn find<'a, P: Predicate<i64>>(least: &'a P, members: &[i64], expected: bool) -> Option<Found<'a>> {
        if expected {
            return members.iter().map(|member| least.find_case(true, member)).collect::<Option<_>>().map(Found::All);
        }
        members
            .iter()
            .enumerate()
            .find_map(|(at, member)| least.find_case(false, member).map(|case| Found::Failing(at, case)))
    }

    fn own(found: &Found<'_>) {
        let (index, children): (Option<String>, Vec<Owned>) = match found {
            Found::Failing(at, case) => (Some(at.to_string()), vec![Owned::of(case)]),
            Found::All(cases) => (None, cases.iter().map(Owned::of).collect()),
        };
        black_box((format!("each(var >= {LEAST})"), index, children));
    }

    fn write(found: &Found<'_>, naming: Naming, lines: &mut String, text: &mut String) {
        use std::fmt::Write;
        text.clear();
        match found {
            Found::Failing(at, case) => {
                writeln!(text, "each(var >= {LEAST}) = false").unwrap();
                write_member(case, naming, lines, text);
                writeln!(text, "    - index: {at}").unwrap();
            }
            Found::All(cases) => {
                writeln!(text, "each(var >= {LEAST}) = true").unwrap();
                for case in cases {
                    write_member(case, naming, lines, text);
                }
            }
        }
    }
}

pub fn print(only: &str) {
    for count in [10, 1_000, 100_000] {
        for (what, last) in [("none fails", LEAST), ("the last fails", LEAST - 1)] {
            let name = format!("`ge(0).of_each()` of {count} members, {what}; by hand");
            let mut members = vec![LEAST; count - 1];
            members.push(last);
            print_row::<Each>(only, name, members, |members, question, rounds| {
                port::each(LEAST, members, question, rounds)
            });
        }
    }
}
