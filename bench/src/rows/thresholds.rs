//! Thresholds: the port's `of_at_least` beside a loop by hand over the original's predicate.

use super::lists::{print_row, write_member, ByHand, LEAST};
use crate::port;
use crate::question::Owned;
use oracle::explain::Naming;
use predicates::prelude::*;
use predicates::reflection::Case;
use std::hint::black_box;

const MEMBERS: usize = 1_000;
const NEEDED: usize = 500;

/// The cases by hand, which the port shows under one node: those of the first members that decide, with their numbers.
struct Found<'a> {
    holds: bool,
    members: Vec<(usize, Case<'a>)>,
}

/// That so many members hold.
struct AtLeast;

impl ByHand for AtLeast {
    type Found<'a> = Found<'a>;

    fn holds<P: Predicate<i64>>(least: &P, members: &[i64]) -> bool {
        members.iter().filter(|member| least.eval(member)).take(NEEDED).count() == NEEDED
    }

    fn find<'a, P: Predicate<i64>>(least: &'a P, members: &[i64], expected: bool) -> Option<Found<'a>> {
        let enough = if expected { NEEDED } else { members.len() - NEEDED + 1 };
        let cases = members.iter().enumerate().filter_map(|(at, member)| Some((at, least.find_case(expected, member)?)));
        let members: Vec<_> = cases.take(enough).collect();
        (members.len() == enough).then_some(Found { holds: expected, members })
    }

    fn own(found: &Found<'_>) {
        let children: Vec<(String, Owned)> =
            found.members.iter().map(|(at, case)| (at.to_string(), Owned::of(case))).collect();
        black_box((format!("at_least({NEEDED}, var >= {LEAST})"), children));
    }

    fn write(found: &Found<'_>, naming: Naming, lines: &mut String, text: &mut String) {
        use std::fmt::Write;
        text.clear();
        writeln!(text, "at_least({NEEDED}, var >= {LEAST}) = {}", found.holds).unwrap();
        for (at, case) in &found.members {
            write_member(case, naming, lines, text);
            writeln!(text, "    - index: {at}").unwrap();
        }
    }
}

pub fn print(only: &str) {
    for (what, member) in [("all hold", LEAST), ("none holds", LEAST - 1)] {
        let name = format!("`ge(0).of_at_least({NEEDED})` of {MEMBERS} members, {what}; by hand");
        print_row::<AtLeast>(only, name, vec![member; MEMBERS], |members, question, rounds| {
            port::at_least(LEAST, NEEDED, members, question, rounds)
        });
    }
}
