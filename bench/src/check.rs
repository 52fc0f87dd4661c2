//! The original's checks of texts whose shape is chosen at run time: the same enum as the port's `TextCheck`.

use predicates::boolean::{AndPredicate, NotPredicate, OrPredicate};
use predicates::prelude::*;
use predicates::reflection::{Case, Child, Parameter, PredicateReflection};
use predicates::str::{EndsWithPredicate, StartsWithPredicate};
use std::fmt;

pub enum Check {
    Starts(StartsWithPredicate),
    Ends(EndsWithPredicate),
    Not(Box<NotPredicate<Check, str>>),
    And(Box<AndPredicate<Check, Check, str>>),
    Or(Box<OrPredicate<Check, Check, str>>),
}

use Check::{And, Ends, Not, Or, Starts};

// The same call of whichever predicate a check holds.
macro_rules! of_each {
    ($check:expr, $p:ident => $call:expr) => {
        match $check {
            Starts($p) => $call,
            Ends($p) => $call,
            Not($p) => $call,
            And($p) => $call,
            Or($p) => $call,
        }
    };
}

impl Check {
    fn leaf() -> Check {
        Starts(predicate::str::starts_with("a"))
    }

    /// `starts_with("a")` under this many `not`.
    pub fn nots(depth: usize) -> Check {
        (0..depth).fold(Check::leaf(), |check, _| Not(Box::new(check.not())))
    }

    /// This many `starts_with("a")` and a last `ends_with("b")`, joined by `and`.
    pub fn row(leaves: usize) -> Check {
        let all = (1..leaves).fold(Check::leaf(), |check, _| And(Box::new(check.and(Check::leaf()))));
        And(Box::new(all.and(Ends(predicate::str::ends_with("b")))))
    }

    /// A full tree of this many levels over `starts_with("a")`, by `and` and `or` in turn.
    pub fn full(levels: u8, by_and: bool) -> Check {
        if levels == 0 {
            return Check::leaf();
        }
        let left = Check::full(levels - 1, !by_and);
        let right = Check::full(levels - 1, !by_and);
        if by_and { And(Box::new(left.and(right))) } else { Or(Box::new(left.or(right))) }
    }
}

impl fmt::Display for Check {
    fn fmt(&self, f: &mut fmt::Formatter<'_>) -> fmt::Result {
        of_each!(self, p => p.fmt(f))
    }
}

impl PredicateReflection for Check {
    fn parameters<'a>(&'a self) -> Box<dyn Iterator<Item = Parameter<'a>> + 'a> {
        of_each!(self, p => p.parameters())
    }

    fn children<'a>(&'a self) -> Box<dyn Iterator<Item = Child<'a>> + 'a> {
        of_each!(self, p => p.children())
    }
}

impl Predicate<str> for Check {
    fn eval(&self, item: &str) -> bool {
        of_each!(self, p => p.eval(item))
    }

    fn find_case<'a>(&'a self, expected: bool, item: &str) -> Option<Case<'a>> {
        of_each!(self, p => p.find_case(expected, item))
    }
}
