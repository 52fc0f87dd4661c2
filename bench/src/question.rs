//! What is asked of a predicate, and the original's answers.

use oracle::explain::{render, Naming};
use predicates::reflection::Case;
use predicates::Predicate;
use std::borrow::Borrow;
use std::env;
use std::hint::black_box;

/// What is asked about each item.
#[derive(Clone, Copy, Debug, PartialEq, Eq)]
pub enum Question {
    /// The verdict.
    Verdict,
    /// The case of the verdict, with all that it holds, dropped at once.
    Case,
    /// The case of the other verdict, which is none.
    OtherCase,
    /// The lines of the case of the verdict.
    Lines,
    /// What would turn the verdict, which the port alone answers.
    Change,
}

impl Question {
    /// Those that both sides answer.
    pub const ALL: [Question; 4] = [Question::Verdict, Question::OtherCase, Question::Case, Question::Lines];

    /// What the tables call it.
    pub fn name(self) -> &'static str {
        match self {
            Question::Verdict => "eval",
            Question::OtherCase => "none",
            Question::Case => "owned case",
            Question::Lines => "rendered",
            Question::Change => "change",
        }
    }

    /// The questions that are asked: all, or the one that the environment names.
    pub fn asked() -> Vec<Question> {
        let only = env::var("QUESTION").unwrap_or_default();
        Question::ALL.into_iter().filter(|it| only.is_empty() || it.name() == only).collect()
    }

    /// The number that the port's exports know it by.
    pub fn number(self) -> u8 {
        match self {
            Question::Verdict => 0,
            Question::Case => 1,
            Question::OtherCase => 2,
            Question::Lines => 3,
            Question::Change => 4,
        }
    }
}

/// A case with texts, values and children of its own, as the port's is.
pub struct Owned {
    text: Option<String>,
    outcome: bool,
    products: Vec<(&'static str, String)>,
    children: Vec<Owned>,
}

impl Owned {
    pub fn of(case: &Case<'_>) -> Owned {
        Owned {
            text: case.predicate().map(|predicate| predicate.to_string()),
            outcome: case.result(),
            products: case.products().map(|product| (known(product.name()), product.value().to_string())).collect(),
            children: case.children().map(Owned::of).collect(),
        }
    }
}

// The names of products are constants on both sides, so none is copied.
fn known(name: &str) -> &'static str {
    match name {
        "var" => "var",
        "var as str" => "var as str",
        "actual count" => "actual count",
        "error" => "error",
        _ => "other",
    }
}

fn hold(case: Owned) -> bool {
    let case = black_box(case);
    black_box((&case.text, &case.products, &case.children));
    case.outcome
}

/// The sum of the original's answers about all items over all rounds.
pub fn ask<P, I, B>(predicate: &P, items: &[B], question: Question, naming: Naming, rounds: usize) -> usize
where
    P: Predicate<I>,
    I: ?Sized,
    B: Borrow<I>,
{
    let mut sum = 0;
    let items = black_box(items);
    if question == Question::Verdict {
        for _ in 0..rounds {
            for item in items {
                sum += usize::from(predicate.eval(item.borrow()));
            }
        }
        return sum;
    }
    let opposite = question == Question::OtherCase;
    let expected: Vec<bool> = items.iter().map(|item| predicate.eval(item.borrow()) != opposite).collect();
    let mut text = String::new();
    for _ in 0..rounds {
        for (item, &expected) in items.iter().zip(&expected) {
            let case = predicate.find_case(expected, item.borrow());
            match question {
                Question::Lines => {
                    text.clear();
                    if let Some(case) = &case {
                        render(case, naming, &mut text);
                    }
                    sum += black_box(&text).len();
                }
                Question::Case => {
                    if let Some(case) = &case {
                        hold(Owned::of(case));
                        sum += 1;
                    }
                }
                _ => sum += usize::from(case.is_some()),
            }
        }
    }
    sum
}
