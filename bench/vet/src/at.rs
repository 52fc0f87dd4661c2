//! What the original lacks: a predicate of the value at a path, of each item of an array there, and of
//! a text that a pattern matches.

use std::fmt::{self, Display};

use predicates::reflection::{Case, PredicateReflection, Product};
use predicates::Predicate;
use regex::Regex;
use serde_json::Value;

/// A kind of value, as what predicates of it are asked.
pub trait Kind {
    type Asked: ?Sized;
    fn ask<P: Predicate<Self::Asked>>(inner: &P, value: &Value) -> bool;
}

pub struct Whole;

impl Kind for Whole {
    type Asked = i64;
    fn ask<P: Predicate<i64>>(inner: &P, value: &Value) -> bool {
        value.as_i64().is_some_and(|n| inner.eval(&n))
    }
}

impl Kind for str {
    type Asked = str;
    fn ask<P: Predicate<str>>(inner: &P, value: &Value) -> bool {
        value.as_str().is_some_and(|text| inner.eval(text))
    }
}

impl Kind for Value {
    type Asked = Value;
    fn ask<P: Predicate<Value>>(inner: &P, value: &Value) -> bool {
        inner.eval(value)
    }
}

pub struct At<P, K: ?Sized> {
    path: &'static str,
    inner: P,
    kind: std::marker::PhantomData<fn(&K)>,
}

pub fn at<P, K: Kind + ?Sized>(path: &'static str, inner: P) -> At<P, K> {
    At { path, inner, kind: std::marker::PhantomData }
}

impl<P: Display, K: ?Sized> Display for At<P, K> {
    fn fmt(&self, f: &mut fmt::Formatter) -> fmt::Result {
        write!(f, "{}: {}", self.path, self.inner)
    }
}

impl<P: PredicateReflection, K: ?Sized> PredicateReflection for At<P, K> {}

impl<K: Kind + ?Sized, P: Predicate<K::Asked>> Predicate<Value> for At<P, K> {
    fn eval(&self, item: &Value) -> bool {
        item.pointer(self.path).is_some_and(|value| K::ask(&self.inner, value))
    }

    fn find_case<'a>(&'a self, expected: bool, item: &Value) -> Option<Case<'a>> {
        if self.eval(item) != expected {
            return None;
        }
        let case = Case::new(Some(self), expected);
        Some(match item.pointer(self.path) {
            Some(value) => case.add_product(Product::new("found", value.to_string())),
            None => case.add_product(Product::new("error", "nothing there")),
        })
    }
}

pub struct Each<P> {
    path: &'static str,
    inner: P,
}

pub fn each<P>(path: &'static str, inner: P) -> Each<P> {
    Each { path, inner }
}

impl<P> Each<P> {
    fn items<'v>(&self, item: &'v Value) -> Option<&'v [Value]> {
        Some(item.pointer(self.path)?.as_array()?.as_slice())
    }
}

impl<P: Display> Display for Each<P> {
    fn fmt(&self, f: &mut fmt::Formatter) -> fmt::Result {
        write!(f, "each {} ({})", self.path, self.inner)
    }
}

impl<P: PredicateReflection> PredicateReflection for Each<P> {}

impl<P: Predicate<Value>> Predicate<Value> for Each<P> {
    fn eval(&self, item: &Value) -> bool {
        self.items(item)
            .is_some_and(|items| items.iter().all(|item| self.inner.eval(item)))
    }

    fn find_case<'a>(&'a self, expected: bool, item: &Value) -> Option<Case<'a>> {
        let Some(items) = self.items(item) else {
            return (!expected).then(|| Case::new(Some(self), false));
        };
        let breaks = items
            .iter()
            .enumerate()
            .find_map(|(index, item)| Some((index, self.inner.find_case(false, item)?)));
        match breaks {
            Some((index, case)) if !expected => Some(
                Case::new(Some(self), false)
                    .add_child(case.add_product(Product::new("index", index))),
            ),
            None if expected => Some(
                items
                    .iter()
                    .filter_map(|item| self.inner.find_case(true, item))
                    .fold(Case::new(Some(self), true), Case::add_child),
            ),
            _ => None,
        }
    }
}

pub struct Matching {
    pattern: Regex,
}

pub fn matching(pattern: Regex) -> Matching {
    Matching { pattern }
}

impl Display for Matching {
    fn fmt(&self, f: &mut fmt::Formatter) -> fmt::Result {
        write!(f, "var.is_match({})", self.pattern)
    }
}

impl PredicateReflection for Matching {}

impl Predicate<str> for Matching {
    fn eval(&self, item: &str) -> bool {
        self.pattern.is_match(item)
    }
}
