//! The lines that are printed.

use crate::clock::Pair;
use std::cell::RefCell;

thread_local! {
    static MISSES: RefCell<Vec<String>> = const { RefCell::new(Vec::new()) };
}

/// A time in words.
pub fn time(ns: f64) -> String {
    match ns {
        t if t < 100.0 => format!("{t:.2} ns"),
        t if t < 100_000.0 => format!("{t:.0} ns"),
        t if t < 100_000_000.0 => format!("{:.0} us", t / 1e3),
        t => format!("{:.0} ms", t / 1e6),
    }
}

/// The mark of a ratio, which is kept where it is above the target.
pub fn missed(what: &str, ratio: f64, target: f64) -> &'static str {
    // What is printed as the target meets it.
    if ratio < target + 0.005 {
        return "";
    }
    let line = format!("{what}: {ratio:.2}, where at most {target:.2} is wanted");
    MISSES.with(|misses| misses.borrow_mut().push(line));
    " !"
}

/// The ratio of both times, which is marked where it is above the target, and the port's time.
pub fn cell(what: &str, pair: Pair, target: f64) -> String {
    let mark = missed(what, pair.ratio, target);
    format!("{:.2} ({}){mark}", pair.ratio, time(pair.port))
}

/// Prints what was above its target.
pub fn print_misses() {
    MISSES.with(|misses| {
        let misses = misses.borrow();
        println!("\nAbove the target (marked by !): {}", misses.len());
        for miss in misses.iter() {
            println!("- {miss}");
        }
    });
}
