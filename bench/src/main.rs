//! Times the port's predicates beside the original's, in one process and in turn, and prints tables.
//! beside PORT_EXPLAIN ORIGINAL_EXPLAIN ORIGINAL_TEXT LINES [ROW]

mod check;
mod clock;
mod port;
mod program;
mod programs;
mod question;
mod rows;
mod table;

use std::env;
use programs::Programs;
use std::path::Path;

fn main() {
    let words: Vec<String> = env::args().skip(1).collect();
    let [port, original, original_text, lines, only @ ..] = words.as_slice() else {
        eprintln!("usage: beside PORT_EXPLAIN ORIGINAL_EXPLAIN ORIGINAL_TEXT LINES [ROW]");
        std::process::exit(2);
    };
    let only = only.first().map_or("", String::as_str);
    let lines: usize = lines.parse().expect("a number of lines");
    println!("Each cell: the port's time / the original's = the median of their ratios.\n");
    // First, while this process is small: a child's peak of memory begins with that of its parent.
    if lines > 0 {
        let programs = Programs { port: Path::new(port), original: Path::new(original), original_text: Path::new(original_text) };
        programs::print(&programs, lines);
    }
    rows::print(only);
    table::print_misses();
}
