//! The programs: lines a second, and peaks of memory.

use crate::clock::median;
use crate::program::{run, same, Folder};
use crate::table::missed;
use std::path::Path;

fn numbers(lines: usize) -> impl Iterator<Item = String> {
    (0..lines as i64).map(|at| (at * 7919 % 41 - 12).to_string())
}

fn words(lines: usize) -> impl Iterator<Item = String> {
    let words = ["lorem", "  ", "dolor sit", "", " amet ", "xyz", "b"];
    (0..lines).map(move |at| words[(at * at + at / 7) % words.len()].to_string())
}

/// The programs that are run: the port's, the original's, and the original's for one check of texts.
pub struct Programs<'a> {
    pub port: &'a Path,
    pub original: &'a Path,
    pub original_text: &'a Path,
}

struct Task<'a> {
    name: &'a str,
    words: &'a [&'a str],
    input: &'a Path,
    original: &'a Path,
    /// The greatest ratio of times that is wanted.
    target: f64,
}

fn print_task(port: &Path, folder: &Folder, lines: usize, task: &Task<'_>) {
    let (ours, theirs) = (folder.path("ours"), folder.path("theirs"));
    let (_, status) = run(port, task.words, task.input, Some(&ours));
    assert!(status < 2, "{}: status {status}", task.name);
    run(task.original, task.words, task.input, Some(&theirs));
    assert!(same(&ours, &theirs), "{}: the outputs differ", task.name);
    let (mut port_runs, mut original_runs) = (Vec::new(), Vec::new());
    for _ in 0..7 {
        port_runs.push(run(port, task.words, task.input, None).0);
        original_runs.push(run(task.original, task.words, task.input, None).0);
    }
    let seconds = |runs: &[crate::program::Run]| median(runs.iter().map(|run| run.seconds).collect());
    let speed = |runs: &[crate::program::Run]| lines as f64 / seconds(runs) / 1e6;
    let memory = |runs: &[crate::program::Run]| runs.iter().map(|run| run.kilobytes).max().unwrap_or(0);
    let neighbours = port_runs.iter().zip(&original_runs);
    let ratio = median(neighbours.map(|(port, original)| port.seconds / original.seconds).collect());
    let mark = missed(task.name, ratio, task.target);
    println!(
        "|{}|{:.2}|{:.2}|{ratio:.2}{mark}|{} kB|{} kB|",
        task.name,
        speed(&port_runs),
        speed(&original_runs),
        memory(&port_runs),
        memory(&original_runs)
    );
}

pub fn print(programs: &Programs<'_>, lines: usize) {
    let folder = Folder::new();
    let numbers = folder.write("numbers", numbers(lines));
    let words = folder.write("words", words(lines));
    println!("|`explain` over {lines} lines|million lines a second, port|original|time, port / original|peak memory, port|original|");
    println!("|---|---|---|---|---|---|");
    let between = ["between", "5", "10"];
    let check = ["text", "empty", "trim", "contains=a", "or"];
    let Programs { port, original, original_text } = *programs;
    let tasks = [
        Task { name: "`between 5 10`, numbers", words: &between, input: &numbers, original, target: 1.0 },
        Task { name: "`between 5 10`, no line a number", words: &between, input: &words, original, target: 1.0 },
        Task {
            name: "`text empty trim contains=a or`",
            words: &check,
            input: &words,
            original: original_text,
            target: f64::INFINITY,
        },
    ];
    for task in &tasks {
        print_task(port, &folder, lines, task);
    }
    println!();
}
