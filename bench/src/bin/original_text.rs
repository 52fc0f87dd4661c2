//! What `explain text empty trim contains=a or` does, over the original: its types nested without boxes.

use oracle::explain::{explain_one, Naming};
use predicates::prelude::*;
use std::fmt::Write as _;
use std::io::{self, BufRead, BufReader, BufWriter, Write};
use std::process::ExitCode;

fn main() -> io::Result<ExitCode> {
    let check = predicate::str::is_empty().trim().or(predicate::str::contains("a"));
    let mut input = BufReader::with_capacity(1 << 16, io::stdin().lock());
    let mut output = BufWriter::with_capacity(1 << 16, io::stdout().lock());
    let (mut line, mut label, mut block) = (Vec::new(), String::new(), String::new());
    let mut all = true;
    for at in 1u64.. {
        line.clear();
        if input.read_until(b'\n', &mut line)? == 0 {
            break;
        }
        if line.last() == Some(&b'\n') {
            line.pop();
        }
        block.clear();
        match std::str::from_utf8(&line) {
            Ok(text) => {
                label.clear();
                write!(label, "line {at}").expect("a string");
                explain_one(&check, &label, text, Naming::Address, &mut block);
            }
            Err(_) => {
                all = false;
                writeln!(block, "line {at}: not UTF-8").expect("a string");
            }
        }
        output.write_all(block.as_bytes())?;
    }
    output.flush()?;
    Ok(if all { ExitCode::SUCCESS } else { ExitCode::from(1) })
}
