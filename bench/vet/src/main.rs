//! The rules of crates/vet/data/rules over the original's predicates, with serde_json: for each record
//! of standard input that breaks a rule, the case of the first such rule; the totals at the end.

use std::error::Error;
use std::io::{self, BufRead, BufWriter, Write};
use std::process::ExitCode;

use predicates::prelude::*;
use predicates::reflection::Case;
use regex::Regex;
use serde_json::Value;

mod at;

use at::{at, each, matching, Whole};

type Rule = (&'static str, Box<dyn Predicate<Value>>);

fn rules() -> Result<Vec<Rule>, Box<dyn Error>> {
    let adult = at::<_, Whole>("/age", predicate::ge(18));
    let known = at::<_, str>("/name", predicate::str::starts_with("A"))
        .or(at::<_, str>("/name", predicate::eq("Zoe")));
    let seated = at::<_, Value>("/seat", predicate::always())
        .and(at::<_, Whole>("/seat", predicate::in_iter(vec![13, 17])).not());
    let lines = each(
        "/lines",
        at::<_, Whole>("/quantity", predicate::ge(1))
            .and(at::<_, str>("/sku", matching(Regex::new("^[A-Z]{3}$")?))),
    );
    Ok(vec![
        ("adult", Box::new(adult)),
        ("known", Box::new(known)),
        ("seated", Box::new(seated)),
        ("lines", Box::new(lines)),
    ])
}

fn write_case(output: &mut impl Write, case: &Case, margin: usize) -> io::Result<()> {
    if let Some(predicate) = case.predicate() {
        writeln!(output, "{:margin$}{predicate} = {}", "", case.result())?;
    }
    for product in case.products() {
        writeln!(output, "{:margin$}  - {}: {}", "", product.name(), product.value())?;
    }
    for child in case.children() {
        write_case(output, child, margin + 2)?;
    }
    Ok(())
}

fn main() -> Result<ExitCode, Box<dyn Error>> {
    let rules = rules()?;
    let mut input = io::stdin().lock();
    let mut output = BufWriter::new(io::stdout().lock());
    let mut line = Vec::new();
    let (mut records, mut failed) = (0u64, 0u64);
    loop {
        line.clear();
        if input.read_until(b'\n', &mut line)? == 0 {
            break;
        }
        records += 1;
        let value: Value = serde_json::from_slice(&line)?;
        for (name, rule) in &rules {
            if let Some(case) = rule.find_case(false, &value) {
                failed += 1;
                write!(output, "record {records}: false\n{name} = false\n")?;
                write_case(&mut output, &case, 2)?;
                break;
            }
        }
    }
    output.flush()?;
    eprintln!("{records} records, {failed} failed");
    Ok(ExitCode::from(u8::from(failed > 0)))
}
