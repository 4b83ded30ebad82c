//! Settles the sheets of a file on standard input, by the documents alone: written apart from the crates, and simple rather than fast.

mod files;
mod kinds;
mod report;
mod search;

use kinds::{Kind, Sort};
use std::io::{self, Read, Write};
use std::process::ExitCode;

const STEPS: usize = 1_000_000;

fn main() -> io::Result<ExitCode> {
    let mut file = Vec::new();
    io::stdin().read_to_end(&mut file)?;
    let kinds = [Sort::Moments, Sort::Spells, Sort::Dwellings].map(Kind::new);
    let mut text = String::new();
    let end = files::read(&file, &kinds, |number, sheet| {
        let mut search = search::Search::new(sheet);
        search.run(STEPS);
        text.push_str(&report::report(number, sheet, &search));
    });
    if let Err(fault) = &end {
        text.push_str(&format!("fault {} sheet {} line {} field {}\n", fault.number, fault.sheet, fault.line, fault.field));
    }
    io::stdout().write_all(text.as_bytes())?;
    Ok(if end.is_ok() { ExitCode::SUCCESS } else { ExitCode::FAILURE })
}
