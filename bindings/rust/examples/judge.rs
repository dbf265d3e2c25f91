//! Judges a domain file: how many expanders, tables and words it has, or why it is
//! refused.
//!
//!     cargo run --example judge -- FILE
//!
//! Ends with 1 where the file is refused, and with 3 where it cannot be read.

use std::process::ExitCode;

use metzurgo::{judge, needed, Refusal, Setting};

fn main() -> ExitCode {
    let Some(path) = std::env::args().nth(1) else {
        eprintln!("judge FILE");
        return ExitCode::from(2);
    };
    let file = match std::fs::read(&path) {
        Ok(file) => file,
        Err(error) => {
            eprintln!("{path}: {error}");
            return ExitCode::from(3);
        }
    };
    match counts(&file) {
        Ok(line) => {
            println!("{line}");
            ExitCode::SUCCESS
        }
        Err(refusal) => {
            println!("{refusal}");
            ExitCode::FAILURE
        }
    }
}

fn counts(file: &[u8]) -> Result<String, Refusal> {
    let expanders = judge(Setting::WIDEST, file)?;
    let needed = needed(Setting::WIDEST, file)?;
    let (tables, words) = (needed.tables, needed.words);
    Ok(format!(
        "expanders {expanders} tables {tables} words {words}"
    ))
}
