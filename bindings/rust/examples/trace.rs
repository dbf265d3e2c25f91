//! Fills the tables of a domain file and follows a request step by step.
//!
//!     cargo run --example trace -- FILE EXPANDER ADDRESS
//!
//! The request starts at an expander, by its number; the address is hexadecimal.
//! Ends with 1 where the file is refused or the request does not arrive.

use std::error::Error;
use std::process::ExitCode;

use metzurgo::{needed, step, tables, trace, Expander, Outcome, Request, Rule, Setting};

const COURSE: Setting = Setting::WIDEST;

fn main() -> ExitCode {
    let arguments: Vec<String> = std::env::args().skip(1).collect();
    let [path, expander, address] = arguments.as_slice() else {
        eprintln!("trace FILE EXPANDER ADDRESS");
        return ExitCode::from(2);
    };
    match follow(path, expander, address) {
        Ok(Outcome::Arrived) => ExitCode::SUCCESS,
        Ok(_) => ExitCode::FAILURE,
        Err(error) => {
            eprintln!("{path}: {error}");
            ExitCode::FAILURE
        }
    }
}

fn follow(path: &str, expander: &str, address: &str) -> Result<Outcome, Box<dyn Error>> {
    let file = std::fs::read(path)?;
    let mut request = Request {
        expander: Expander(expander.parse()?),
        arrival: None,
        address: u64::from_str_radix(address.trim_start_matches("0x"), 16)?,
    };
    let needed = needed(COURSE, &file)?;
    let mut words = vec![0; needed.word_count()];
    let mut bits = vec![0; needed.bit_bytes()];
    tables(COURSE, &file, &mut words, &mut bits)?;

    let mut passed = [Expander(0); 64];
    let end = trace(COURSE, &file, &words, &bits, request, &mut passed)?;
    for _ in end.passed {
        let step = step(COURSE, &file, &words, &bits, request)?;
        let why = match step.rule {
            Rule::Itself => "has the address itself",
            Rule::Attached => "has the address attached",
            Rule::Listed => "has the address in a table",
            Rule::Subtractive => "sends it on through a subtractive phy",
            Rule::Nothing => "finds no way",
        };
        print!("expander {} {why}", request.expander);
        match (step.phy, step.index) {
            (Some(phy), Some(index)) => println!(": phy {phy}, index {index}"),
            (Some(phy), None) => println!(": phy {phy}"),
            _ => println!(),
        }
        if let Some((next, arrival)) = step.next {
            (request.expander, request.arrival) = (next, Some(arrival));
        }
    }
    println!("{:?} at expander {}", end.outcome, end.last);
    Ok(end.outcome)
}
