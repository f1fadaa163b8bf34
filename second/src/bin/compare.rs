//! The comparison tool. Modes: `texts`, `calls`, `ends`, `self`, `endings`; README.md tells what each compares.

use second::compare::arguments::Arguments;
use second::compare::{call_mode, ends_mode, text_mode};
use std::process::ExitCode;

fn main() -> ExitCode {
    let mut words = std::env::args().skip(1);
    let mode = words.next().unwrap_or_default();
    let arguments = Arguments::new(words.collect());
    let agreed = match mode.as_str() {
        "texts" => text_mode::compare_texts(&arguments),
        "calls" => call_mode::compare_calls(&arguments),
        "ends" => ends_mode::compare_ends(&arguments),
        "self" => call_mode::compare_self(&arguments),
        "endings" => text_mode::count_endings(&arguments),
        _ => {
            eprintln!("usage: compare texts|calls|ends|self|endings [--name value ...]; see README.md");
            return ExitCode::from(2);
        }
    };
    if agreed {
        ExitCode::SUCCESS
    } else {
        ExitCode::FAILURE
    }
}
