use std::io::{self, Read, Write};
use std::path::Path;
use std::process::ExitCode;

use second::compare::Flags;

const USAGE: &str = "usage: second list | probe | c-probe | compare [FLAGS] | examples FOLDER";

fn main() -> ExitCode {
    let words: Vec<String> = std::env::args().skip(1).collect();
    let words: Vec<&str> = words.iter().map(String::as_str).collect();
    match words.as_slice() {
        ["list"] => filter(second::listing::list),
        ["probe"] => filter(second::probe::run),
        ["c-probe"] => filter(second::probe::c::run),
        ["compare", flags @ ..] => compare(flags),
        ["examples", folder] => ended(second::examples::write(Path::new(folder))),
        _ => fault(USAGE),
    }
}

fn compare(words: &[&str]) -> ExitCode {
    match Flags::of(words) {
        Ok(flags) if second::compare::compare(&flags) => ExitCode::SUCCESS,
        Ok(_) => ExitCode::FAILURE,
        Err(wrong) => fault(&wrong),
    }
}

fn fault(text: &str) -> ExitCode {
    eprintln!("{text}");
    ExitCode::FAILURE
}

/// Standard input through a function to standard output.
fn filter(function: impl Fn(&[u8]) -> String) -> ExitCode {
    let mut input = Vec::new();
    let read = io::stdin().lock().read_to_end(&mut input);
    ended(read.and_then(|_| io::stdout().lock().write_all(function(&input).as_bytes())))
}

fn ended(result: io::Result<()>) -> ExitCode {
    match result {
        Ok(()) => ExitCode::SUCCESS,
        Err(wrong) => fault(&format!("second: {wrong}")),
    }
}
