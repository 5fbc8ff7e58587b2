//! `examine KIND PAGEFILE`: says whether a file is a page of 32- or 64-bit floats, in one line: the answer's three numbers and a sentence.
//! Exit status 0 for a page, 1 for a refusal, 2 for wrong usage or a file that can't be read.
use std::process::exit;
use std::{env, fs};
use strahnuk::{examine32, examine64, Refusal};

fn fail(message: &str) -> ! {
    eprintln!("{}", message);
    exit(2)
}

fn main() {
    let arguments: Vec<_> = env::args_os().skip(1).collect();
    let examine: fn(&[u8]) -> Result<usize, Refusal> =
        match arguments.first().and_then(|kind| kind.to_str()) {
            Some("32") if arguments.len() == 2 => examine32,
            Some("64") if arguments.len() == 2 => examine64,
            _ => fail("usage: examine 32|64 PAGEFILE"),
        };
    let page = match fs::read(&arguments[1]) {
        Ok(page) => page,
        Err(error) => fail(&format!("{}: {}", arguments[1].to_string_lossy(), error)),
    };
    match examine(&page) {
        Ok(1) => println!("0 0 1: a page of 1 value"),
        Ok(count) => println!("0 0 {}: a page of {} values", count, count),
        Err(refusal) => {
            println!("{}", refusal);
            exit(1)
        }
    }
}
