//! `second PROGRAM`: drives a program that answers frames over many columns
//! and pages, compares every answer and every byte with this program's own,
//! and fails if one differs or if a row of the table, a case of row 17, a width, a
//! room, a fate of older pages or what tells mistakes apart was never met.

use std::io::{self, BufReader};
use std::path::PathBuf;
use std::process::ExitCode;
use std::time::Instant;

use second::compare::Comparison;
use second::driver::Program;
use second::frames::serve;
use second::random::fresh_seed;

const USAGE: &str = "\
usage: second PROGRAM [options]   compare PROGRAM with this program
       second --self [options]    compare this program with itself
       second --serve             answer frames on standard input
options:
  --columns N   columns in all, over all seeds (5000)
  --pages N     damaged or forged pages in all (50000)
  --seed S      use this seed, may be repeated (1, 2, 3 and a fresh one)
  --fresh       use a fresh seed, beside those that are named
A case depends on its seed and its index alone: to see a difference again, name
its seed and ask for more columns or pages than its index.";

/// Seeds of every run, beside one fresh seed.
const FIXED_SEEDS: [u64; 3] = [1, 2, 3];

struct Options {
    program: Program,
    columns: usize,
    pages: usize,
    seeds: Vec<u64>,
}

fn main() -> ExitCode {
    let arguments: Vec<String> = std::env::args().skip(1).collect();
    if arguments == ["--serve"] {
        let served = serve(&mut BufReader::new(io::stdin()), &mut io::stdout().lock());
        return if served.is_ok() { ExitCode::SUCCESS } else { ExitCode::FAILURE };
    }
    let options = match parse(&arguments) {
        Ok(options) => options,
        Err(reason) => {
            eprintln!("second: {reason}\n{USAGE}");
            return ExitCode::from(2);
        }
    };
    match run(&options) {
        Ok(true) => ExitCode::SUCCESS,
        Ok(false) => ExitCode::FAILURE,
        Err(reason) => {
            println!("second: {reason}");
            println!("FAILED");
            ExitCode::FAILURE
        }
    }
}

fn parse(arguments: &[String]) -> Result<Options, String> {
    let mut program = None;
    let (mut columns, mut pages) = (5_000, 50_000);
    let mut seeds = Vec::new();
    let mut rest = arguments.iter();
    while let Some(word) = rest.next() {
        let mut number = || {
            let text = rest.next().ok_or(format!("{word} wants a number"))?;
            text.parse::<u64>().map_err(|_| format!("{word}: {text} is no number"))
        };
        match word.as_str() {
            "--columns" => columns = number()? as usize,
            "--pages" => pages = number()? as usize,
            "--seed" => seeds.push(number()?),
            "--fresh" => seeds.push(fresh_seed()),
            "--self" => program = Some(this_program()?),
            _ if word.starts_with('-') => return Err(format!("{word} is no option")),
            _ if program.is_some() => return Err(format!("{word}: one program is enough")),
            _ => program = Some(Program { path: PathBuf::from(word), arguments: vec![] }),
        }
    }
    if seeds.is_empty() {
        seeds = FIXED_SEEDS.to_vec();
        seeds.push(fresh_seed());
    }
    let program = program.ok_or("no program is named")?;
    Ok(Options { program, columns, pages, seeds })
}

/// This program as the one that answers.
fn this_program() -> Result<Program, String> {
    let path = std::env::current_exe().map_err(|error| error.to_string())?;
    Ok(Program { path, arguments: vec!["--serve".into()] })
}

/// Whether all went well; an error if the comparison couldn't be finished.
fn run(options: &Options) -> Result<bool, String> {
    let started = Instant::now();
    let mut comparison = Comparison::new(&options.program);
    println!("program  {}", options.program.path.display());
    let frames = comparison.malformed()?;
    println!("frames   {frames} inputs, malformed ones and ones at a limit");
    for (turn, seed) in options.seeds.iter().enumerate() {
        let columns = share(options.columns, turn, options.seeds.len());
        let pages = share(options.pages, turn, options.seeds.len());
        println!("seed     {seed}: {columns} columns, {pages} damaged or forged pages, small ones, every width, every room, choices, older pages, sums");
        comparison.columns(*seed, columns)?;
        comparison.pages(*seed, pages)?;
        comparison.worn(*seed)?;
        comparison.widths(*seed)?;
        comparison.rooms(*seed)?;
        comparison.choices(*seed)?;
        comparison.older(*seed)?;
        comparison.sums(*seed)?;
        comparison.beyond(*seed)?;
    }
    println!("\n{}", comparison.tally.table());

    let missing = comparison.tally.missing();
    for line in &missing {
        println!("never met: {line}");
    }
    let (requests, differences) = (comparison.requests, comparison.differences);
    let seconds = started.elapsed().as_secs_f64();
    println!("{requests} requests, {differences} differences, {seconds:.1} s");
    let well = differences == 0 && missing.is_empty();
    println!("{}", if well { "all agree" } else { "FAILED" });
    Ok(well)
}

/// A seed's part of the whole.
fn share(whole: usize, turn: usize, turns: usize) -> usize {
    whole * (turn + 1) / turns - whole * turn / turns
}
