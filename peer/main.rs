//! An independent program for document 01: the register, its judge and `mlrun`, and the trial of another `mlrun` against it.

mod reached;
mod register;
mod trial;

use std::io::{Read, Write};
use std::path::{Path, PathBuf};
use std::process::ExitCode;
use trial::compare::{self, Trial};
use trial::{list, worked};

const USAGE: &str = "usage:
  peer run [--reached]                      standard input is a stream; --reached writes to standard error what was reached
  peer make SEED N FOLDER                   writes N streams, with their outputs
  peer compare SEED N FOLDER PROGRAM ..     compares a program with this one; FOLDER keeps streams that differ
  peer differs SEED N FOLDER PROGRAM ..     the same to the first difference; fails where there is none
  peer reach SEED N                         how often N streams reach what, without another program
  peer worked                               01's worked rows";

fn main() -> ExitCode {
    let arguments: Vec<String> = std::env::args().skip(1).collect();
    let words: Vec<&str> = arguments.iter().map(String::as_str).collect();
    let done = match words.as_slice() {
        ["run"] => run(false),
        ["run", "--reached"] => run(true),
        ["make", seed, streams, folder] => make(seed, streams, folder),
        ["compare", seed, streams, folder, program @ ..] => trial(seed, streams, folder, program).and_then(|trial| compared(&trial)),
        ["differs", seed, streams, folder, program @ ..] => trial(seed, streams, folder, program).and_then(|trial| differs(&trial)),
        ["reach", seed, streams] => reach(seed, streams),
        ["worked"] => worked_rows(),
        [] => Err(format!("a command is missing\n{USAGE}")),
        [command, ..] => Err(format!("'{command}' is no command, or has other arguments\n{USAGE}")),
    };
    match done {
        Ok(true) => ExitCode::SUCCESS,
        Ok(false) => ExitCode::FAILURE,
        Err(message) => {
            eprintln!("peer: {message}");
            ExitCode::from(2)
        }
    }
}

/// `mlrun`, and where asked a line for each name that was reached. A read that the system refuses counts as the end of the input.
fn run(tell: bool) -> Result<bool, String> {
    let mut input = Vec::new();
    if let Err(error) = std::io::stdin().read_to_end(&mut input) {
        eprintln!("peer: standard input: {error}");
    }
    if tell {
        reached::begin();
    }
    let output = register::program::run(&input);
    if let Err(error) = std::io::stdout().write_all(output.as_bytes()).and_then(|()| std::io::stdout().flush()) {
        eprintln!("peer: standard output: {error}");
    }
    for (name, count) in reached::end() {
        eprintln!("{count:>9}  {name}");
    }
    Ok(true)
}

fn number(what: &str, text: &str) -> Result<u64, String> {
    text.parse().map_err(|_| format!("{what} '{text}' is no number"))
}

fn make(seed: &str, streams: &str, folder: &str) -> Result<bool, String> {
    let (seed, streams) = (number("SEED", seed)?, number("N", streams)?);
    compare::make(seed, streams as usize, Path::new(folder)).map_err(|error| format!("{folder}: {error}"))?;
    Ok(true)
}

fn trial(seed: &str, streams: &str, folder: &str, program: &[&str]) -> Result<Trial, String> {
    if program.is_empty() {
        return Err("PROGRAM is missing".to_string());
    }
    std::fs::create_dir_all(folder).map_err(|error| format!("{folder}: {error}"))?;
    Ok(Trial {
        program: program.iter().map(|word| word.to_string()).collect(),
        seed: number("SEED", seed)?,
        streams: number("N", streams)? as usize,
        folder: PathBuf::from(folder),
        most_differences: 20,
        short: false,
    })
}

/// The comparison: streams, 01's worked rows, and the list of what must be reached, which tells nothing where the trial was broken off.
fn compared(trial: &Trial) -> Result<bool, String> {
    let result = compare::run(trial);
    let claims = worked::claims();
    let mut wrong: Vec<String> = result.differences.clone();
    wrong.extend(claims.iter().filter(|(_, holds)| !holds).map(|(name, _)| format!("the peer itself: {name} of 01 does not hold")));
    wrong.extend(compare::refused_by_the_system(trial));
    let mut tried = result.compared + claims.len() + 2;
    if result.differences.len() < trial.most_differences {
        let (lines, missing) = list::report(&result.reached);
        println!("{}", lines.join("\n"));
        tried += lines.len();
        wrong.extend(missing);
    } else {
        println!("broken off after {} differences", result.differences.len());
    }
    for line in &wrong {
        println!("FAILED: {line}");
    }
    let passed = tried.saturating_sub(wrong.len());
    println!("seed {}: {} streams compared, {} differ", trial.seed, result.compared, result.differences.len());
    println!("{passed} passed, {} failed", wrong.len());
    Ok(wrong.is_empty() && passed > 0)
}

/// How often each name is reached, the rarest first.
fn reach(seed: &str, streams: &str) -> Result<bool, String> {
    let mut counts: Vec<(u64, String)> =
        compare::reach(number("SEED", seed)?, number("N", streams)? as usize).into_iter().map(|(name, count)| (count, name)).collect();
    counts.sort();
    for (count, name) in counts {
        println!("{count:>9}  {name}");
    }
    Ok(true)
}

/// Whether a program is found to differ.
fn differs(trial: &Trial) -> Result<bool, String> {
    let result = compare::run(&Trial { program: trial.program.clone(), folder: trial.folder.clone(), most_differences: 1, short: true, ..*trial });
    match result.differences.first() {
        Some(difference) => println!("{difference}; {} streams compared", result.compared),
        None => println!("no difference in {} streams", result.compared),
    }
    Ok(!result.differences.is_empty())
}

fn worked_rows() -> Result<bool, String> {
    let claims = worked::claims();
    for (name, holds) in &claims {
        println!("{} {name}", if *holds { "holds " } else { "FAILED" });
    }
    Ok(claims.iter().all(|(_, holds)| *holds))
}
