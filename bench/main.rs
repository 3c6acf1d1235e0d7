// Compares the library and the programs with searches of their own, and times the library.
mod damage;
mod exhaustive;
mod itself;
mod judge;
mod library;
mod numbers;
mod plain;
mod programs;
mod question;
mod random;
mod reader;
mod search;
mod timing;

use std::process::ExitCode;

const QUESTIONS: u64 = 100_000;
const SEED: u64 = 20_250_713;
const USAGE: &str = "usage: bench/run [time | search [QUESTIONS [SEED]]]";

fn number(word: Option<&String>, otherwise: u64) -> Result<u64, String> {
    word.map_or(Ok(otherwise), |word| word.parse().map_err(|_| USAGE.into()))
}

fn time() -> Result<(), String> {
    timing::compare()?;
    timing::measure();
    Ok(())
}

fn run(words: &[String]) -> Result<(), String> {
    match words {
        [] => {
            timing::compare()?;
            search::compare(QUESTIONS, SEED)?;
            timing::measure();
            Ok(())
        }
        [first] if first == "time" => time(),
        [first, rest @ ..] if first == "search" && rest.len() <= 2 => {
            search::compare(number(rest.first(), QUESTIONS)?, number(rest.get(1), SEED)?)
        }
        _ => Err(USAGE.into()),
    }
}

fn main() -> ExitCode {
    let words: Vec<String> = std::env::args().skip(1).collect();
    if let Err(why) = run(&words) {
        println!("{why}");
        return ExitCode::FAILURE;
    }
    ExitCode::SUCCESS
}
