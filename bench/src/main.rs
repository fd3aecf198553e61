use std::env;
use std::path::Path;
use std::process::ExitCode;

use bench::check::{laws, round, vectors};
use bench::subject::Reference;

const USAGE: &str = "usage: bench vectors DIR | brute N [SEED] | text N [SEED]";

/// How many differences are shown.
const SHOWN: usize = 5;

fn main() -> ExitCode {
    let arguments: Vec<String> = env::args().skip(1).collect();
    let words: Vec<&str> = arguments.iter().map(String::as_str).collect();
    let agreed = match words[..] {
        ["vectors", folder] => run_vectors(Path::new(folder)),
        ["brute", count] => numbers(count, "1").map(|(count, seed)| run_brute(count, seed)),
        ["brute", count, seed] => numbers(count, seed).map(|(count, seed)| run_brute(count, seed)),
        ["text", count] => numbers(count, "1").map(|(count, seed)| run_text(count, seed)),
        ["text", count, seed] => numbers(count, seed).map(|(count, seed)| run_text(count, seed)),
        _ => Err(USAGE.to_string()),
    };
    match agreed {
        Ok(true) => ExitCode::SUCCESS,
        Ok(false) => ExitCode::FAILURE,
        Err(message) => {
            eprintln!("{message}");
            ExitCode::FAILURE
        }
    }
}

fn numbers(count: &str, seed: &str) -> Result<(u64, u64), String> {
    let number = |word: &str| word.parse().map_err(|_| USAGE.to_string());
    Ok((number(count)?, number(seed)?))
}

fn show(differences: &[String]) -> bool {
    for difference in differences.iter().take(SHOWN) {
        println!("{difference}");
    }
    differences.is_empty()
}

fn run_vectors(folder: &Path) -> Result<bool, String> {
    let outcome = vectors::check(&mut Reference, folder).map_err(|error| error.to_string())?;
    println!(
        "{} vectors, {} differ",
        outcome.tried,
        outcome.differences.len()
    );
    Ok(show(&outcome.differences))
}

fn run_brute(count: u64, first: u64) -> bool {
    let failed = |seed| laws(seed).err().map(|what| format!("seed {seed}: {what}"));
    let differences: Vec<_> = (first..first + count).filter_map(failed).collect();
    println!("{count} bursts, {} differ", differences.len());
    show(&differences)
}

fn run_text(count: u64, first: u64) -> bool {
    let mut faults = [0; 15];
    let mut differences = Vec::new();
    for seed in first..first + count {
        match round::check(seed) {
            Ok(fault) => faults[usize::from(fault)] += 1,
            Err(what) => differences.push(format!("seed {seed}: {what}")),
        }
    }
    println!("{count} texts, {} differ", differences.len());
    println!("{} accepted", faults[0]);
    for (number, count) in faults
        .iter()
        .enumerate()
        .skip(1)
        .filter(|(_, &count)| count > 0)
    {
        println!("{count} refused with {number}");
    }
    show(&differences)
}
