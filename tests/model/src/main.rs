//! An independent model of tacbook and tacsum, with random inputs for them.

mod archive;
mod bench;
mod book;
mod bytes;
mod compare;
mod count;
mod random;
mod rng;
mod rules;
mod script;
#[cfg(test)]
mod tests;
mod years;

use std::io::{self, Read, Write};
use std::process::ExitCode;

const USAGE: &str = "model book [--archive FILE] < SCRIPT
model sum < ARCHIVE
model script SEED
model archive SEED
model years
model compare TACBOOK TACSUM COUNT SEED
model count COUNT SEED
model workload ENTRIES
model lines COUNT
model bench TACBOOK TACSUM LINES RUNS
model count < SCRIPT";

fn input() -> io::Result<Vec<u8>> {
    let mut bytes = Vec::new();
    io::stdin().read_to_end(&mut bytes)?;
    Ok(bytes)
}

fn print(bytes: &[u8]) -> io::Result<bool> {
    io::stdout().write_all(bytes)?;
    Ok(true)
}

fn book(archive: Option<&str>) -> io::Result<bool> {
    let outcome = script::run(&input()?);
    print(&outcome.stdout)?;
    if !outcome.message.is_empty() {
        eprintln!("{}", outcome.message);
    }
    if let (Some(file), Some(bytes)) = (archive, outcome.archive) {
        std::fs::write(file, bytes)?;
    }
    Ok(outcome.granted)
}

fn seed(word: &str) -> io::Result<u64> {
    word.parse()
        .map_err(|_| io::Error::other(format!("'{word}' is no number")))
}

fn command(words: &[&str]) -> io::Result<bool> {
    match words {
        ["book"] => book(None),
        ["book", "--archive", file] => book(Some(file)),
        ["sum"] => print(archive::summary(&input()?).as_bytes()),
        ["script", word] => print(&random::script(seed(word)?)),
        ["archive", word] => print(&bytes::archive(seed(word)?)),
        ["years"] => print(years::years().as_bytes()),
        ["compare", tacbook, tacsum, count, first] => {
            compare::compare(tacbook, tacsum, seed(count)?, seed(first)?)
        }
        ["workload", entries] => print(bench::workload(seed(entries)? as usize).as_bytes()),
        ["lines", count] => {
            println!("{}", bench::lines(seed(count)? as u32));
            Ok(true)
        }
        ["bench", tacbook, tacsum, lines, runs] => {
            bench::bench(tacbook, tacsum, lines, seed(runs)? as usize)
        }
        ["count"] => {
            count::count_one(&input()?);
            Ok(true)
        }
        ["count", count, first] => {
            count::count_seeds(seed(count)?, seed(first)?);
            Ok(true)
        }
        _ => Err(io::Error::other(USAGE)),
    }
}

fn main() -> ExitCode {
    let words: Vec<String> = std::env::args().skip(1).collect();
    let words: Vec<&str> = words.iter().map(String::as_str).collect();
    match command(&words) {
        Ok(true) => ExitCode::SUCCESS,
        Ok(false) => ExitCode::FAILURE,
        Err(why) => {
            eprintln!("{why}");
            ExitCode::FAILURE
        }
    }
}
