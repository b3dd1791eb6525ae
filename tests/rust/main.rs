//! An engine written from the rules alone, and a driver that holds the built `roam` against it.
//!
//!     compare PLAY SEED COUNT              random cases, every printed line compared
//!     noise PLAY SEED COUNT                random bytes, each must get an answer
//!     play DRAWING SHEET [STORE] < SCRIPT  what this engine answers

mod cases;
mod driver;
mod engine;
mod tally;

use std::io::{self, Read, Write};
use std::process::ExitCode;
use std::{env, fs};

fn main() -> ExitCode {
    let words: Vec<String> = env::args().skip(1).collect();
    let words: Vec<&str> = words.iter().map(String::as_str).collect();
    match words[..] {
        ["compare", play, seed, count] => drive(driver::compare, play, seed, count),
        ["noise", play, seed, count] => drive(driver::noise, play, seed, count),
        ["play", ref arguments @ ..] => play(arguments).unwrap_or_else(told),
        _ => usage(),
    }
}

fn drive(run: fn(&str, u64, u64) -> io::Result<bool>, play: &str, seed: &str, count: &str) -> ExitCode {
    let (Ok(seed), Ok(count)) = (seed.parse(), count.parse()) else {
        return usage();
    };
    match run(play, seed, count) {
        Ok(true) => ExitCode::SUCCESS,
        Ok(false) => ExitCode::FAILURE,
        Err(error) => told(error),
    }
}

fn play(arguments: &[&str]) -> io::Result<ExitCode> {
    let mut script = Vec::new();
    io::stdin().read_to_end(&mut script)?;
    let outcome = engine::play(arguments, |path| fs::read(path).ok(), script);
    io::stdout().write_all(engine::outcome::text(&outcome).as_bytes())?;
    Ok(ExitCode::from(engine::outcome::status(&outcome)))
}

fn usage() -> ExitCode {
    println!("usage: compare PLAY SEED COUNT | noise PLAY SEED COUNT | play DRAWING SHEET [STORE] < SCRIPT");
    ExitCode::FAILURE
}

fn told(error: io::Error) -> ExitCode {
    println!("{error}");
    ExitCode::FAILURE
}
