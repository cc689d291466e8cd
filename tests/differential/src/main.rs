//! A second implementation of the serial protocol, written from the rules alone, to compare the first one with.

mod answers;
mod breaks;
mod capture;
mod captures;
mod compare;
mod counter;
mod cuts;
mod device;
mod device_scripts;
mod driver;
mod families;
mod followed;
mod generate;
mod link;
mod link_scripts;
mod links;
mod listing;
mod messages;
mod module;
mod payloads;
mod process;
mod random;
mod reader;
mod recorder;
mod refusal_scripts;
mod replay;
mod scripts;
mod seen;
mod streams;
mod text;
mod transcript;
mod transfer;
mod transfer_scripts;
mod transfers;
mod vectors;
mod whole_tables;
mod writer;
mod written;

use capture::{Direction, DIRECTIONS};
use std::io::{self, Write};
use std::path::Path;
use std::process::ExitCode;

const USAGE: &str = "usage: differential list | replay | replays | driver | written
       differential generate reports|ff|noise|captures SEED COUNT
       differential record frames|SIZE box|both
       differential compare FOLDER [SEED [COUNT]]
       differential input PLAY SEED FAMILY INDEX";

const DEFAULT_SEED: u64 = 1;
const DEFAULT_COUNT: u64 = 200;

fn main() -> ExitCode {
    let words: Vec<String> = std::env::args().skip(1).collect();
    let words: Vec<&str> = words.iter().map(String::as_str).collect();
    let done = match words[..] {
        ["list"] => listing::list(&mut io::stdin().lock(), &mut io::stdout().lock()).map_err(not_read),
        ["replay"] => replay(),
        ["replays"] => recorder::replay_each(&mut io::stdin().lock(), &mut io::stdout().lock()).map_err(not_read),
        ["record", cut, directions] => record(cut, directions),
        ["driver"] => driver::play(&mut io::stdin().lock(), &mut io::stdout().lock()).map_err(not_read),
        ["written"] => written(),
        ["generate", "captures", seed, count] => captures(seed, count),
        ["generate", kind, seed, count] => generate(kind, seed, count),
        ["compare", folder] => compare(folder, None, None),
        ["compare", folder, seed] => compare(folder, Some(seed), None),
        ["compare", folder, seed, count] => compare(folder, Some(seed), Some(count)),
        ["input", play, seed, family, index] => input(play, seed, family, index),
        _ => Err(USAGE.into()),
    };
    match done {
        Ok(()) => ExitCode::SUCCESS,
        Err(fault) => {
            if !fault.is_empty() {
                eprintln!("{fault}");
            }
            ExitCode::FAILURE
        }
    }
}

fn not_read(error: io::Error) -> String {
    format!("differential: {error}")
}

fn replay() -> Result<(), String> {
    replay::replay(&mut io::stdin().lock(), &mut io::stdout().lock()).map(drop).map_err(not_read)
}

fn captures(seed: &str, count: &str) -> Result<(), String> {
    recorder::random_captures(number(seed)?, number(count)?, &mut io::stdout().lock()).map_err(not_read)
}

fn record(cut: &str, directions: &str) -> Result<(), String> {
    let size = if cut == "frames" { None } else { Some(number(cut)?) };
    let directions: &[Direction] = match directions {
        "box" => &[Direction::FromBox],
        "both" => &DIRECTIONS,
        _ => return Err(USAGE.into()),
    };
    recorder::record(size, directions, &mut io::stdin().lock(), &mut io::stdout().lock()).map_err(not_read)
}

/// Both outcomes are what this program prints.
fn written() -> Result<(), String> {
    match written::check(io::stdin().lock()) {
        Ok(lines) => {
            println!("{lines} lines agree");
            Ok(())
        }
        Err(fault) => {
            println!("{fault}");
            Err(String::new())
        }
    }
}

fn generate(kind: &str, seed: &str, count: &str) -> Result<(), String> {
    let kind = generate::Kind::named(kind).ok_or(USAGE)?;
    generate::generate(kind, number(seed)?, number(count)?, &mut io::stdout().lock()).map_err(not_read)
}

fn compare(folder: &str, seed: Option<&str>, count: Option<&str>) -> Result<(), String> {
    let seed = seed.map_or(Ok(DEFAULT_SEED), number)?;
    let count = count.map_or(Ok(DEFAULT_COUNT), number)?;
    // The score's line must be the last one, so nothing is printed after it.
    compare::compare(Path::new(folder), seed, count).then_some(()).ok_or(String::new())
}

/// Writes the input of one test, to try it by hand.
fn input(play: &str, seed: &str, family: &str, index: &str) -> Result<(), String> {
    let play = families::Play::named(play).ok_or(USAGE)?;
    let test = families::Test::named(play, family, number(index)?).ok_or("no such family or index")?;
    io::stdout().lock().write_all(&test.input(number(seed)?)).map_err(not_read)
}

fn number(word: &str) -> Result<u64, String> {
    word.parse().map_err(|_| format!("not a number: {word}"))
}
