//! A second, independent reader of SPE Expert, Alpha 9500 and KPA1500 frames,
//! to hold another program against: lister, replay of stream calls, generator
//! of test inputs and comparison. See README.md.

mod alpha;
#[cfg(test)]
#[path = "../../c/amp.rs"]
mod amp;
#[cfg(test)]
mod answers;
#[cfg(test)]
#[allow(dead_code)]
mod calls;
#[cfg(test)]
mod comma_tests;
mod compare;
mod cuts;
mod frames;
mod generate;
mod kpa;
#[cfg(test)]
mod kpa_tests;
mod listing;
mod make_alpha;
mod make_comma;
mod make_kpa;
mod make_spe;
mod pieces;
mod replay;
mod report;
mod rng;
#[cfg(test)]
mod row_tests;
#[cfg(test)]
mod rows;
mod run;
mod shrink;
mod spe;
mod spoil_kpa;
mod stream;
#[cfg(test)]
mod tests;

use std::io::{self, Read, Write};
use std::path::PathBuf;

const USAGE: &str = "usage:
  second listing < INPUT
  second replay < INPUT
  second generate capture|script 1|2|3|4 SEED INDEX
  second compare --listing PATH --replay PATH --seed N --count N --save PATH [--seconds N]";

fn main() {
    let arguments: Vec<String> = std::env::args().skip(1).collect();
    let words: Vec<&str> = arguments.iter().map(String::as_str).collect();
    let status = match words.split_first() {
        Some((&"listing", [])) => answer_input(listing::listing),
        Some((&"replay", [])) => answer_input(replay::replay),
        Some((&"generate", rest)) => generate_command(rest),
        Some((&"compare", rest)) => compare_command(rest),
        _ => wrong_usage(),
    };
    std::process::exit(status);
}

fn wrong_usage() -> i32 {
    eprintln!("{}", USAGE);
    2
}

fn answer_input(program: fn(&[u8]) -> String) -> i32 {
    let mut input = Vec::new();
    if let Err(error) = io::stdin().read_to_end(&mut input) {
        eprintln!("standard input cannot be read: {}", error);
        return 1;
    }
    write_out(program(&input).as_bytes())
}

fn write_out(bytes: &[u8]) -> i32 {
    let mut output = io::stdout();
    match output.write_all(bytes).and_then(|()| output.flush()) {
        Ok(()) => 0,
        Err(error) => {
            eprintln!("standard output cannot be written: {}", error);
            1
        }
    }
}

fn generate_command(words: &[&str]) -> i32 {
    match generated(words) {
        Some(input) => write_out(&input),
        None => wrong_usage(),
    }
}

fn generated(words: &[&str]) -> Option<Vec<u8>> {
    if words.len() != 4 || words[1].len() != 1 {
        return None;
    }
    let what = generate::What::from_word(words[0])?;
    let family = frames::Family::from_ascii(words[1].as_bytes()[0])?;
    let seed = words[2].parse().ok()?;
    let index = words[3].parse().ok()?;
    Some(generate::input(what, family, seed, index))
}

fn compare_command(words: &[&str]) -> i32 {
    match compare_settings(words) {
        Some(settings) => compare::compare(&settings),
        None => wrong_usage(),
    }
}

/// Every option stands before its value, in any order. A count of 0 is wrong
/// usage: a comparison of nothing must not look like a success.
fn compare_settings(words: &[&str]) -> Option<compare::Settings> {
    let known = [
        "--listing",
        "--replay",
        "--seed",
        "--count",
        "--save",
        "--seconds",
    ];
    if words.len() % 2 != 0 || !words.chunks(2).all(|pair| known.contains(&pair[0])) {
        return None;
    }
    let value = |name: &str| {
        words
            .chunks(2)
            .find(|pair| pair[0] == name)
            .map(|pair| pair[1])
    };
    let seconds = match value("--seconds") {
        Some(text) => Some(text.parse().ok()?),
        None => None,
    };
    let settings = compare::Settings {
        listing: PathBuf::from(value("--listing")?),
        replay: PathBuf::from(value("--replay")?),
        seed: value("--seed")?.parse().ok()?,
        count: value("--count")?.parse().ok()?,
        save: PathBuf::from(value("--save")?),
        seconds,
    };
    if settings.count == 0 {
        return None;
    }
    Some(settings)
}
