//! Compares the bench server with a plain Rust server.
//!
//!     speed check [FRAMES [SEED]]               both answer alike on random frames
//!     speed time [BATCHES]                      a line a row and code: NAME CODE BENCH PLAIN RATIO, in frames a second
//!     speed serve bench|plain ROW CODE TIMES    one row, for a profiler
//!     speed rows                                a line a row: NAME TITLE
//!
//! CODE is binary or ascii. `time` and `serve` take `--image` as their last word, for an image in place of packed tables.

#![forbid(unsafe_code)]

mod checking;
mod frames;
mod guessed;
mod pair;
mod plain;
mod random;
mod rows;
mod timing;

use bench_server::Code;
use rows::{Row, ROWS};
use std::process::ExitCode;
use timing::Which;

fn main() -> ExitCode {
    let mut words: Vec<String> = std::env::args().skip(1).collect();
    let image = words.last().is_some_and(|word| word == "--image");
    if image {
        words.pop();
    }
    let words: Vec<&str> = words.iter().map(String::as_str).collect();
    match run(&words, image) {
        Ok(()) => ExitCode::SUCCESS,
        Err(what) => {
            eprintln!("speed: {what}");
            ExitCode::FAILURE
        }
    }
}

fn run(words: &[&str], image: bool) -> Result<(), String> {
    match words {
        ["check", rest @ ..] => {
            let frames = number(rest.first().copied().unwrap_or("100000"))?;
            let seed = number(rest.get(1).copied().unwrap_or("1"))?;
            check(frames as usize, seed)
        }
        ["time", rest @ ..] => {
            let batches = number(rest.first().copied().unwrap_or("9"))?;
            time(batches as usize, image);
            Ok(())
        }
        ["serve", which, row, code, times] => {
            let which = match *which {
                "bench" => Which::Bench,
                "plain" => Which::Plain,
                other => return Err(format!("no server {other}")),
            };
            let row = Row::by_name(row).ok_or_else(|| format!("no row {row}"))?;
            let (code, times) = (code_named(code)?, number(times)?);
            if image {
                timing::serve_row::<u8>(which, row, code, times);
            } else {
                timing::serve_row::<u16>(which, row, code, times);
            }
            Ok(())
        }
        ["rows"] => {
            for row in ROWS {
                println!("{} {}", row.name, row.title);
            }
            Ok(())
        }
        _ => Err("check, time, serve or rows is wanted; src/main.rs tells more".to_string()),
    }
}

fn number(word: &str) -> Result<u64, String> {
    word.parse().map_err(|error| format!("{word}: {error}"))
}

fn code_named(word: &str) -> Result<Code, String> {
    match word {
        "binary" => Ok(Code::Binary),
        "ascii" => Ok(Code::Ascii),
        other => Err(format!("no code {other}")),
    }
}

fn check(frames: usize, seed: u64) -> Result<(), String> {
    let tally = checking::check(frames, seed)?;
    println!("{frames} random frames (seed {seed}): no difference");
    let met: Vec<String> = tally
        .iter()
        .map(|(fault, count)| format!("{fault:04X} {count}"))
        .collect();
    println!("faults met (0000 is none): {}", met.join(", "));
    Ok(())
}

fn time(batches: usize, image: bool) {
    for row in ROWS {
        for (name, code) in [("binary", Code::Binary), ("ascii", Code::Ascii)] {
            let rates = if image {
                timing::time_row::<u8>(row, code, batches)
            } else {
                timing::time_row::<u16>(row, code, batches)
            };
            println!(
                "{} {name} {:.0} {:.0} {:.4}",
                row.name, rates.bench, rates.plain, rates.ratio
            );
        }
    }
}
