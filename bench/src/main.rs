// Times ours beside the Rust and others, and prints tables in Markdown. `bench/run` and `bench/growth` build and call it.

#[path = "../../oracle/src/capi.rs"]
mod capi;
#[path = "../../oracle/src/random.rs"]
mod random;

// The Rust unchanged, which is timed, and the Rust with document 01's sine, which ours is compared with.
extern crate fon_plain as plain;
extern crate fon_stepped as stepped;

mod cases;
mod engines;
mod growth;
#[cfg(libsamplerate)]
mod libsamplerate;
mod measure;
mod ours;
mod piped;
mod same;
#[cfg(soxr)]
mod soxr;
#[cfg(speexdsp)]
mod speexdsp;
mod tables;

use std::process::ExitCode;

use measure::Effort;

const LONG: Effort = Effort {
    rounds: 11,
    least: 30e6,
};

const QUICK: Effort = Effort {
    rounds: 5,
    least: 6e6,
};

const TEN_HOURS: usize = 36_000;
const TEN_MINUTES: usize = 600;

fn main() -> ExitCode {
    let words: Vec<String> = std::env::args().skip(1).collect();
    let words: Vec<&str> = words.iter().map(String::as_str).collect();
    let outcome = match words[..] {
        ["run"] => tables::print(LONG),
        ["run", "--quick"] => tables::print(QUICK),
        ["piped", seconds] => piped::print(seconds),
        ["growth"] => growth::print(LONG, TEN_HOURS),
        ["growth", "--quick"] => growth::print(QUICK, TEN_MINUTES),
        _ => {
            eprintln!("usage: bench run [--quick]|piped SECONDS|growth [--quick]");
            return ExitCode::from(2);
        }
    };
    match outcome {
        Ok(()) => ExitCode::SUCCESS,
        Err(difference) => {
            eprintln!("{difference}");
            ExitCode::from(1)
        }
    }
}
