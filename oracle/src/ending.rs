// How a program that compares ends: with 0 where all is equal, with 1 at the first difference, with 2 where its words ask for
// nothing that there is.

use std::process::ExitCode;
use std::time::Instant;

pub fn ended(asked: impl Fn(&[String]) -> Option<Result<(), String>>, usage: &str) -> ExitCode {
    let start = Instant::now();
    let words: Vec<String> = std::env::args().collect();
    match asked(&words) {
        Some(Ok(())) => {
            println!("in {:.0} s", start.elapsed().as_secs_f64());
            ExitCode::SUCCESS
        }
        Some(Err(difference)) => {
            eprintln!("{difference}");
            ExitCode::from(1)
        }
        None => {
            eprintln!("usage: {usage}");
            ExitCode::from(2)
        }
    }
}
