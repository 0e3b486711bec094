// The table of `bench/conform`, from what GNU time said of each round.

use std::io;

use crate::measure::Spread;
use crate::tables::{head, ratio, row, say};

// Of one run: processor time in s, largest memory in KB.
#[derive(Clone, Copy)]
struct Run {
    time: f64,
    memory: f64,
}

// A round's line: user and system time and memory of the Rust, then of ours.
fn round(line: &str) -> Option<(Run, Run)> {
    let numbers: Vec<f64> = line
        .split(' ')
        .map(str::parse)
        .collect::<Result<_, _>>()
        .ok()?;
    let run = |of: &[f64]| Run {
        time: of[0] + of[1],
        memory: of[2],
    };
    (numbers.len() == 6).then(|| (run(&numbers[..3]), run(&numbers[3..])))
}

// A row of the table: median time with its quartiles, largest memory.
fn measured(name: &str, runs: &[Run]) {
    let times: Vec<f64> = runs.iter().map(|run| run.time).collect();
    let Spread { low, median, high } = Spread::of(&times);
    let memory = runs.iter().map(|run| run.memory).fold(0.0, f64::max);
    row(&[
        name.to_string(),
        format!("{median:.2} s ({low:.2} to {high:.2})"),
        format!("{memory} KB"),
    ]);
}

pub fn print(seconds: &str) -> Result<(), String> {
    let lines = io::stdin().lines();
    let rounds: Option<Vec<(Run, Run)>> = lines.map(|line| round(&line.ok()?)).collect();
    let rounds = rounds
        .filter(|rounds| !rounds.is_empty())
        .ok_or("no times were read")?;
    let (rust, ours): (Vec<Run>, Vec<Run>) = rounds.into_iter().unzip();
    let ratios: Vec<f64> = ours
        .iter()
        .zip(&rust)
        .map(|(o, r)| o.time / r.time)
        .collect();
    println!("\n## A file through a pipe\n");
    say(&format!(
        "{seconds} s of 48,000 Hz, noise, pulled to 47,952 Hz: a pipe into the program, a pipe out of it; {} rounds, the two in turn. \
         The Rust reads blocks of 1,024 samples for `pipe`, and ends with `flush`. Processor time of the program and of the system \
         for it, with its start. Neither clears a buffer between blocks.",
        ratios.len()
    ));
    head(&["", "processor time", "largest memory"].map(String::from));
    measured("ours, `conform`", &ours);
    measured("the Rust", &rust);
    row(&[
        "ours to the Rust".to_string(),
        ratio(Spread::of(&ratios)),
        String::new(),
    ]);
    println!(
        "\nThe same bytes: of the first minute ours wrote what the Rust with document 01's sine makes of it."
    );
    Ok(())
}
