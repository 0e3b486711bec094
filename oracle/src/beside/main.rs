// Ours beside the Rust: random sequences of operations are played on both, ours through the C interface, and after each
// operation everything is compared. Where they differ the script is made small, and printed for `replay`.
//
//     beside OPERATIONS SEED   so many operations, drawn from the seed
//     beside check             shows that everything is looked at

#[path = "../capi.rs"]
mod capi;
#[path = "../checks.rs"]
mod checks;
#[path = "../compare.rs"]
mod compare;
mod forged;
#[path = "../lent.rs"]
mod lent;
mod mix;
#[path = "../operation.rs"]
mod operation;
#[path = "../ours.rs"]
mod ours;
#[path = "../pairs.rs"]
mod pairs;
#[path = "../random.rs"]
mod random;
#[path = "../replay.rs"]
mod replay;
#[path = "../rules.rs"]
mod rules;
#[path = "../segments.rs"]
mod segments;
mod shrink;
mod tally;

use std::panic::{catch_unwind, AssertUnwindSafe};
use std::process::exit;
use std::time::Instant;

use compare::{equal_sides, Both, Side};
use lent::Lent;
use mix::Mix;
use operation::Operation;
use random::Random;
use shrink::{failure, shrunk, Failure};
use tally::Tally;

// From so many operations on, a run in which something was never met has failed.
const ALL_MET: u64 = 100_000;

fn fail(why: &str) -> ! {
    eprintln!("beside: {why}");
    exit(1)
}

fn print_script(script: &[Operation]) {
    for operation in script {
        println!("{operation}");
    }
}

fn line(side: &Side) -> String {
    replay::answer_line(&side.lent, side.answer, &side.out)
}

fn print_failure(title: &str, found: &Failure) {
    println!("# {title}, {} operations", found.script.len());
    print_script(&found.script);
    println!("# {}", found.difference);
    println!("# ours     {}", line(&found.ours));
    println!("# the Rust {}", line(&found.rust));
}

// One operation on both sides, the last of the script. Where the oracle itself stops, its script has to be looked at.
fn play(both: &Both, ours: &mut Side, rust: &mut Side, script: &[Operation]) {
    let operation = script.last().expect("an operation");
    let played = catch_unwind(AssertUnwindSafe(|| both.play(ours, rust, operation)));
    if !matches!(played, Ok(Some(()))) {
        println!("# the oracle stops at the last operation");
        print_script(script);
        fail("the oracle stops; its script is on standard output");
    }
}

// A random operation; printed and read again it is the same.
fn drawn(mix: &mut Mix, lent: &Lent) -> Operation {
    let operation = mix.next(lent);
    let line = operation.to_string();
    assert_eq!(
        Operation::parse(&line).as_ref(),
        Some(&operation),
        "{line} is read otherwise"
    );
    operation
}

// Plays so many operations. Answers the script where the two differ at its end.
fn sequence(both: &Both, tally: &mut Tally, mix: &mut Mix, length: u64) -> Option<Vec<Operation>> {
    let (mut ours, mut rust) = (Side::default(), Side::default());
    let mut script = Vec::new();
    tally.begin();
    for _ in 0..length {
        let before = rust.lent.state;
        let operation = drawn(mix, &rust.lent);
        script.push(operation.clone());
        play(both, &mut ours, &mut rust, &script);
        if equal_sides(&ours, &rust).is_err() {
            return Some(script);
        }
        tally.count(&before, &operation, &rust);
    }
    None
}

fn report(both: &Both, seed: u64, number: u64, script: &[Operation]) -> ! {
    let found = failure(both, script).expect("the same difference once more");
    println!("# seed {seed}, sequence {number}: ours and the Rust differ");
    print_failure("as found", &found);
    print_failure("made small", &shrunk(both, found));
    fail("ours and the Rust differ; the script is on standard output")
}

fn play_all(both: &Both, operations: u64, seed: u64, tally: &mut Tally) {
    let mut number = 0;
    while tally.operations() < operations {
        let mut mix = Mix::new(Random::of(seed, number));
        let length = mix.length().min(operations - tally.operations());
        if let Some(script) = sequence(both, tally, &mut mix, length) {
            report(both, seed, number, &script);
        }
        number += 1;
    }
}

fn run(operations: u64, seed: u64) {
    let start = Instant::now();
    let mut tally = Tally::new();
    play_all(&Both::new(), operations, seed, &mut tally);
    tally.print();
    let seconds = start.elapsed().as_secs();
    println!("seed {seed}: {operations} operations, no difference, {seconds} s");
    let missing = tally.missing();
    if operations >= ALL_MET && !missing.is_empty() {
        fail(&format!("never met: {}", missing.join("; ")));
    }
}

const SCRIPT: [&str; 4] = [
    "new 16000",
    "lend 640 481 4b1df00d",
    "rate 48000",
    "process 1000 r:1*300",
];

// The slices of the script are short: every entry is changed.
fn check() -> Result<usize, String> {
    let both = Both::new();
    let (mut ours, mut rust) = (Side::default(), Side::default());
    for line in SCRIPT {
        let operation = Operation::parse(line).expect("an operation");
        both.play(&mut ours, &mut rust, &operation)
            .expect("it can be played");
    }
    equal_sides(&ours, &rust)?;
    checks::changes_noticed(&ours, usize::MAX)
}

fn usage() -> ! {
    eprintln!("usage: beside OPERATIONS SEED | beside check");
    exit(2)
}

fn main() {
    let words: Vec<String> = std::env::args().skip(1).collect();
    let words: Vec<&str> = words.iter().map(String::as_str).collect();
    match *words {
        ["check"] => match check() {
            Ok(changes) => println!("{changes} changes, of each number and entry: each noticed"),
            Err(why) => fail(&why),
        },
        [operations, seed] => match (operations.parse(), seed.parse()) {
            (Ok(operations), Ok(seed)) => run(operations, seed),
            _ => usage(),
        },
        _ => usage(),
    }
}
