// Calls of the greatest lengths, on real buffers: 16,777,216 samples in, and as many out, are taken; one more of either is
// refused with 5. Ours, through the C interface, beside the Rust with document 01's rules around it: after each call both
// answers, every number of the state, and the whole of the history, the coefficients and the output have to be equal, bit for
// bit. Where the rules refuse a call they leave all of that alone, so ours has to do so too.
//
// Says what each call answered and exits with 0, or names the first difference and exits with 1. After the last call at two
// rates it changes what ours holds by one bit after the other: a change that is not noticed ends it with 1 as well.

mod capi;
mod checks;
mod compare;
mod lent;
mod operation;
mod ours;
mod replay;
mod rules;
mod segments;

use std::process::ExitCode;
use std::time::Instant;

use compare::{equal_sides, equal_slices, Both, Side};
use lent::Entries;
use rules::LONGEST_CALL;
use segments::{samples, unwritten, Kind, Segment};

// How many entries of a slice are changed at the end.
const CHANGED: usize = 16;

// Samples in, room, and the refusal that document 01 has for them.
const CALLS: [(usize, usize, u32); 10] = [
    (LONGEST_CALL, 0, 0),
    (LONGEST_CALL, 1, 0),
    (1, LONGEST_CALL, 0),
    (LONGEST_CALL + 1, 0, 5),
    (LONGEST_CALL + 1, 1, 5),
    (1, LONGEST_CALL + 1, 5),
    (LONGEST_CALL + 1, LONGEST_CALL, 5),
    (LONGEST_CALL, LONGEST_CALL + 1, 5),
    (LONGEST_CALL + 1, LONGEST_CALL + 1, 5),
    (LONGEST_CALL, LONGEST_CALL, 0),
];

// Two rates, and whether the last call at them uses up its input and its room.
struct Rates {
    source: u32,
    target: u32,
    all_read: bool,
    all_written: bool,
}

const RATES: [Rates; 3] = [
    Rates {
        source: 48_000,
        target: 48_000,
        all_read: true,
        all_written: true,
    },
    Rates {
        source: 4_000,
        target: 192_000,
        all_read: false,
        all_written: true,
    },
    Rates {
        source: 192_000,
        target: 4_000,
        all_read: true,
        all_written: false,
    },
];

fn process(entries: &impl Entries, side: &mut Side, input: &[f32], room: usize) {
    side.out = unwritten(room);
    side.answer = entries.process(&mut side.lent, input, &mut side.out);
}

// A stream on ours and on the Rust, with what the last call of each answered and wrote.
struct Stream {
    both: Both,
    ours: Side,
    rust: Side,
}

impl Stream {
    fn at_rates(source: u32, target: u32) -> Stream {
        let both = Both::new();
        let (ours, rust) = both.at_rates(source, target);
        Stream { both, ours, rust }
    }

    fn call(&mut self, input: &[f32], room: usize, refusal: u32) -> Result<(), String> {
        process(&self.both.ours, &mut self.ours, input, room);
        process(&self.both.rules, &mut self.rust, input, room);
        equal_sides(&self.ours, &self.rust)?;
        let (number, consumed, written) = self.ours.answer;
        if number != refusal {
            return Err(format!("refusal {number}, document 01 has {refusal}"));
        }
        let length = input.len();
        println!(
            "{length} in, room {room}: refusal {number}, {consumed} consumed, {written} written"
        );
        Ok(())
    }

    fn calls(&mut self, input: &[f32]) -> Result<(), String> {
        equal_sides(&self.ours, &self.rust)?;
        for (length, room, refusal) in CALLS {
            self.call(&input[..length], room, refusal)
                .map_err(|difference| format!("{length} in, room {room}: {difference}"))?;
        }
        Ok(())
    }
}

fn at_rates(rates: &Rates, input: &[f32]) -> Result<(), String> {
    let mut stream = Stream::at_rates(rates.source, rates.target);
    stream.calls(input)?;
    let (_, consumed, written) = stream.ours.answer;
    let used_up = (
        consumed as usize == LONGEST_CALL,
        written as usize == LONGEST_CALL,
    );
    if used_up != (rates.all_read, rates.all_written) {
        return Err(format!(
            "the last call was to use up something else: {consumed} consumed, {written} written"
        ));
    }
    let changes = checks::changes_noticed(&stream.ours, CHANGED)?;
    println!("{changes} changes, each noticed");
    Ok(())
}

fn compared(input: &[f32]) -> Result<(), String> {
    for rates in &RATES {
        let named = format!("{} to {}", rates.source, rates.target);
        println!("{named}:");
        at_rates(rates, input).map_err(|difference| format!("{named}, {difference}"))?;
    }
    Ok(())
}

// As many samples as the longest call takes, and one more.
fn noise() -> Vec<f32> {
    samples(&[Segment::Drawn {
        kind: Kind::Uniform,
        seed: 1,
        count: LONGEST_CALL + 1,
    }])
}

fn main() -> ExitCode {
    let start = Instant::now();
    let input = noise();
    let outcome = compared(&input).and_then(|()| equal_slices("input", &input, &noise()));
    if let Err(difference) = outcome {
        eprintln!("{difference}");
        return ExitCode::from(1);
    }
    println!("all equal, in {:.0} s", start.elapsed().as_secs_f64());
    ExitCode::SUCCESS
}
