// An operation played on ours and on the Rust, and the first thing in which they differ.

use std::fmt::Debug;

use fon::engine::Numbers;

use crate::lent::{Answer, Lent};
use crate::operation::{numbers, Operation, FIELDS};
use crate::ours::{Itself, Ours};
use crate::replay;
use crate::rules::{history_needed, rated, Rules};
use crate::segments::{word, UNWRITTEN};

// What one of the two holds after an operation, and what that operation answered.
#[derive(Clone, Default)]
pub struct Side {
    pub lent: Lent,
    pub answer: Answer,
    pub out: Vec<f32>,
}

// The two that answer.
pub struct Both {
    pub rules: Rules,
    pub ours: Ours<Itself>,
}

impl Both {
    pub fn new() -> Both {
        Both {
            rules: Rules::default(),
            ours: Ours { lending: Itself },
        }
    }

    // None: the operation cannot be played.
    pub fn play(&self, ours: &mut Side, rust: &mut Side, operation: &Operation) -> Option<()> {
        (rust.answer, rust.out) = replay::play(&self.rules, &mut rust.lent, operation)?;
        (ours.answer, ours.out) = replay::play(&self.ours, &mut ours.lent, operation)?;
        Some(())
    }

    // Ours and the Rust, each with a new state set to these rates and with slices of just the lengths that document 01
    // says. What ours made of it is still to be compared.
    pub fn at_rates(&self, source: u32, target: u32) -> (Side, Side) {
        let new = rated(source, target);
        let lend = Operation::Lend {
            history: history_needed(&Numbers::default(), &new),
            coefficients: new.table,
            fill: UNWRITTEN,
        };
        let (mut ours, mut rust) = (Side::default(), Side::default());
        for operation in [Operation::New(target), lend, Operation::Rate(source)] {
            self.play(&mut ours, &mut rust, &operation)
                .expect("it can be played");
            assert_eq!(rust.answer.0, 0);
        }
        (ours, rust)
    }
}

// Err: they are not equal, and what each of them is.
pub fn equal<T: PartialEq + Debug>(name: &str, ours: T, rust: T) -> Result<(), String> {
    if ours == rust {
        return Ok(());
    }
    Err(format!("{name}: ours {ours:?}, the Rust {rust:?}"))
}

fn with_one_nan(state: Numbers) -> Numbers {
    let cutoff = word(f32::from_bits(state.cutoff));
    Numbers { cutoff, ..state }
}

// Every number; any NaN counts as one.
pub fn equal_states(ours: Numbers, rust: Numbers) -> Result<(), String> {
    let (mut ours, mut rust) = (with_one_nan(ours), with_one_nan(rust));
    let pairs = numbers(&mut ours).into_iter().zip(numbers(&mut rust));
    for (name, (a, b)) in FIELDS.into_iter().zip(pairs) {
        equal(name, a, b)?;
    }
    Ok(())
}

fn same_bits(a: &[f32], b: &[f32]) -> bool {
    let apart = |all, (x, y): (&f32, &f32)| all | (x.to_bits() ^ y.to_bits());
    a.iter().zip(b).fold(0, apart) == 0
}

// Every entry; any NaN counts as one. The quick look at all bits comes first: a slice is seldom different.
pub fn equal_slices(name: &str, ours: &[f32], rust: &[f32]) -> Result<(), String> {
    equal(&format!("{name}, length"), ours.len(), rust.len())?;
    if same_bits(ours, rust) {
        return Ok(());
    }
    for (i, (&a, &b)) in ours.iter().zip(rust).enumerate() {
        let (a, b) = (word(a), word(b));
        if a != b {
            return Err(format!("{name}, entry {i}: ours {a:08x}, the Rust {b:08x}"));
        }
    }
    Ok(())
}

// Refusal and counts, every number of the state, every entry of each slice.
pub fn equal_sides(ours: &Side, rust: &Side) -> Result<(), String> {
    equal("refusal", ours.answer.0, rust.answer.0)?;
    equal("consumed", ours.answer.1, rust.answer.1)?;
    equal("written", ours.answer.2, rust.answer.2)?;
    let (a, b) = (&ours.lent, &rust.lent);
    equal_states(a.state, b.state)?;
    equal_slices("history", &a.history, &b.history)?;
    equal_slices("coefficients", &a.coefficients, &b.coefficients)?;
    equal_slices("output", &ours.out, &rust.out)
}
