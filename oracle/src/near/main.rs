// How near ours comes to the Rust, at many points: ours through the C interface, the Rust from the build that this is compiled
// over.
//
//     near sine BOUND COUNT           COUNT angles of each kind
//     near coefficients BOUND COUNT   COUNT random pairs of rates, and 912 others: every coefficient
//
// BOUND is a whole number K where the two may be 2^-K apart, or `same` where the bits have to be equal. Says for each kind how
// far apart they are at most, and where, and exits with 0; or names the first two that are too far apart and exits with 1.

mod angles;
mod bound;
#[path = "../capi.rs"]
mod capi;
#[path = "../compare.rs"]
mod compare;
#[path = "../ending.rs"]
mod ending;
#[path = "../lent.rs"]
mod lent;
#[path = "../operation.rs"]
mod operation;
#[path = "../ours.rs"]
mod ours;
#[path = "../pairs.rs"]
mod pairs;
#[path = "../random.rs"]
mod random;
#[path = "../replay.rs"]
mod replay;
#[path = "../rules.rs"]
mod rules;
#[path = "../segments.rs"]
mod segments;

use std::process::ExitCode;

use bound::{Bound, Met};
use capi::marshdeck_sine;
use compare::{equal, equal_slices, equal_states, Both, Side};
use ending::ended;
use fon::engine;
use pairs::Pair;
use random::Random;

fn meet_sines(name: &str, bound: Bound, drawn: impl Iterator<Item = f64>) -> Result<(), String> {
    let mut met = Met::new(bound);
    for angle in drawn {
        assert!(angle.abs() <= angles::LARGEST);
        met.meet(marshdeck_sine(angle), engine::sine(angle), || {
            format!("the angle {angle:e}, bits {:016x}", angle.to_bits())
        })?;
    }
    println!("sine, {name}: {}", met.shown());
    Ok(())
}

fn sine(bound: Bound, count: usize) -> Result<(), String> {
    meet_sines("chosen", bound, angles::CHOSEN.into_iter())?;
    let mut random = Random::new(1);
    for (name, draw) in angles::KINDS {
        meet_sines(name, bound, (0..count).map(|_| draw(&mut random)))?;
    }
    Ok(())
}

fn equal_but_coefficients(ours: &Side, rust: &Side) -> Result<(), String> {
    equal("refusal", ours.answer.0, rust.answer.0)?;
    equal_states(ours.lent.state, rust.lent.state)?;
    equal_slices("history", &ours.lent.history, &rust.lent.history)
}

// Everything that two rates give a new state: the coefficients as near as the bound asks, the rest equal.
fn meet_rates(met: &mut Met, both: &Both, (source, target): Pair) -> Result<(), String> {
    let at = |what: &str| format!("{source} to {target}, {what}");
    let (ours, rust) = both.at_rates(source, target);
    equal_but_coefficients(&ours, &rust).map_err(|difference| at(&difference))?;
    let coefficients = ours.lent.coefficients.iter().zip(&rust.lent.coefficients);
    for (i, (&a, &b)) in coefficients.enumerate() {
        let place = || at(&format!("coefficient {i}"));
        met.meet(a.into(), b.into(), place)?;
    }
    Ok(())
}

fn coefficients(bound: Bound, count: usize) -> Result<(), String> {
    let both = Both::new();
    for (name, pairs) in pairs::kinds(count) {
        let mut met = Met::new(bound);
        pairs
            .iter()
            .try_for_each(|&pair| meet_rates(&mut met, &both, pair))?;
        println!(
            "coefficients, {name}: {} pairs, {}",
            pairs.len(),
            met.shown()
        );
    }
    Ok(())
}

// None: the words ask for nothing that there is.
fn asked(words: &[String]) -> Option<Result<(), String>> {
    let [_, what, bound, count] = words else {
        return None;
    };
    let bound = Bound::named(bound)?;
    let count = count.parse().ok()?;
    match what.as_str() {
        "sine" => Some(sine(bound, count)),
        "coefficients" => Some(coefficients(bound, count)),
        _ => None,
    }
}

fn main() -> ExitCode {
    ended(asked, "near sine|coefficients same|K COUNT")
}
