// What ours says beforehand, through the C interface: how many samples a closed recording becomes, beside the quotient in 128
// bits; and how long the buffers have to be for two rates, beside document 01's numbers.
//
//     totals COUNT PAIRS             COUNT random counts with rates, and document 01's; PAIRS random pairs of rates, and others
//     totals COUNT PAIRS REFERENCE   beside a reference that is wrong: `cut`, `limit-off`, `count-first` or `filter-alone`
//
// Says what was compared and exits with 0, or names the first difference and exits with 1. With a wrong reference it has to do
// the latter.

mod capi;
mod ending;
mod lent;
mod pairs;
mod random;
mod rules;

use std::process::ExitCode;

use capi::{marshdeck_closed_total, marshdeck_needed};
use ending::ended;
use fon::engine::Numbers;
use pairs::{Pair, COMMON, OUT_OF_LIMITS};
use random::Random;
use rules::{history_needed, in_limits, rated, RATE};

// The most samples that a recording may have, and what more of them get.
const MOST: u64 = 1 << 40;
const TOO_MANY: u32 = 100;

// Refusal and total.
type Total = (u32, u64);

// Refusal, history, coefficients.
type Needed = (u32, u32, u32);

// What ours is held to.
struct Reference {
    total: fn(u64, Pair) -> Total,
    needed: fn(Pair) -> Needed,
}

fn both_in_limits((source, target): Pair) -> bool {
    in_limits(source) && in_limits(target)
}

// m * den / num is m * target / source, so the lowest terms are not asked for.
fn closed_total(m: u64, (source, target): Pair) -> Total {
    if !both_in_limits((source, target)) {
        return (RATE, 0);
    }
    if m > MOST {
        return (TOO_MANY, 0);
    }
    let quotient = (u128::from(m) * u128::from(target)).div_ceil(u128::from(source));
    (0, quotient as u64)
}

fn needed((source, target): Pair) -> Needed {
    if !both_in_limits((source, target)) {
        return (RATE, 0, 0);
    }
    let new = rated(source, target);
    let history = history_needed(&Numbers::default(), &new);
    (0, history as u32, new.table as u32)
}

// Rounds down.
fn cut(m: u64, (source, target): Pair) -> Total {
    let (refusal, _) = closed_total(m, (source, target));
    if refusal != 0 {
        return (refusal, 0);
    }
    let quotient = u128::from(m) * u128::from(target) / u128::from(source);
    (0, quotient as u64)
}

// Refuses the greatest count.
fn limit_off(m: u64, pair: Pair) -> Total {
    closed_total(m + u64::from(m == MOST), pair)
}

// Judges the count before the rates.
fn count_first(m: u64, pair: Pair) -> Total {
    if m > MOST {
        return (TOO_MANY, 0);
    }
    closed_total(m, pair)
}

// Takes the filter for the history that it needs.
fn filter_alone((source, target): Pair) -> Needed {
    let (refusal, history, coefficients) = needed((source, target));
    (refusal, history.saturating_sub(159), coefficients)
}

// None: there is no such reference.
fn reference(name: Option<&str>) -> Option<Reference> {
    let (total, needed): (fn(u64, Pair) -> Total, fn(Pair) -> Needed) = match name {
        None => (closed_total, needed),
        Some("cut") => (cut, needed),
        Some("limit-off") => (limit_off, needed),
        Some("count-first") => (count_first, needed),
        Some("filter-alone") => (closed_total, filter_alone),
        Some(_) => return None,
    };
    Some(Reference { total, needed })
}

// Document 01's "Numbers worked by hand".
const WORKED: [(u64, Pair, u64); 4] = [
    (3, (48_000, 16_000), 1),
    (4, (48_000, 16_000), 2),
    (1, (44_100, 48_000), 2),
    (172_800_000, (48_000, 47_952), 172_627_200),
];

// How many were compared, by what became of them.
#[derive(Default)]
struct Met {
    accepted: u64,
    rate: u64,
    too_many: u64,
}

impl Met {
    fn add(&mut self, refusal: u32) {
        match refusal {
            0 => self.accepted += 1,
            RATE => self.rate += 1,
            _ => self.too_many += 1,
        }
    }
}

fn meet_total(met: &mut Met, m: u64, pair: Pair, expected: Total) -> Result<(), String> {
    let (source, target) = pair;
    let ours = marshdeck_closed_total(m, source, target);
    let ours = (ours.refusal, ours.total);
    if ours != expected {
        return Err(format!(
            "{m} samples, {source} to {target}: refusal and total {ours:?}, expected {expected:?}"
        ));
    }
    met.add(expected.0);
    Ok(())
}

fn meet_needed(met: &mut Met, pair: Pair, expected: Needed) -> Result<(), String> {
    let (source, target) = pair;
    let ours = marshdeck_needed(source, target);
    let ours = (ours.refusal, ours.history, ours.coefficients);
    if ours != expected {
        return Err(format!(
            "{source} to {target}: refusal, history and coefficients {ours:?}, expected {expected:?}"
        ));
    }
    met.add(expected.0);
    Ok(())
}

// Two rates, one or both of them out of limits in one of eight draws.
fn rates(random: &mut Random) -> Pair {
    let (source, target) = pairs::random_pair(random);
    let (any, listed) = (random.word(), random.one_of(&OUT_OF_LIMITS));
    let bad = random.one_of(&[any, listed]);
    match random.below(24) {
        0 => (bad, target),
        1 => (source, bad),
        2 => (bad, bad),
        3..=8 => (random.one_of(&COMMON), random.one_of(&COMMON)),
        _ => (source, target),
    }
}

// A count of samples: next to the limit, next to a multiple of the source rate, where the quotient is whole, or of any size.
fn count(random: &mut Random, source: u32) -> u64 {
    let away = random.below(9);
    let size = random.below(64);
    match random.below(4) {
        0 => MOST - 4 + away,
        1 => (random.below(5_000_000) * u64::from(source) + away).saturating_sub(4),
        2 => random.below(MOST + 1),
        _ => random.next() >> size,
    }
}

fn worked_by_hand(met: &mut Met) -> Result<(), String> {
    WORKED
        .into_iter()
        .try_for_each(|(m, pair, total)| meet_total(met, m, pair, (0, total)))
}

fn totals(reference: &Reference, counts: u64) -> Result<(), String> {
    let mut met = Met::default();
    worked_by_hand(&mut met)?;
    let mut random = Random::new(1);
    for _ in 0..counts {
        let pair = rates(&mut random);
        let m = count(&mut random, pair.0);
        meet_total(&mut met, m, pair, (reference.total)(m, pair))?;
    }
    println!(
        "totals: {} accepted, {} refused {RATE}, {} refused {TOO_MANY}: equal",
        met.accepted, met.rate, met.too_many
    );
    Ok(())
}

// Each rate out of limits on either side, and on both.
fn bad_pairs() -> Vec<Pair> {
    OUT_OF_LIMITS
        .into_iter()
        .flat_map(|bad| [(bad, 48_000), (48_000, bad), (bad, bad)])
        .collect()
}

fn sizes(reference: &Reference, count: usize) -> Result<(), String> {
    let mut met = Met::default();
    let kinds = pairs::kinds(count).into_iter().map(|(_, pairs)| pairs);
    for pair in kinds.chain([bad_pairs()]).flatten() {
        meet_needed(&mut met, pair, (reference.needed)(pair))?;
    }
    println!(
        "lengths of buffers: {} pairs accepted, {} refused {RATE}: equal",
        met.accepted, met.rate
    );
    Ok(())
}

// None: the words ask for nothing that there is.
fn asked(words: &[String]) -> Option<Result<(), String>> {
    let (counts, pairs) = (words.get(1)?.parse().ok()?, words.get(2)?.parse().ok()?);
    let reference = reference(words.get(3).map(String::as_str))?;
    Some(totals(&reference, counts).and_then(|()| sizes(&reference, pairs)))
}

fn main() -> ExitCode {
    ended(
        asked,
        "totals COUNT PAIRS [cut|limit-off|count-first|filter-alone]",
    )
}
