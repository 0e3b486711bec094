// Makes a script in which ours and the Rust differ as small as it gets: it drops operations, cuts sizes and takes plainer
// values, as long as the two still differ.

use crate::compare::{equal_sides, Both, Side};
use crate::operation::{Operation, Setting};
use crate::segments::{Kind, Segment};

// A script at whose last operation the two differ.
pub struct Failure {
    pub script: Vec<Operation>,
    pub difference: String,
    pub ours: Side,
    pub rust: Side,
}

// Plays a script as far as the first difference. None: there is none, or the script cannot be played.
pub fn failure(both: &Both, script: &[Operation]) -> Option<Failure> {
    let (mut ours, mut rust) = (Side::default(), Side::default());
    for (i, operation) in script.iter().enumerate() {
        both.play(&mut ours, &mut rust, operation)?;
        if let Err(difference) = equal_sides(&ours, &rust) {
            let script = script[..=i].to_vec();
            return Some(Failure {
                script,
                difference,
                ours,
                rust,
            });
        }
    }
    None
}

// The rates that a reader knows, the plainest first.
const PLAIN_RATES: [u32; 5] = [48_000, 16_000, 8_000, 44_100, 192_000];

fn rate_weight(hz: u32) -> u64 {
    let plain = PLAIN_RATES.into_iter().position(|rate| rate == hz);
    plain.map_or(u64::from(hz), |rank| rank as u64)
}

fn segment_weight(segment: &Segment) -> u64 {
    match segment {
        Segment::Constant { sample, count } => u64::from(*sample) + *count as u64,
        Segment::Drawn {
            kind: Kind::Uniform,
            seed,
            count,
        } => (1 << 33) + u64::from(*seed) + *count as u64,
        Segment::Drawn { seed, count, .. } => (1 << 34) + u64::from(*seed) + *count as u64,
        Segment::Listed(samples) => {
            (1 << 35) + samples.iter().map(|&x| u64::from(x) + 1).sum::<u64>()
        }
    }
}

// A script has become smaller where its weight has: so shrinking ends.
fn weight(operation: &Operation) -> u64 {
    let more = match operation {
        Operation::New(hz) | Operation::Rate(hz) => rate_weight(*hz),
        Operation::Lend {
            history,
            coefficients,
            fill,
        } => (*history + *coefficients) as u64 + u64::from(*fill),
        Operation::Process { room, input } => {
            *room as u64 + input.iter().map(|s| 1 + segment_weight(s)).sum::<u64>()
        }
        Operation::Reset | Operation::Skip => 0,
        Operation::Poke { at, sample, .. } => *at as u64 + u64::from(*sample),
        Operation::Pokes { at, segment, .. } => *at as u64 + segment_weight(segment),
        Operation::Forge(settings) => settings.iter().map(|s| 1 + u64::from(s.1)).sum(),
    };
    1 + more
}

// Numbers below one, the smallest first, then closer and closer to it.
fn smaller(x: u32) -> Vec<u32> {
    let less = [
        0,
        1,
        x / 2,
        x - x / 4,
        x - x / 16,
        x - x / 64,
        x.saturating_sub(1),
    ];
    less.into_iter().filter(|&y| y < x).collect()
}

fn smaller_size(x: usize) -> impl Iterator<Item = usize> {
    smaller(x as u32).into_iter().map(|y| y as usize)
}

fn plainer_samples(count: usize) -> Vec<Segment> {
    vec![
        Segment::Constant { sample: 0, count },
        Segment::Constant {
            sample: 0x3f80_0000,
            count,
        },
        Segment::Drawn {
            kind: Kind::Uniform,
            seed: 1,
            count,
        },
    ]
}

fn smaller_segments(segment: &Segment) -> Vec<Segment> {
    let mut found = plainer_samples(segment.count());
    match *segment {
        Segment::Listed(ref samples) => {
            found.extend(
                smaller_size(samples.len())
                    .filter(|&n| n > 0)
                    .map(|n| Segment::Listed(samples[..n].to_vec())),
            );
        }
        Segment::Constant { sample, count } => {
            found.extend(smaller_size(count).map(|count| Segment::Constant { sample, count }));
        }
        Segment::Drawn { kind, seed, count } => {
            found.extend(smaller_size(count).map(|count| Segment::Drawn { kind, seed, count }));
            found.extend(smaller(seed).into_iter().map(|seed| Segment::Drawn {
                kind,
                seed,
                count,
            }));
        }
    }
    found
}

// The list without one of its items, or with another in its place.
fn changed<T: Clone>(list: &[T], plainer: impl Fn(&T) -> Vec<T>) -> Vec<Vec<T>> {
    let put = |i: usize, items: &[T]| [&list[..i], items, &list[i + 1..]].concat();
    let dropped = (0..list.len()).map(|i| put(i, &[]));
    let replaced = (0..list.len()).flat_map(|i| {
        let items = plainer(&list[i]).into_iter();
        items.map(move |item| put(i, &[item]))
    });
    dropped.chain(replaced).collect()
}

fn smaller_processes(room: usize, input: &[Segment]) -> Vec<Operation> {
    let rooms = smaller_size(room).map(|room| Operation::Process {
        room,
        input: input.to_vec(),
    });
    let inputs = changed(input, smaller_segments).into_iter();
    rooms
        .chain(inputs.map(|input| Operation::Process { room, input }))
        .collect()
}

fn smaller_settings(&(name, value): &Setting) -> Vec<Setting> {
    smaller(value)
        .into_iter()
        .map(|value| (name, value))
        .collect()
}

fn smaller_lends(history: usize, coefficients: usize, fill: u32) -> Vec<Operation> {
    let histories = smaller_size(history).map(|history| Operation::Lend {
        history,
        coefficients,
        fill,
    });
    let tables = smaller_size(coefficients).map(|coefficients| Operation::Lend {
        history,
        coefficients,
        fill,
    });
    let fills = smaller(fill).into_iter().map(|fill| Operation::Lend {
        history,
        coefficients,
        fill,
    });
    fills.chain(histories).chain(tables).collect()
}

// What could stand in for an operation.
fn plainer(operation: &Operation) -> Vec<Operation> {
    match *operation {
        Operation::New(_) => PLAIN_RATES.map(Operation::New).to_vec(),
        Operation::Rate(_) => PLAIN_RATES.map(Operation::Rate).to_vec(),
        Operation::Lend {
            history,
            coefficients,
            fill,
        } => smaller_lends(history, coefficients, fill),
        Operation::Process { room, ref input } => smaller_processes(room, input),
        Operation::Reset | Operation::Skip => Vec::new(),
        Operation::Poke { slice, at, sample } => {
            let places = smaller_size(at).map(|at| Operation::Poke { slice, at, sample });
            let samples =
                smaller(sample)
                    .into_iter()
                    .map(|sample| Operation::Poke { slice, at, sample });
            places.chain(samples).collect()
        }
        Operation::Pokes {
            slice,
            at,
            ref segment,
        } => {
            let segments = smaller_segments(segment).into_iter();
            segments
                .map(|segment| Operation::Pokes { slice, at, segment })
                .collect()
        }
        Operation::Forge(ref settings) => {
            let forges = changed(settings, smaller_settings).into_iter();
            forges.map(Operation::Forge).collect()
        }
    }
}

// The script without so many operations in a row.
fn without(script: &[Operation], count: usize) -> impl Iterator<Item = Vec<Operation>> + '_ {
    (0..=script.len() - count)
        .map(move |start| [&script[..start], &script[start + count..]].concat())
}

// How many are dropped at once: a half of them, a quarter, down to two. One by one they are dropped after that.
fn drops(length: usize) -> impl Iterator<Item = usize> {
    std::iter::successors(Some(length / 2), |&count| Some(count / 2)).take_while(|&count| count > 1)
}

// The first smaller script in which the two differ too.
fn step(both: &Both, from: &Failure) -> Option<Failure> {
    let total = |script: &[Operation]| script.iter().map(weight).sum::<u64>();
    let most = total(&from.script);
    let shorter = drops(from.script.len()).flat_map(|count| without(&from.script, count));
    shorter
        .chain(changed(&from.script, plainer))
        .filter(|script| total(script) < most)
        .find_map(|script| failure(both, &script))
}

pub fn shrunk(both: &Both, mut found: Failure) -> Failure {
    while let Some(smaller) = step(both, &found) {
        found = smaller;
    }
    found
}
