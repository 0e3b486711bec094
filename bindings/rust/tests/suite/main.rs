//! The crate held to answers that the Rust made, and to what the written rules say.

mod header;
mod recording;
mod refusals;
mod replay;
#[allow(dead_code)] // The oracle uses more of it.
#[path = "../../../../oracle/src/segments.rs"]
mod segments;
mod truth;
mod values;

/// The samples of a script's segments.
fn drawn(words: &[&str]) -> Vec<f32> {
    let parsed = words.iter().map(|word| segments::Segment::parse(word));
    segments::samples(&parsed.collect::<Option<Vec<_>>>().expect("segments"))
}

/// `count` samples between -1 and 1, the same ones for the same seed.
fn noise(seed: u32, count: usize) -> Vec<f32> {
    drawn(&[&format!("r:{seed}*{count}")])
}

/// The bits of samples: they tell -0.0 from 0.0, and a NaN is equal to itself.
fn bits(samples: &[f32]) -> Vec<u32> {
    samples.iter().map(|x| x.to_bits()).collect()
}
