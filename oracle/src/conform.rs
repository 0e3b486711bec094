// Document 01, "Small program", with the Rust as its resampler: a PCM file from standard input, what becomes of it on
// standard output.

use std::io::{self, Read, Write};

use crate::lent::{Entries, Lent};
use crate::rules::{in_limits, rated, Rules, RATE};
use crate::sixteen::{from_i16, to_i16};

const HEADER: usize = 13;
const MARK: u32 = 8;
const VERSION: u32 = 9;

fn rates(file: &[u8]) -> Result<(u32, u32), u32> {
    if file.len() < HEADER || &file[..3] != b"DVS" {
        return Err(MARK);
    }
    if u16::from_le_bytes([file[3], file[4]]) != 1 {
        return Err(VERSION);
    }
    let source = u32::from_le_bytes(file[5..9].try_into().unwrap());
    let target = u32::from_le_bytes(file[9..13].try_into().unwrap());
    if !in_limits(source) || !in_limits(target) {
        return Err(RATE);
    }
    Ok((source, target))
}

// All outputs of the samples and the n/2 zeros after them. The calls are cut at 1,000 samples with room for 700 outputs,
// so that samples are offered again and rooms fill up on the way.
fn resampled(samples: &[f32], source: u32, target: u32) -> Vec<f32> {
    let rules = Rules::default();
    let mut lent = Lent::longest();
    assert_eq!(rules.new_state(&mut lent, target).0, 0);
    assert_eq!(rules.set_rate(&mut lent, source).0, 0);
    let mut stream = samples.to_vec();
    if !samples.is_empty() {
        stream.resize(samples.len() + rated(source, target).n as usize / 2, 0.0);
    }
    let mut all = Vec::new();
    let mut out = [0.0; 700];
    let mut read = 0;
    while read < stream.len() {
        let end = stream.len().min(read + 1_000);
        let (refusal, consumed, written) = rules.process(&mut lent, &stream[read..end], &mut out);
        assert_eq!(refusal, 0);
        read += consumed as usize;
        all.extend_from_slice(&out[..written as usize]);
    }
    all
}

fn conformed(file: &[u8]) -> Vec<u8> {
    let (source, target) = match rates(file) {
        Ok(pair) => pair,
        Err(number) => return format!("refused {number}\n").into_bytes(),
    };
    let pairs = file[HEADER..].chunks_exact(2);
    if source == target {
        return pairs.flatten().copied().collect();
    }
    let samples: Vec<f32> = pairs
        .map(|b| from_i16(i16::from_le_bytes([b[0], b[1]])))
        .collect();
    let outputs = resampled(&samples, source, target);
    outputs
        .iter()
        .flat_map(|&x| to_i16(x).to_le_bytes())
        .collect()
}

pub fn conform() -> io::Result<()> {
    let mut file = Vec::new();
    io::stdin().read_to_end(&mut file)?;
    io::stdout().write_all(&conformed(&file))
}
