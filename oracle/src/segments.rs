// The samples that a script names, and the hash and the print of samples: what the oracle's programs share.

use std::fmt::{self, Display, Formatter};

const HASH_FACTOR: u64 = 65_599;
const HASH_MODULUS: u64 = 4_294_967_291;
const ONE_NAN: u32 = 0x7fc0_0000;

// What every entry of an output slice holds before a call.
pub const UNWRITTEN: u32 = 0x4b1d_f00d;

// The entries of an `s` segment that are not like `r`.
pub const SPECIAL: [u32; 16] = [
    ONE_NAN,
    0x7f80_0000,
    0xff80_0000,
    0x0000_0001,
    0x8000_0001,
    0x007f_ffff,
    0x0080_0000,
    0x8000_0000,
    0x7f7f_ffff,
    0xff7f_ffff,
    0x3f80_0000,
    0xbf80_0000,
    0x3380_0000,
    0x0da2_4260,
    0x4b80_0000,
    0x0000_0000,
];

// A slice in which what nobody wrote is seen.
pub fn unwritten(length: usize) -> Vec<f32> {
    vec![f32::from_bits(UNWRITTEN); length]
}

// A decimal number without a sign, at most 4294967295.
pub fn number(word: &str) -> Option<u32> {
    let digits = !word.is_empty() && word.bytes().all(|b| b.is_ascii_digit());
    if digits {
        word.parse().ok()
    } else {
        None
    }
}

// Eight hex digits, lower case.
pub fn bits(word: &str) -> Option<u32> {
    let hex = |b: u8| b.is_ascii_digit() || (b'a'..=b'f').contains(&b);
    if word.len() == 8 && word.bytes().all(hex) {
        u32::from_str_radix(word, 16).ok()
    } else {
        None
    }
}

// The three ways in which samples are drawn from a seed.
#[derive(Clone, Copy, PartialEq, Eq, Debug)]
pub enum Kind {
    Uniform,
    Special,
    Subnormal,
}

impl Kind {
    fn parse(word: &str) -> Option<Kind> {
        Some(match word {
            "r" => Kind::Uniform,
            "s" => Kind::Special,
            "d" => Kind::Subnormal,
            _ => return None,
        })
    }

    fn letter(self) -> char {
        match self {
            Kind::Uniform => 'r',
            Kind::Special => 's',
            Kind::Subnormal => 'd',
        }
    }
}

// Samples as a script names them. Each is the bits of an f32.
#[derive(Clone, PartialEq, Eq, Debug)]
pub enum Segment {
    Listed(Vec<u32>),
    Constant { sample: u32, count: usize },
    Drawn { kind: Kind, seed: u32, count: usize },
}

fn listed(word: &str) -> Option<u32> {
    if word == "nan" {
        Some(ONE_NAN)
    } else {
        bits(word)
    }
}

fn uniform(x: u32) -> f32 {
    ((x >> 8) as f32 - 8_388_608.0) / 8_388_608.0
}

fn drawn(kind: Kind, x: u32) -> f32 {
    match kind {
        Kind::Special if x < 1 << 29 => f32::from_bits(SPECIAL[(x >> 25) as usize % 16]),
        Kind::Subnormal => f32::from_bits(x >> 9 | (x & 1) << 31),
        _ => uniform(x),
    }
}

impl Segment {
    // None: it is no segment.
    pub fn parse(word: &str) -> Option<Segment> {
        let (kind, rest) = word.split_once(':')?;
        if kind == "b" {
            return rest
                .split(',')
                .map(listed)
                .collect::<Option<_>>()
                .map(Segment::Listed);
        }
        let (first, count) = rest.split_once('*')?;
        let count = number(count)? as usize;
        Some(if kind == "c" {
            let sample = bits(first)?;
            Segment::Constant { sample, count }
        } else {
            let kind = Kind::parse(kind)?;
            let seed = number(first)?;
            Segment::Drawn { kind, seed, count }
        })
    }

    // How many samples it names.
    pub fn count(&self) -> usize {
        match self {
            Segment::Listed(samples) => samples.len(),
            Segment::Constant { count, .. } | Segment::Drawn { count, .. } => *count,
        }
    }

    // Adds its samples to those that are there.
    fn add_to(&self, samples: &mut Vec<f32>) {
        match *self {
            Segment::Listed(ref list) => samples.extend(list.iter().map(|&w| f32::from_bits(w))),
            Segment::Constant { sample, count } => {
                samples.resize(samples.len() + count, f32::from_bits(sample));
            }
            Segment::Drawn { kind, seed, count } => {
                let mut x = seed;
                for _ in 0..count {
                    x = x.wrapping_mul(1_664_525).wrapping_add(1_013_904_223);
                    samples.push(drawn(kind, x));
                }
            }
        }
    }
}

// The samples of all segments, one after the other.
pub fn samples(segments: &[Segment]) -> Vec<f32> {
    let mut samples = Vec::new();
    for segment in segments {
        segment.add_to(&mut samples);
    }
    samples
}

impl Display for Segment {
    fn fmt(&self, f: &mut Formatter) -> fmt::Result {
        match self {
            Segment::Listed(samples) => {
                let words: Vec<String> = samples.iter().map(|w| format!("{w:08x}")).collect();
                write!(f, "b:{}", words.join(","))
            }
            Segment::Constant { sample, count } => write!(f, "c:{sample:08x}*{count}"),
            Segment::Drawn { kind, seed, count } => write!(f, "{}:{seed}*{count}", kind.letter()),
        }
    }
}

// The bits of a number, any NaN counted as one.
pub fn word(x: f32) -> u32 {
    if x.is_nan() {
        ONE_NAN
    } else {
        x.to_bits()
    }
}

pub fn hash(slice: &[f32]) -> u64 {
    slice.iter().fold(0, |h, &x| {
        (h * HASH_FACTOR + u64::from(word(x))) % HASH_MODULUS
    })
}

fn shown(outputs: &[f32]) -> String {
    let one = |&x: &f32| {
        if x.is_nan() {
            " nan".to_string()
        } else {
            format!(" {:08x}", x.to_bits())
        }
    };
    outputs.iter().map(one).collect()
}

// All outputs where there are at most eight, else the first four and the last four, a space before each.
pub fn print(outputs: &[f32]) -> String {
    if outputs.len() <= 8 {
        shown(outputs)
    } else {
        format!(
            "{} ..{}",
            shown(&outputs[..4]),
            shown(&outputs[outputs.len() - 4..])
        )
    }
}
