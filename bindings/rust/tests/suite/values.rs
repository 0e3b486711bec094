//! Single values, held to `crates/vectors/data`: the 16-bit conversion, the sine, totals; and to document 01's table of cases.

use marshdeck::{closed_total, from_i16, needed, sine, to_i16, Consumed, Refusal, Sizes, Written};

use crate::truth;

#[test]
fn sixteen_bits_by_the_vectors() {
    let vectors = truth::read("crates/vectors/data/to_i16.txt");
    for line in vectors.lines() {
        let (from, to) = line.split_once(' ').expect("two words");
        let x = f32::from_bits(u32::from_str_radix(from, 16).expect("bits"));
        let sample = u16::from_str_radix(to, 16).expect("bits") as i16;
        assert_eq!(to_i16(x), sample, "{line}");
    }
    assert_eq!(vectors.lines().count(), 6_000);
}

#[test]
fn every_sample_goes_there_and_back() {
    for sample in i16::MIN..=i16::MAX {
        assert_eq!(from_i16(sample), f32::from(sample) / 32_768.0);
        assert_eq!(to_i16(from_i16(sample)), sample);
    }
}

// The vectors are libm's sines: document 01 asks for ours within 2^-40 of them.
#[test]
fn sines_by_the_vectors() {
    let vectors = truth::read("crates/vectors/data/sine.txt");
    let double = |word| f64::from_bits(u64::from_str_radix(word, 16).expect("bits"));
    for line in vectors.lines() {
        let (angle, expected) = line.split_once(' ').expect("two words");
        let off = (sine(double(angle)) - double(expected)).abs();
        assert!(off <= 2.0_f64.powi(-40), "{line}");
    }
    assert_eq!(vectors.lines().count(), 2_000);
}

fn told(samples: usize, source_hz: u32, target_hz: u32) -> String {
    match closed_total(Consumed(samples), source_hz, target_hz) {
        Ok(Written(total)) => format!("total {total:012}"),
        Err(Refusal::TooMany) => format!("many {:012}", 0),
        Err(refusal) => format!("refused {:012}", refusal.number()),
    }
}

#[test]
fn closed_totals_by_the_vectors() {
    let vectors = truth::read("crates/vectors/data/limits.txt");
    let closed = vectors.lines().filter(|line| line.starts_with("closed"));
    for line in closed.clone() {
        let words: Vec<&str> = line.split_whitespace().collect();
        let [_, source, target, samples, _, kind, answer] = words[..] else {
            panic!("not seven words: {line}");
        };
        let rate = |word: &str| word.parse().expect("a rate");
        let told = told(
            samples.parse().expect("a count"),
            rate(source),
            rate(target),
        );
        assert_eq!(told, format!("{kind} {answer}"), "{line}");
    }
    assert_eq!(closed.count(), 8);
}

#[test]
fn sizes_of_cases_a_to_h() {
    let cases = [
        (44_100, 48_000, 160, 2_568),
        (48_000, 44_100, 176, 2_824),
        (48_000, 16_000, 480, 480),
        (192_000, 4_000, 7_680, 7_680),
        (32_000, 16_000, 320, 320),
        (42_000, 20_000, 336, 2_696),
        (45_000, 48_000, 160, 2_560),
        (48_000, 51_000, 160, 2_568),
    ];
    for (source_hz, target_hz, n, coefficients) in cases {
        let history = n + 159;
        let sizes = Sizes {
            history,
            coefficients,
        };
        assert_eq!(needed(source_hz, target_hz), Ok(sizes));
    }
}
