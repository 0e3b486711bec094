// Rates, and pairs of them, source and target, of every kind.

use fon::engine::DIRECT;

use crate::random::Random;
use crate::rules::{common_divisor, in_limits, rated, HIGHEST, LOWEST};

pub type Pair = (u32, u32);

// Document 01's cases A to H; I to L are at the rates of C.
const WORKED: [Pair; 8] = [
    (44_100, 48_000),
    (48_000, 44_100),
    (48_000, 16_000),
    (192_000, 4_000),
    (32_000, 16_000),
    (42_000, 20_000),
    (45_000, 48_000),
    (48_000, 51_000),
];

// The limits, what is next to them, and what is next to half and twice of them.
const EDGES: [u32; 12] = [
    4_000, 4_001, 4_002, 7_999, 8_000, 8_001, 95_999, 96_000, 96_001, 191_998, 191_999, 192_000,
];

// Rates that recorders, telephones, discs and films have.
pub const COMMON: [u32; 22] = [
    6_000, 8_000, 11_025, 12_000, 16_000, 18_900, 22_050, 24_000, 32_000, 37_800, 44_056, 44_100,
    47_250, 47_952, 48_000, 48_048, 50_000, 64_000, 88_200, 96_000, 176_400, 192_000,
];

// Rates that are refused.
pub const OUT_OF_LIMITS: [u32; 6] = [0, 1, LOWEST - 1, HIGHEST + 1, 1 << 31, u32::MAX];

// Each with each, itself too.
fn each_with_each(rates: &[u32]) -> Vec<Pair> {
    rates
        .iter()
        .flat_map(|&source| rates.iter().map(move |&target| (source, target)))
        .collect()
}

// The lowest rates in limits with the ratio num/den, where that is in lowest terms and its kernel is direct.
fn direct_at(num: u32, den: u32) -> Option<Pair> {
    let factor = LOWEST.div_ceil(num.min(den));
    let (source, target) = (num * factor, den * factor);
    if common_divisor(num, den) != 1 || !in_limits(source) || !in_limits(target) {
        return None;
    }
    (rated(source, target).kernel == DIRECT).then_some((source, target))
}

// Every ratio that has the direct kernel, once: its den is at most 16, the highest oversample.
fn direct() -> Vec<Pair> {
    (1..=16)
        .flat_map(|den| (1..=48 * den).filter_map(move |num| direct_at(num, den)))
        .collect()
}

// A rate in limits, as often low as high.
fn rate(random: &mut Random) -> u32 {
    let span = (HIGHEST - LOWEST) >> random.below(7);
    random.between(LOWEST, LOWEST + span)
}

// Where the source is the lower rate and the kernel is interpolated, the coefficients are always the same ones; so seven in
// eight pairs have the higher rate first.
pub fn random_pair(random: &mut Random) -> Pair {
    let (a, b) = (rate(random), rate(random));
    if random.below(8) == 0 {
        (a, b)
    } else {
        (a.max(b), a.min(b))
    }
}

// All kinds by name; `count` of the random ones.
pub fn kinds(count: usize) -> Vec<(&'static str, Vec<Pair>)> {
    let mut random = Random::new(1);
    let drawn = (0..count).map(|_| random_pair(&mut random)).collect();
    vec![
        ("worked by hand", WORKED.to_vec()),
        ("at the limits", each_with_each(&EDGES)),
        ("common", each_with_each(&COMMON)),
        ("direct, all there are", direct()),
        ("random", drawn),
    ]
}
