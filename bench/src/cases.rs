// What is timed: pairs of rates, and the noise that goes in.

use crate::ours::Ours;
use crate::random::Random;

pub const BLOCK: usize = 1_024;

// The noise starts again after so many samples, a number that every block size divides.
pub const NOISE: usize = 65_536;

pub struct Case {
    pub name: &'static str,
    pub source: u32,
    pub target: u32,
}

const fn case(name: &'static str, source: u32, target: u32) -> Case {
    Case {
        name,
        source,
        target,
    }
}

// Document 01's, and the recorder's clock that runs a thousandth fast.
pub const CASES: [Case; 7] = [
    case("A", 44_100, 48_000),
    case("B", 48_000, 44_100),
    case("C", 48_000, 16_000),
    case("D", 192_000, 4_000),
    case("E", 32_000, 16_000),
    case("G", 45_000, 48_000),
    DRIFT,
];

pub const DRIFT: Case = case("1000/999", 48_000, 47_952);

// Two neighbours among Fibonacci's numbers: no pair in limits asks for more steps of the greatest common divisor.
pub const MOST_STEPS: Case = case("most gcd steps", 121_393, 75_025);

impl Case {
    pub fn rates(&self) -> String {
        format!("{} to {}", self.source, self.target)
    }

    // The filter's length and the kernel, as ours has them.
    pub fn filter(&self) -> (usize, &'static str) {
        let state = Ours::new(self.source, self.target).state;
        let kernel = if state.kernel == 1 {
            "direct"
        } else {
            "interpolated"
        };
        (state.filt_len as usize, kernel)
    }

    // Enough for what a block of so many samples leads to, in every engine.
    pub fn room(&self, block: usize) -> usize {
        block * self.target as usize / self.source as usize + 4_096
    }
}

// From -1 up to 1, always the same.
pub fn noise() -> Vec<f32> {
    let mut random = Random::new(1);
    let mut sample = || (2.0 * random.fraction() - 1.0) as f32;
    (0..NOISE).map(|_| sample()).collect()
}
