// Angles of at most 256 in size, of every kind that a sine could stumble over.

use std::f64::consts::PI;

use crate::random::Random;

pub const LARGEST: f64 = 256.0;

// The exponent field of the largest f64 below 256.
const LAST_EXPONENT: u64 = 1030;

// No multiple of pi/2 beyond this one is within 256.
const LAST_QUARTER: u64 = 162;

pub const CHOSEN: [f64; 14] = [
    0.0,
    -0.0,
    5e-324,
    -5e-324,
    f64::MIN_POSITIVE,
    -f64::MIN_POSITIVE,
    PI / 2.0,
    -PI / 2.0,
    PI,
    -PI,
    2.0 * PI,
    -2.0 * PI,
    LARGEST,
    -LARGEST,
];

fn signed(random: &mut Random, size: f64) -> f64 {
    if random.below(2) == 0 {
        size
    } else {
        -size
    }
}

// A number of steps from one f64 to the next, as often few as many: below 2^e for an e below `end`.
fn steps(random: &mut Random, end: u64) -> u64 {
    let e = random.below(end);
    random.below(1 << e)
}

fn uniform(random: &mut Random) -> f64 {
    let size = random.fraction() * LARGEST;
    signed(random, size)
}

// Where the reduction changes its course: beside pi/2, pi, 3pi/2 and so on, from some steps to 2^-5 away.
fn beside_quarters(random: &mut Random) -> f64 {
    let quarter = (1 + random.below(LAST_QUARTER)) as f64 * (PI / 2.0);
    let away = steps(random, 41);
    let bits = if random.below(2) == 0 {
        quarter.to_bits() + away
    } else {
        quarter.to_bits() - away
    };
    signed(random, f64::from_bits(bits))
}

// Every exponent is as likely as every other, so most of these are tiny.
fn any_exponent(random: &mut Random) -> f64 {
    let exponent = random.below(LAST_EXPONENT + 1);
    let fraction = random.below(1 << 52);
    signed(random, f64::from_bits(exponent << 52 | fraction))
}

fn subnormal(random: &mut Random) -> f64 {
    let fraction = random.below(1 << 52);
    signed(random, f64::from_bits(fraction))
}

fn below_the_end(random: &mut Random) -> f64 {
    let away = steps(random, 45);
    signed(random, f64::from_bits(LARGEST.to_bits() - away))
}

// Pi times an f32, as every angle is that a coefficient asks for; 81.48 times pi is just below 256.
fn of_coefficients(random: &mut Random) -> f64 {
    let size = (random.fraction() * 81.48) as f32;
    signed(random, PI * f64::from(size))
}

pub const KINDS: [(&str, fn(&mut Random) -> f64); 6] = [
    ("uniform up to 256", uniform),
    ("beside multiples of pi/2", beside_quarters),
    ("of any exponent", any_exponent),
    ("subnormal", subnormal),
    ("just below 256", below_the_end),
    ("pi times an f32", of_coefficients),
];
