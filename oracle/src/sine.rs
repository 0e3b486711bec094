// Document 01, "Sine (added)": the steps that stand in for libm's sine in the stepped build.

use core::f64::consts::PI;

// 1!, 3!, .. 19!: each is a whole number that an f64 holds exactly.
const FACTORIALS: [f64; 10] = [
    1.0,
    6.0,
    120.0,
    5040.0,
    362880.0,
    39916800.0,
    6227020800.0,
    1307674368000.0,
    355687428096000.0,
    121645100408832000.0,
];

// Plus 1/(2i+1)! where i is even, minus where it is odd, divided once.
fn coefficient(i: usize) -> f64 {
    let c = 1.0 / FACTORIALS[i];
    if i % 2 == 1 {
        -c
    } else {
        c
    }
}

// The sine of `a`, which is at most 256 in size.
#[allow(dead_code)]
pub(crate) fn sin(a: f64) -> f64 {
    let mut negative = a.is_sign_negative();
    let mut r = a.abs() % (2.0 * PI);
    if r >= PI {
        r -= PI;
        negative = !negative;
    }
    if r > PI / 2.0 {
        r = PI - r;
    }
    let s = r * r;
    let mut sum = coefficient(9);
    for i in (0..9).rev() {
        sum = sum * s + coefficient(i);
    }
    let value = sum * r;
    if negative {
        -value
    } else {
        value
    }
}
