// Document 01, "Small program": between f32 and signed 16-bit samples. The way to 16 bits is whole-number arithmetic on
// the bits of the f32, so it is exact.

// A finite f32 is m * 2^(e - 150); times 32768 that is m * 2^(e - 135).
fn magnitude(bits: u32) -> u64 {
    let exponent = bits >> 23 & 0xff;
    let fraction = u64::from(bits & 0x7f_ffff);
    let (m, e) = if exponent == 0 {
        (fraction, 1)
    } else {
        (fraction | 0x80_0000, exponent)
    };
    if e >= 135 {
        // 2^23 or more: past every clamp, however far it would be shifted.
        m
    } else {
        let cut = 135 - e;
        // m is below 2^24, so from 26 places on the half that is added cannot carry it to 1.
        if cut > 25 {
            0
        } else {
            (m + (1 << (cut - 1))) >> cut
        }
    }
}

// The nearest whole number to 32768 x, a half away from zero, clamped to 16 bits. NaN gives 0.
pub fn to_i16(x: f32) -> i16 {
    if x.is_nan() {
        return 0;
    }
    let steps = magnitude(x.to_bits()) as i64;
    if x.is_sign_negative() {
        (-steps).max(-32768) as i16
    } else {
        steps.min(32767) as i16
    }
}

pub fn from_i16(sample: i16) -> f32 {
    f32::from(sample) / 32768.0
}
