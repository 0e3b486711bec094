// Every f32 there is to 16 bits, and every 16-bit sample to f32 and back: ours, through the C interface, beside whole-number
// arithmetic on the bits.
//
//     every_float              beside document 01
//     every_float half-added   beside a reference that adds a half and cuts: wrong at two of the 2^32
//     every_float bit-off      beside a reference that has one bit of one sample's f32 wrong
//     every_float sample-off   beside a reference for which one sample comes back as another
//
// Says what was compared and exits with 0, or names the first difference and exits with 1. All but the first have to do the
// latter.

mod capi;
mod sixteen;

use std::process::ExitCode;
use std::time::Instant;

use capi::{marshdeck_from_i16, marshdeck_to_i16};

// The bits of sample / 32768. The size of the sample is m, with its highest bit at `top`: 2^top * 1.f, so that the quotient is
// 2^(top - 15) * 1.f, and the bits of f are those of m below `top`, moved up to 23 places.
fn divided(sample: i16) -> u32 {
    let m = u32::from(sample.unsigned_abs());
    if m == 0 {
        return 0;
    }
    let top = m.ilog2();
    let sign = u32::from(sample < 0) << 31;
    let exponent = (127 + top - 15) << 23;
    let fraction = m << (23 - top) & 0x7f_ffff;
    sign | exponent | fraction
}

// The error that document 01 warns of: the sum is rounded, so the largest f32 below half a step becomes 1.
fn half_added(x: f32) -> i16 {
    let steps = (x.abs() * 32768.0 + 0.5).floor();
    (if x < 0.0 { -steps } else { steps }) as i16
}

fn bit_off(sample: i16) -> u32 {
    divided(sample) ^ u32::from(sample == i16::MAX)
}

fn sample_off(sample: i16) -> i16 {
    sample ^ i16::from(sample == i16::MAX)
}

fn to_16_bits(expected: impl Fn(f32) -> i16) -> Result<(), String> {
    for bits in 0..=u32::MAX {
        let x = f32::from_bits(bits);
        let ours = marshdeck_to_i16(x);
        if ours != expected(x) {
            return Err(format!(
                "the f32 with the bits {bits:08x} to 16 bits: ours {ours}, expected {}",
                expected(x)
            ));
        }
    }
    Ok(())
}

fn from_16_bits(expected: impl Fn(i16) -> u32) -> Result<(), String> {
    for sample in i16::MIN..=i16::MAX {
        let ours = marshdeck_from_i16(sample).to_bits();
        if ours != expected(sample) {
            return Err(format!(
                "the sample {sample} to an f32: ours {ours:08x}, expected {:08x}",
                expected(sample)
            ));
        }
    }
    Ok(())
}

fn there_and_back(expected: impl Fn(i16) -> i16) -> Result<(), String> {
    for sample in i16::MIN..=i16::MAX {
        let ours = marshdeck_to_i16(marshdeck_from_i16(sample));
        if ours != expected(sample) {
            return Err(format!(
                "the sample {sample} to an f32 and back: ours {ours}, expected {}",
                expected(sample)
            ));
        }
    }
    Ok(())
}

fn compared(mode: &str) -> Result<(), String> {
    match mode {
        "half-added" => to_16_bits(half_added),
        "bit-off" => from_16_bits(bit_off),
        "sample-off" => there_and_back(sample_off),
        _ => {
            from_16_bits(divided)?;
            there_and_back(|sample| sample)?;
            to_16_bits(sixteen::to_i16)
        }
    }
}

fn main() -> ExitCode {
    let mode = std::env::args().nth(1).unwrap_or_default();
    let start = Instant::now();
    if let Err(difference) = compared(&mode) {
        eprintln!("{difference}");
        return ExitCode::from(1);
    }
    println!(
        "{} f32 to 16 bits, 65536 samples to f32 and back: equal, in {:.0} s",
        1u64 << 32,
        start.elapsed().as_secs_f64()
    );
    ExitCode::SUCCESS
}
