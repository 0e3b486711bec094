//! The functions of `include/marshdeck.h`, each behind a safe one. All unsafe code of the crate is in this file.
//!
//! The header asks nothing of the numbers: a call with bad ones is refused. What it asks is said of pointers and of the
//! floating-point mode.
//!
//! Of pointers a slice of Rust keeps all of it: it points to as many aligned floats as it is long, each with a value;
//! nobody else writes what is lent as `&[f32]`; nobody else reads or writes what is lent as `&mut [f32]`, so that it
//! overlaps no other slice of the call. No pointer is kept when a call has returned.
//!
//! The mode, round to nearest with subnormals kept, is the one that Rust assumes of every thread.

#![allow(unsafe_code)]

use crate::{Consumed, Refusal, Sizes, State, Written};

#[repr(C)]
struct FlatAnswer {
    refusal: u32,
    consumed: u32,
    written: u32,
    state: State,
}

#[repr(C)]
struct FlatTotal {
    refusal: u32,
    total: u64,
}

#[repr(C)]
struct FlatSizes {
    refusal: u32,
    history: u32,
    coefficients: u32,
}

extern "C" {
    fn marshdeck_new(target_hz: u32) -> FlatAnswer;
    fn marshdeck_set_rate(
        state: State,
        source_hz: u32,
        mem: *mut f32,
        mem_len: usize,
        coefs: *mut f32,
        coefs_len: usize,
    ) -> FlatAnswer;
    fn marshdeck_process(
        state: State,
        mem: *mut f32,
        mem_len: usize,
        coefs: *const f32,
        coefs_len: usize,
        input: *const f32,
        input_len: usize,
        out: *mut f32,
        out_len: usize,
    ) -> FlatAnswer;
    fn marshdeck_reset(state: State, mem: *mut f32, mem_len: usize) -> FlatAnswer;
    fn marshdeck_skip(state: State) -> FlatAnswer;
    fn marshdeck_to_i16(x: f32) -> i16;
    fn marshdeck_from_i16(sample: i16) -> f32;
    fn marshdeck_sine(angle: f64) -> f64;
    fn marshdeck_closed_total(m: u64, source_hz: u32, target_hz: u32) -> FlatTotal;
    fn marshdeck_needed(source_hz: u32, target_hz: u32) -> FlatSizes;
}

/// What was answered, if it was not refused. A number that is no refusal means that the archive is another version's, and
/// then no answer of it can be read.
fn unless_refused<T>(refusal: u32, answered: T) -> Result<T, Refusal> {
    if refusal == 0 {
        return Ok(answered);
    }
    match Refusal::numbered(refusal) {
        Some(known) => Err(known),
        None => panic!("libcapi.a answered refusal {refusal}, which this version does not have"),
    }
}

pub(crate) fn new(target_hz: u32) -> Result<State, Refusal> {
    // SAFETY: no pointer is lent.
    let answer = unsafe { marshdeck_new(target_hz) };
    unless_refused(answer.refusal, answer.state)
}

pub(crate) fn set_rate(
    state: State,
    source_hz: u32,
    history: &mut [f32],
    coefficients: &mut [f32],
) -> Result<State, Refusal> {
    // SAFETY: each pointer goes with the length of its own slice. Both slices are borrowed for writing until the call is
    // over, so they do not overlap and nobody else has them.
    let answer = unsafe {
        marshdeck_set_rate(
            state,
            source_hz,
            history.as_mut_ptr(),
            history.len(),
            coefficients.as_mut_ptr(),
            coefficients.len(),
        )
    };
    unless_refused(answer.refusal, answer.state)
}

pub(crate) fn process(
    state: State,
    history: &mut [f32],
    coefficients: &[f32],
    input: &[f32],
    output: &mut [f32],
) -> Result<(State, Consumed, Written), Refusal> {
    // SAFETY: each pointer goes with the length of its own slice. The history and the output are borrowed for writing
    // until the call is over, so they overlap nothing and nobody else has them. The coefficients and the input may
    // overlap each other; nobody writes them while they are borrowed.
    let answer = unsafe {
        marshdeck_process(
            state,
            history.as_mut_ptr(),
            history.len(),
            coefficients.as_ptr(),
            coefficients.len(),
            input.as_ptr(),
            input.len(),
            output.as_mut_ptr(),
            output.len(),
        )
    };
    let consumed = Consumed(answer.consumed as usize);
    let written = Written(answer.written as usize);
    unless_refused(answer.refusal, (answer.state, consumed, written))
}

pub(crate) fn reset(state: State, history: &mut [f32]) -> Result<State, Refusal> {
    // SAFETY: the pointer goes with the length of its slice, which is borrowed for writing until the call is over.
    let answer = unsafe { marshdeck_reset(state, history.as_mut_ptr(), history.len()) };
    unless_refused(answer.refusal, answer.state)
}

pub(crate) fn skip(state: State) -> Result<State, Refusal> {
    // SAFETY: no pointer is lent.
    let answer = unsafe { marshdeck_skip(state) };
    unless_refused(answer.refusal, answer.state)
}

pub(crate) fn to_i16(x: f32) -> i16 {
    // SAFETY: no pointer is lent.
    unsafe { marshdeck_to_i16(x) }
}

pub(crate) fn from_i16(sample: i16) -> f32 {
    // SAFETY: no pointer is lent.
    unsafe { marshdeck_from_i16(sample) }
}

pub(crate) fn sine(angle: f64) -> f64 {
    // SAFETY: no pointer is lent.
    unsafe { marshdeck_sine(angle) }
}

pub(crate) fn closed_total(
    samples: Consumed,
    source_hz: u32,
    target_hz: u32,
) -> Result<Written, Refusal> {
    // SAFETY: no pointer is lent.
    let told = unsafe { marshdeck_closed_total(samples.0 as u64, source_hz, target_hz) };
    unless_refused(told.refusal, Written(told.total as usize))
}

pub(crate) fn needed(source_hz: u32, target_hz: u32) -> Result<Sizes, Refusal> {
    // SAFETY: no pointer is lent.
    let told = unsafe { marshdeck_needed(source_hz, target_hz) };
    let sizes = Sizes {
        history: told.history as usize,
        coefficients: told.coefficients as usize,
    };
    unless_refused(told.refusal, sizes)
}

#[cfg(test)]
mod tests {
    use std::mem::{offset_of, size_of};

    use super::*;
    use crate::truth;

    // The lines that bindings/layout.def has for a struct of the header, told of its twin here.
    macro_rules! layout {
        ($name:literal, $twin:ty, $($field:ident)*) => {
            [
                format!("SIZE({}, {})", $name, size_of::<$twin>()),
                $(format!("FIELD({}, {}, {})", $name, stringify!($field), offset_of!($twin, $field)),)*
            ]
        };
    }

    #[test]
    fn twins_are_laid_out_as_the_headers_structs() {
        let twins = [
            &layout!("state", State, target source num den filt_len mem_alloc_size buffer_size
                int_advance frac_advance cutoff oversample started kernel last_sample samp_frac_num
                magic_samples)[..],
            &layout!("answer", FlatAnswer, refusal consumed written state)[..],
            &layout!("total", FlatTotal, refusal total)[..],
            &layout!("sizes", FlatSizes, refusal history coefficients)[..],
        ]
        .concat();
        let list = truth::read("bindings/layout.def");
        let listed: Vec<&str> = list.lines().filter(|l| l.ends_with(')')).collect();
        assert_eq!(twins, listed);
    }
}
