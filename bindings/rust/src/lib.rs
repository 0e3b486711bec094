//! A verified resampler for one channel of f32 sound, from any source rate to a target rate, both from 4,000 to
//! 192,000 Hz.
//!
//! The resampler is written and proved in Rattle; this crate calls it through its C interface and owns what that has to
//! be lent: the state, the history and the coefficients. What comes out is what the Rust crate fon's resampler makes, but
//! for the differences that the repository lists in `docs/DIFFERENCES.md`.
//!
//! A call may read less than it was given: what it did not read is offered again. A recording is closed by
//! [`closing_zeros`](Resampler::closing_zeros) after its last sample, and then it has as many outputs as
//! [`closed_total`] tells, if it began with a new resampler and its first rate, or with
//! [`reset`](Resampler::reset) and then [`skip_zeros`](Resampler::skip_zeros), and kept that rate.
//!
//! ```
//! use marshdeck::{closed_total, Consumed, Refusal, Resampler, Written, MAX_CALL};
//!
//! // All outputs of a recording.
//! fn pull(samples: &[f32], source_hz: u32, target_hz: u32) -> Result<Vec<f32>, Refusal> {
//!     let mut resampler = Resampler::new(target_hz)?;
//!     resampler.set_source_hz(source_hz)?;
//!     let mut stream = samples.to_vec();
//!     stream.resize(samples.len() + resampler.closing_zeros(), 0.0);
//!     let mut outputs = Vec::new();
//!     let mut room = [0.0; 1024];
//!     let mut unread = &stream[..];
//!     while !unread.is_empty() {
//!         let offered = &unread[..unread.len().min(MAX_CALL)];
//!         let (consumed, written) = resampler.process(offered, &mut room)?;
//!         unread = &unread[consumed.0..];
//!         outputs.extend_from_slice(&room[..written.0]);
//!     }
//!     Ok(outputs)
//! }
//!
//! let outputs = pull(&[0.25; 4800], 48_000, 47_952)?;
//! assert_eq!(closed_total(Consumed(4800), 48_000, 47_952)?, Written(outputs.len()));
//! # Ok::<(), Refusal>(())
//! ```

#![deny(unsafe_code)]
#![warn(missing_docs)]

#[cfg(not(all(target_arch = "x86_64", target_os = "linux")))]
compile_error!("libcapi.a is made for x86-64 Linux alone");

mod refusal;
mod state;
mod sys;

#[cfg(test)]
#[path = "../tests/suite/truth.rs"]
mod truth;

use std::fmt;

pub use refusal::Refusal;
pub use state::State;

/// The version of `include/marshdeck.h` that this crate is written for.
pub const VERSION: u32 = 1;

/// The longest history that two rates in limits need.
pub const MAX_HISTORY: usize = 7_839;

/// The most coefficients that two rates in limits need.
pub const MAX_COEFFICIENTS: usize = 7_688;

/// The most samples that one call takes, and the most that it gives.
pub const MAX_CALL: usize = 16_777_216;

/// A count of samples read from an input. It is another type than [`Written`], so that one can't be passed for the other.
#[derive(Clone, Copy, Debug, Default, PartialEq, Eq, PartialOrd, Ord, Hash)]
pub struct Consumed(pub usize);

/// A count of samples written to an output.
#[derive(Clone, Copy, Debug, Default, PartialEq, Eq, PartialOrd, Ord, Hash)]
pub struct Written(pub usize);

/// How long the two buffers have to be for a pair of rates. A [`Resampler`] sees to that itself.
#[derive(Clone, Copy, Debug, PartialEq, Eq)]
pub struct Sizes {
    /// Entries of the history of a new state.
    pub history: usize,
    /// Coefficients.
    pub coefficients: usize,
}

/// A resampler for one stream: a state with the history and the coefficients that belong to it.
///
/// It is plain data: it may go to another thread, and a clone goes on from where it was taken, on its own.
#[derive(Clone)]
pub struct Resampler {
    state: State,
    // These two only grow, so the history is never shorter than what the state uses of it.
    history: Vec<f32>,
    coefficients: Vec<f32>,
}

impl Resampler {
    /// A resampler to a target rate. It has no source rate yet.
    ///
    /// # Errors
    ///
    /// [`Refusal::Rate`].
    pub fn new(target_hz: u32) -> Result<Self, Refusal> {
        Ok(Resampler {
            state: sys::new(target_hz)?,
            history: Vec::new(),
            coefficients: Vec::new(),
        })
    }

    /// Sets the source rate. It may be set anew in the middle of a stream: its samples are carried over. The rate that
    /// is set already changes nothing.
    ///
    /// Equal rates are resampled like all others. A caller who wants a copy makes one.
    ///
    /// # Errors
    ///
    /// [`Refusal::Rate`].
    pub fn set_source_hz(&mut self, hz: u32) -> Result<(), Refusal> {
        let sizes = needed(hz, self.state.target)?;
        grow(&mut self.history, sizes.history);
        grow(&mut self.coefficients, sizes.coefficients);
        self.state = sys::set_rate(self.state, hz, &mut self.history, &mut self.coefficients)?;
        Ok(())
    }

    /// Resamples: reads from the input and writes to the output until one of them is used up. What was not consumed has to
    /// be offered again. An output without room is accepted. Past what was written the output keeps what it had.
    ///
    /// The samples that a rate change left over are played first, so a call may write outputs and yet consume nothing: 0
    /// consumed does not mean the end.
    ///
    /// # Errors
    ///
    /// In this order: [`Refusal::NoRate`], [`Refusal::EmptyInput`], [`Refusal::TooLong`].
    pub fn process(
        &mut self,
        input: &[f32],
        output: &mut [f32],
    ) -> Result<(Consumed, Written), Refusal> {
        let (state, consumed, written) = sys::process(
            self.state,
            &mut self.history,
            &self.coefficients,
            input,
            output,
        )?;
        self.state = state;
        Ok((consumed, written))
    }

    /// Makes the resampler ready for another stream at the same rates: the history becomes silence. The position becomes 0,
    /// so the filter's run-in comes out too; [`skip_zeros`](Resampler::skip_zeros) leaves it out, as for a first stream.
    ///
    /// # Errors
    ///
    /// None that a resampler can meet.
    pub fn reset(&mut self) -> Result<(), Refusal> {
        self.state = sys::reset(self.state, &mut self.history)?;
        Ok(())
    }

    /// Leaves out the filter's run-in: the position becomes half the filter's length.
    ///
    /// # Errors
    ///
    /// None that a resampler can meet.
    pub fn skip_zeros(&mut self) -> Result<(), Refusal> {
        self.state = sys::skip(self.state)?;
        Ok(())
    }

    /// How many zeros after its last sample close a recording: half the filter's length. 0 before a source rate is set.
    pub fn closing_zeros(&self) -> usize {
        self.state.filt_len as usize / 2
    }

    /// The numbers as the last accepted call left them.
    pub fn state(&self) -> &State {
        &self.state
    }
}

impl fmt::Debug for Resampler {
    // The thousands of samples and coefficients would hide the numbers.
    fn fmt(&self, f: &mut fmt::Formatter<'_>) -> fmt::Result {
        f.debug_struct("Resampler")
            .field("state", &self.state)
            .finish_non_exhaustive()
    }
}

// What is there stays. The resampler itself clears new entries of the history once it uses them.
fn grow(buffer: &mut Vec<f32>, needed: usize) {
    if buffer.len() < needed {
        buffer.resize(needed, 0.0);
    }
}

/// How many outputs a closed recording of these samples has: samples \* den / num, rounded up. Closed means that
/// [`closing_zeros`](Resampler::closing_zeros) were read after its samples; they are not among those that are counted here.
///
/// This is told of a recording that began with a new resampler and its first rate, or with [`reset`](Resampler::reset) and
/// then [`skip_zeros`](Resampler::skip_zeros), and that kept its rate. Of any other the outputs may be more or fewer.
///
/// # Errors
///
/// In this order: [`Refusal::Rate`], [`Refusal::TooMany`].
pub fn closed_total(samples: Consumed, source_hz: u32, target_hz: u32) -> Result<Written, Refusal> {
    sys::closed_total(samples, source_hz, target_hz)
}

/// How long the buffers have to be for these two rates.
///
/// # Errors
///
/// [`Refusal::Rate`].
pub fn needed(source_hz: u32, target_hz: u32) -> Result<Sizes, Refusal> {
    sys::needed(source_hz, target_hz)
}

/// A sample times 32768, to the nearest whole number, halves away from zero, clamped. NaN gives 0.
pub fn to_i16(x: f32) -> i16 {
    sys::to_i16(x)
}

/// A 16-bit sample divided by 32768, exactly.
pub fn from_i16(sample: i16) -> f32 {
    sys::from_i16(sample)
}

/// The sine that the coefficients are made with. It is meant for angles up to 256 in size.
pub fn sine(angle: f64) -> f64 {
    sys::sine(angle)
}

// The Rust of the page about all bindings is compiled and run with the examples of this crate.
#[cfg(doctest)]
#[doc = include_str!("../../README.md")]
struct Readme;
