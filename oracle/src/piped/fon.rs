// The root of a crate in which fon's resampler.rs, speex.rs and math.rs stand unchanged. The types that resampler.rs asks
// for are small ones in place of fon's own: enough for `pipe` and `flush` of f32 samples, which they hand on as they are.
// It must stay `no_std`: where std is in reach, `.sin()` on an f64 is std's sine.
#![no_std]

extern crate alloc;

mod audio;
mod math;
mod resampler;

pub mod chan;
pub mod frame;

pub use audio::{Audio, Sink};
pub use resampler::Resampler;
