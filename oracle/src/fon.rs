// The root of the crate that holds fon's speex.rs and math.rs. It must stay `no_std`: where std is in reach, `.sin()` on
// an f64 is std's sine and no longer the one that math.rs names.
#![no_std]

extern crate alloc;

mod math;
mod sine;

pub mod engine;
