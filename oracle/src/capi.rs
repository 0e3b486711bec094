// Ours, as include/marshdeck.h declares it to C.

// marshdeck_state, as the bindings for Rust have it.
#[path = "../../bindings/rust/src/state.rs"]
mod state;

pub use state::State;

// marshdeck_answer.
#[repr(C)]
pub struct FlatAnswer {
    pub refusal: u32,
    pub consumed: u32,
    pub written: u32,
    pub state: State,
}

// marshdeck_total.
#[repr(C)]
pub struct Total {
    pub refusal: u32,
    pub total: u64,
}

// marshdeck_sizes.
#[repr(C)]
pub struct Sizes {
    pub refusal: u32,
    pub history: u32,
    pub coefficients: u32,
}

// A call without a pointer is safe whatever it is given.
unsafe extern "C" {
    pub safe fn marshdeck_new(target_hz: u32) -> FlatAnswer;

    pub fn marshdeck_set_rate(
        state: State,
        source_hz: u32,
        mem: *mut f32,
        mem_len: usize,
        coefs: *mut f32,
        coefs_len: usize,
    ) -> FlatAnswer;

    pub fn marshdeck_process(
        state: State,
        mem: *mut f32,
        mem_len: usize,
        coefs: *const f32,
        coefs_len: usize,
        input: *const f32,
        in_len: usize,
        out: *mut f32,
        out_len: usize,
    ) -> FlatAnswer;

    pub fn marshdeck_reset(state: State, mem: *mut f32, mem_len: usize) -> FlatAnswer;

    pub safe fn marshdeck_skip(state: State) -> FlatAnswer;

    pub safe fn marshdeck_to_i16(x: f32) -> i16;

    pub safe fn marshdeck_from_i16(sample: i16) -> f32;

    pub safe fn marshdeck_sine(angle: f64) -> f64;

    pub safe fn marshdeck_closed_total(m: u64, source_hz: u32, target_hz: u32) -> Total;

    pub safe fn marshdeck_needed(source_hz: u32, target_hz: u32) -> Sizes;
}
