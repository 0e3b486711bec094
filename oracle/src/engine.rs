// The Rust as an engine: sixteen numbers and two slices go in, one function of speex.rs runs, and they come out again.
// speex.rs is docs/src's, byte for byte; ratio.rs is cut out of docs/src's resampler.rs by the build script (the Kaiser
// table, `simplify` and `gcd`). No call is judged here: a caller hands in only what document 01 accepts.

use alloc::vec::Vec;
use core::mem;

use crate::math::Libm;

mod speex;

include!("ratio.rs");

use speex::{ResamplerBasicFunc, ResamplerState};

pub const NO_KERNEL: u32 = 0;
pub const DIRECT: u32 = 1;
pub const INTERPOLATED: u32 = 2;

// The numbers of a state, in the order in which an answer line prints them. `source` 0 is none; `cutoff` is bits.
#[derive(Clone, Copy, PartialEq, Eq, Debug, Default)]
pub struct Numbers {
    pub target: u32,
    pub source: u32,
    pub num: u32,
    pub den: u32,
    pub n: u32,
    pub alloc: u32,
    pub buffer: u32,
    pub int: u32,
    pub frac: u32,
    pub cutoff: u32,
    pub oversample: u32,
    pub started: u32,
    pub kernel: u32,
    pub position: u32,
    pub phase: u32,
    pub magic: u32,
}

// The kernels are private functions of speex.rs, so each is taken from a state that has just chosen it: 1/1 is direct,
// 16/17 is interpolated.
fn kernel_of(num: u32, den: u32) -> ResamplerBasicFunc {
    let mut state = ResamplerState::default();
    state.update_filter(num, den);
    state.resampler_ptr
}

// The Rust, with the kernels that its functions choose between. They are taken once: each costs a table of coefficients.
pub struct Engine {
    direct: ResamplerBasicFunc,
    interpolated: ResamplerBasicFunc,
}

impl Default for Engine {
    fn default() -> Self {
        Self {
            direct: kernel_of(1, 1),
            interpolated: kernel_of(16, 17),
        }
    }
}

fn address(kernel: ResamplerBasicFunc) -> Option<usize> {
    kernel.map(|f| f as usize)
}

// The phase as `source_hz` carries it over. Where `_muldiv` would panic it is document 01's exact quotient.
fn carried(phase: u32, den: u32, old_den: u32) -> u32 {
    let moved = if muldiv_panics(phase, den) {
        (u64::from(phase) * u64::from(den) / u64::from(old_den)) as u32
    } else {
        speex::_muldiv(phase, den, old_den)
    };
    moved.min(den - 1)
}

// Whether the Rust panics where it carries this phase over to this den.
pub fn muldiv_panics(phase: u32, den: u32) -> bool {
    phase > u32::MAX / den
}

// The sine that math.rs names.
pub fn sine(a: f64) -> f64 {
    Libm::sin(a)
}

impl Engine {
    fn pointer(&self, kernel: u32) -> ResamplerBasicFunc {
        match kernel {
            DIRECT => self.direct,
            INTERPOLATED => self.interpolated,
            _ => None,
        }
    }

    fn kernel_number(&self, chosen: ResamplerBasicFunc) -> u32 {
        [DIRECT, INTERPOLATED]
            .into_iter()
            .find(|&k| address(self.pointer(k)) == address(chosen))
            .unwrap_or(NO_KERNEL)
    }

    // A state of the Rust with these numbers, this history and these coefficients.
    fn enter(&self, numbers: &Numbers, mem: &[f32], table: &[f32]) -> ResamplerState {
        ResamplerState {
            filt_len: numbers.n,
            mem_alloc_size: numbers.alloc,
            buffer_size: numbers.buffer,
            int_advance: numbers.int,
            frac_advance: numbers.frac,
            cutoff: f32::from_bits(numbers.cutoff),
            oversample: numbers.oversample,
            started: numbers.started,
            mem: mem.to_vec(),
            sinc_table: table.to_vec(),
            sinc_table_length: table.len() as u32,
            resampler_ptr: self.pointer(numbers.kernel),
            last_sample: numbers.position,
            samp_frac_num: numbers.phase,
            magic_samples: numbers.magic,
        }
    }

    // The numbers that speex.rs keeps, read back. Rates and ratio are not among them.
    fn leave(&self, state: &ResamplerState, numbers: &mut Numbers) {
        numbers.n = state.filt_len;
        numbers.alloc = state.mem_alloc_size;
        numbers.buffer = state.buffer_size;
        numbers.int = state.int_advance;
        numbers.frac = state.frac_advance;
        numbers.cutoff = state.cutoff.to_bits();
        numbers.oversample = state.oversample;
        numbers.started = state.started;
        numbers.kernel = self.kernel_number(state.resampler_ptr);
        numbers.position = state.last_sample;
        numbers.phase = state.samp_frac_num;
        numbers.magic = state.magic_samples;
    }

    // `Resampler::new`: no source rate, ratio 0/1, the default state.
    pub fn new_state(&self, target: u32) -> Numbers {
        let mut numbers = Numbers {
            target,
            den: 1,
            ..Numbers::default()
        };
        self.leave(&ResamplerState::default(), &mut numbers);
        numbers
    }

    // `source_hz` for a rate that is not the one already set. `mem` holds the old alloc entries. Answers the history of the
    // new alloc entries, and the coefficients: a table of exactly the length needed, since none was there before.
    pub fn source_hz(&self, numbers: &mut Numbers, hz: u32, mem: &[f32]) -> (Vec<f32>, Vec<f32>) {
        let (num, den) = simplify(hz, numbers.target);
        let mut state = self.enter(numbers, mem, &[]);
        state.samp_frac_num = carried(numbers.phase, den, numbers.den);
        state.update_filter(num, den);
        self.leave(&state, numbers);
        numbers.source = hz;
        numbers.num = num;
        numbers.den = den;
        (state.mem, state.sinc_table)
    }

    // `process_float`. Answers how many samples were consumed and how many outputs written.
    pub fn process_float(
        &self,
        numbers: &mut Numbers,
        mem: &mut [f32],
        table: &[f32],
        input: &[f32],
        out: &mut [f32],
    ) -> (u32, u32) {
        let mut state = self.enter(numbers, mem, table);
        let mut consumed = input.len() as u32;
        let mut written = out.len() as u32;
        state.process_float(input, &mut consumed, out, &mut written, numbers.den);
        self.leave(&state, numbers);
        mem.copy_from_slice(&state.mem);
        (consumed, written)
    }

    // `reset_mem`.
    pub fn reset_mem(&self, numbers: &mut Numbers, mem: &mut [f32]) {
        let mut state = self.enter(numbers, mem, &[]);
        state.reset_mem();
        self.leave(&state, numbers);
        mem.copy_from_slice(&state.mem);
    }

    // `skip_zeros`.
    pub fn skip_zeros(&self, numbers: &mut Numbers) {
        let mut state = self.enter(numbers, &[], &[]);
        state.skip_zeros();
        self.leave(&state, numbers);
    }
}
