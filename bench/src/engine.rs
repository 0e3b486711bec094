// The Rust as one stream whose state is kept from call to call, as fon's `Resampler` keeps it: no number and no entry is
// copied around a call. The build puts this file in the place of the oracle's engine.rs; speex.rs is docs/src's, byte for
// byte, and ratio.rs is cut out of docs/src's resampler.rs.

use core::mem;

mod speex;

include!("ratio.rs");

use speex::ResamplerState;

pub struct Kept {
    den: u32,
    state: ResamplerState,
}

impl Kept {
    // `Resampler::new`, and `source_hz` for its first rate: there is no phase yet to carry over.
    pub fn new(source: u32, target: u32) -> Kept {
        let (num, den) = simplify(source, target);
        let mut state = ResamplerState::default();
        state.update_filter(num, den);
        Kept { den, state }
    }

    // `process_float`. Answers how many samples were consumed and how many outputs written.
    pub fn process(&mut self, input: &[f32], out: &mut [f32]) -> (usize, usize) {
        let mut consumed = input.len() as u32;
        let mut written = out.len() as u32;
        self.state
            .process_float(input, &mut consumed, out, &mut written, self.den);
        (consumed as usize, written as usize)
    }

    pub fn history(&self) -> &[f32] {
        &self.state.mem
    }

    pub fn coefficients(&self) -> &[f32] {
        &self.state.sinc_table
    }
}
