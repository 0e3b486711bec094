// Ours, through the C interface: one state and the two buffers that are lent with it.

use crate::capi::{marshdeck_needed, marshdeck_new, marshdeck_process, marshdeck_set_rate};
use crate::capi::{FlatAnswer, State};
use crate::engines::Stream;

pub struct Ours {
    pub state: State,
    pub history: Vec<f32>,
    pub coefficients: Vec<f32>,
}

fn accepted(answer: FlatAnswer) -> FlatAnswer {
    assert_eq!(answer.refusal, 0, "ours refused a call");
    answer
}

impl Ours {
    // Buffers of just the lengths needed. All their entries are written here, before anything is timed.
    pub fn new(source: u32, target: u32) -> Ours {
        let sizes = marshdeck_needed(source, target);
        assert_eq!(sizes.refusal, 0, "ours refused the rates");
        let mut ours = Ours {
            state: marshdeck_new(target).state,
            history: vec![1.0; sizes.history as usize],
            coefficients: vec![1.0; sizes.coefficients as usize],
        };
        ours.begin(source, target);
        ours
    }

    // A new state and its first rate, over the buffers that are there.
    pub fn begin(&mut self, source: u32, target: u32) {
        let fresh = accepted(marshdeck_new(target)).state;
        let (mem, coefs) = (&mut self.history, &mut self.coefficients);
        // SAFETY: each pointer comes with the length of its buffer, and the two stand apart.
        let answer = unsafe {
            marshdeck_set_rate(
                fresh,
                source,
                mem.as_mut_ptr(),
                mem.len(),
                coefs.as_mut_ptr(),
                coefs.len(),
            )
        };
        self.state = accepted(answer).state;
    }
}

impl Stream for Ours {
    fn process(&mut self, input: &[f32], out: &mut [f32]) -> (usize, usize) {
        let (mem, coefs) = (&mut self.history, &self.coefficients);
        // SAFETY: each pointer comes with the length of its slice; history and output stand apart from the rest.
        let answer = unsafe {
            marshdeck_process(
                self.state,
                mem.as_mut_ptr(),
                mem.len(),
                coefs.as_ptr(),
                coefs.len(),
                input.as_ptr(),
                input.len(),
                out.as_mut_ptr(),
                out.len(),
            )
        };
        let answer = accepted(answer);
        self.state = answer.state;
        (answer.consumed as usize, answer.written as usize)
    }
}
