// Ours, through the C interface, as one more that answers: the five entries as a C caller reaches them.

use fon::engine::Numbers;

use crate::capi::{self, FlatAnswer, State};
use crate::lent::{Answer, Entries, Lent};

fn enter(numbers: &Numbers) -> State {
    State {
        target: numbers.target,
        source: numbers.source,
        num: numbers.num,
        den: numbers.den,
        filt_len: numbers.n,
        mem_alloc_size: numbers.alloc,
        buffer_size: numbers.buffer,
        int_advance: numbers.int,
        frac_advance: numbers.frac,
        cutoff: f32::from_bits(numbers.cutoff),
        oversample: numbers.oversample,
        started: numbers.started,
        kernel: numbers.kernel,
        last_sample: numbers.position,
        samp_frac_num: numbers.phase,
        magic_samples: numbers.magic,
    }
}

fn leave(answered: &FlatAnswer, numbers: &mut Numbers) -> Answer {
    let state = &answered.state;
    *numbers = Numbers {
        target: state.target,
        source: state.source,
        num: state.num,
        den: state.den,
        n: state.filt_len,
        alloc: state.mem_alloc_size,
        buffer: state.buffer_size,
        int: state.int_advance,
        frac: state.frac_advance,
        cutoff: state.cutoff.to_bits(),
        oversample: state.oversample,
        started: state.started,
        kernel: state.kernel,
        position: state.last_sample,
        phase: state.samp_frac_num,
        magic: state.magic_samples,
    };
    (answered.refusal, answered.consumed, answered.written)
}

// How a slice is lent: `call` gets a pointer to entries that are as many and the same, and what it writes there is in the
// slice afterwards.
pub trait Lending {
    fn to_read<R>(&self, slice: &[f32], call: impl FnOnce(*const f32) -> R) -> R;
    fn to_write<R>(&self, slice: &mut [f32], call: impl FnOnce(*mut f32) -> R) -> R;
}

// Ours gets the slices themselves.
pub struct Itself;

impl Lending for Itself {
    fn to_read<R>(&self, slice: &[f32], call: impl FnOnce(*const f32) -> R) -> R {
        call(slice.as_ptr())
    }

    fn to_write<R>(&self, slice: &mut [f32], call: impl FnOnce(*mut f32) -> R) -> R {
        call(slice.as_mut_ptr())
    }
}

pub struct Ours<L> {
    pub lending: L,
}

impl<L: Lending> Entries for Ours<L> {
    fn new_state(&self, lent: &mut Lent, target: u32) -> Answer {
        leave(&capi::marshdeck_new(target), &mut lent.state)
    }

    // In this and the next two, SAFETY: each pointer comes with the length of its slice, what is lent for writing overlaps
    // no other, and what is lent to be read is const in the header.
    fn set_rate(&self, lent: &mut Lent, source: u32) -> Answer {
        let state = enter(&lent.state);
        let (mem_len, coefs_len) = (lent.history.len(), lent.coefficients.len());
        let lending = &self.lending;
        let answered = lending.to_write(&mut lent.history, |mem| {
            lending.to_write(&mut lent.coefficients, |coefs| unsafe {
                capi::marshdeck_set_rate(state, source, mem, mem_len, coefs, coefs_len)
            })
        });
        leave(&answered, &mut lent.state)
    }

    fn process(&self, lent: &mut Lent, input: &[f32], out: &mut [f32]) -> Answer {
        let state = enter(&lent.state);
        let (mem_len, coefs_len) = (lent.history.len(), lent.coefficients.len());
        let (in_len, out_len) = (input.len(), out.len());
        let lending = &self.lending;
        let answered = lending.to_write(&mut lent.history, |mem| {
            lending.to_read(&lent.coefficients, |coefs| {
                lending.to_read(input, |input| {
                    lending.to_write(out, |out| unsafe {
                        capi::marshdeck_process(
                            state, mem, mem_len, coefs, coefs_len, input, in_len, out, out_len,
                        )
                    })
                })
            })
        });
        leave(&answered, &mut lent.state)
    }

    fn reset(&self, lent: &mut Lent) -> Answer {
        let state = enter(&lent.state);
        let mem_len = lent.history.len();
        let answered = self.lending.to_write(&mut lent.history, |mem| unsafe {
            capi::marshdeck_reset(state, mem, mem_len)
        });
        leave(&answered, &mut lent.state)
    }

    fn skip(&self, lent: &mut Lent) -> Answer {
        let answered = capi::marshdeck_skip(enter(&lent.state));
        leave(&answered, &mut lent.state)
    }
}
