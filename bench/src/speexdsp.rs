// SpeexDSP's resampler, as speex/speex_resampler.h declares it. Quality 8 has our base length, oversampling and bandwidths.

use std::ffi::{c_int, c_void};
use std::ptr::{self, NonNull};

use crate::engines::Stream;

const QUALITY: c_int = 8;

extern "C" {
    fn speex_resampler_init(
        channels: u32,
        in_rate: u32,
        out_rate: u32,
        quality: c_int,
        err: *mut c_int,
    ) -> *mut c_void;

    fn speex_resampler_process_float(
        state: *mut c_void,
        channel: u32,
        input: *const f32,
        in_len: *mut u32,
        out: *mut f32,
        out_len: *mut u32,
    ) -> c_int;

    fn speex_resampler_destroy(state: *mut c_void);
}

pub struct Speex(NonNull<c_void>);

impl Speex {
    pub fn new(source: u32, target: u32) -> Option<Speex> {
        // SAFETY: the pointer for the error may be null.
        let state = unsafe { speex_resampler_init(1, source, target, QUALITY, ptr::null_mut()) };
        NonNull::new(state).map(Speex)
    }
}

pub fn open(source: u32, target: u32) -> Option<Box<dyn Stream>> {
    Some(Box::new(Speex::new(source, target)?))
}

impl Stream for Speex {
    fn process(&mut self, input: &[f32], out: &mut [f32]) -> (usize, usize) {
        let (mut consumed, mut written) = (input.len() as u32, out.len() as u32);
        // SAFETY: the state is alive, and each slice comes with its length.
        let code = unsafe {
            speex_resampler_process_float(
                self.0.as_ptr(),
                0,
                input.as_ptr(),
                &mut consumed,
                out.as_mut_ptr(),
                &mut written,
            )
        };
        assert_eq!(code, 0, "SpeexDSP refused a call");
        (consumed as usize, written as usize)
    }
}

impl Drop for Speex {
    fn drop(&mut self) {
        // SAFETY: made by speex_resampler_init, and dropped once.
        unsafe { speex_resampler_destroy(self.0.as_ptr()) }
    }
}
