// libsamplerate's streaming interface, as samplerate.h declares it.

use std::ffi::{c_int, c_long, c_void};
use std::ptr::{self, NonNull};

use crate::engines::Stream;

// SRC_SINC_BEST_QUALITY and SRC_SINC_MEDIUM_QUALITY.
pub const BEST: c_int = 0;
pub const MEDIUM: c_int = 1;

// SRC_DATA.
#[repr(C)]
struct Data {
    data_in: *const f32,
    data_out: *mut f32,
    input_frames: c_long,
    output_frames: c_long,
    input_frames_used: c_long,
    output_frames_gen: c_long,
    end_of_input: c_int,
    src_ratio: f64,
}

extern "C" {
    fn src_new(converter: c_int, channels: c_int, error: *mut c_int) -> *mut c_void;
    fn src_delete(state: *mut c_void) -> *mut c_void;
    fn src_process(state: *mut c_void, data: *mut Data) -> c_int;
    fn src_is_valid_ratio(ratio: f64) -> c_int;
}

struct SampleRate {
    state: NonNull<c_void>,
    ratio: f64,
}

pub fn open(converter: c_int, source: u32, target: u32) -> Option<Box<dyn Stream>> {
    let ratio = f64::from(target) / f64::from(source);
    let mut error = 0;
    // SAFETY: the ratio is a number, and the error has its place.
    let state = unsafe {
        if src_is_valid_ratio(ratio) == 0 {
            ptr::null_mut()
        } else {
            src_new(converter, 1, &mut error)
        }
    };
    let state = NonNull::new(state)?;
    Some(Box::new(SampleRate { state, ratio }))
}

impl Stream for SampleRate {
    fn process(&mut self, input: &[f32], out: &mut [f32]) -> (usize, usize) {
        let mut data = Data {
            data_in: input.as_ptr(),
            data_out: out.as_mut_ptr(),
            input_frames: input.len() as c_long,
            output_frames: out.len() as c_long,
            input_frames_used: 0,
            output_frames_gen: 0,
            end_of_input: 0,
            src_ratio: self.ratio,
        };
        // SAFETY: the state is alive, and each slice comes with its length.
        let code = unsafe { src_process(self.state.as_ptr(), &mut data) };
        assert_eq!(code, 0, "libsamplerate refused a call");
        (
            data.input_frames_used as usize,
            data.output_frames_gen as usize,
        )
    }
}

impl Drop for SampleRate {
    fn drop(&mut self) {
        // SAFETY: made by src_new, and dropped once.
        unsafe { src_delete(self.state.as_ptr()) };
    }
}
