// soxr's streaming interface, as soxr.h declares it. Null for each of the three specifications asks for f32, for HQ and for one
// thread.

use std::ffi::{c_char, c_uint, c_void};
use std::ptr::{self, NonNull};

use crate::engines::Stream;

type Error = *const c_char;

extern "C" {
    fn soxr_create(
        input_rate: f64,
        output_rate: f64,
        channels: c_uint,
        error: *mut Error,
        io: *const c_void,
        quality: *const c_void,
        runtime: *const c_void,
    ) -> *mut c_void;

    fn soxr_process(
        state: *mut c_void,
        input: *const f32,
        in_len: usize,
        consumed: *mut usize,
        out: *mut f32,
        out_len: usize,
        written: *mut usize,
    ) -> Error;

    fn soxr_delete(state: *mut c_void);
}

struct Soxr(NonNull<c_void>);

pub fn open(source: u32, target: u32) -> Option<Box<dyn Stream>> {
    let mut error = ptr::null();
    // SAFETY: the specifications may be null, and the error has its place.
    let state = unsafe {
        soxr_create(
            f64::from(source),
            f64::from(target),
            1,
            &mut error,
            ptr::null(),
            ptr::null(),
            ptr::null(),
        )
    };
    if !error.is_null() {
        return None;
    }
    Some(Box::new(Soxr(NonNull::new(state)?)))
}

impl Stream for Soxr {
    fn process(&mut self, input: &[f32], out: &mut [f32]) -> (usize, usize) {
        let (mut consumed, mut written) = (0, 0);
        // SAFETY: the state is alive, and each slice comes with its length.
        let error = unsafe {
            soxr_process(
                self.0.as_ptr(),
                input.as_ptr(),
                input.len(),
                &mut consumed,
                out.as_mut_ptr(),
                out.len(),
                &mut written,
            )
        };
        assert!(error.is_null(), "soxr refused a call");
        (consumed, written)
    }
}

impl Drop for Soxr {
    fn drop(&mut self) {
        // SAFETY: made by soxr_create, and dropped once.
        unsafe { soxr_delete(self.0.as_ptr()) }
    }
}
