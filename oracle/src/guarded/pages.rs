// A slice in pages of its own. The pages before and after may not be touched; the slice lies flush against one of these
// two, and what is left towards the other is filled with a mark that has to be there after the call.

use std::ffi::c_void;
use std::process::exit;
use std::ptr::null_mut;
use std::slice;

use crate::ours::Lending;
use crate::Wrong;

const PAGE: usize = 4_096;
const ENTRY: usize = 4;
const MARK: u32 = 0x5afe_c0de;

// Of Linux.
const NO_ACCESS: i32 = 0;
const READ: i32 = 1;
const READ_WRITE: i32 = 3;
const PRIVATE_ANONYMOUS: i32 = 0x22;

extern "C" {
    fn getpagesize() -> i32;
    fn mmap(
        at: *mut c_void,
        length: usize,
        access: i32,
        flags: i32,
        file: i32,
        offset: i64,
    ) -> *mut c_void;
    fn mprotect(at: *mut c_void, length: usize, access: i32) -> i32;
    fn munmap(at: *mut c_void, length: usize) -> i32;
}

// Which edge of a slice lies against a page that may not be touched.
#[derive(Clone, Copy)]
pub enum Edge {
    Start,
    End,
}

// The pages of one slice, with the two around them.
struct Guarded {
    first: *mut u8,
    // How many bytes lie between the two.
    inner: usize,
    // Where the slice starts, in entries from the first inner one.
    start: usize,
    length: usize,
}

impl Guarded {
    // Pages with a copy of the slice in them.
    fn new(slice: &[f32], edge: Edge) -> Guarded {
        let inner = (slice.len() * ENTRY).div_ceil(PAGE).max(1) * PAGE;
        let first = unsafe {
            assert_eq!(getpagesize() as usize, PAGE);
            mmap(
                null_mut(),
                inner + 2 * PAGE,
                NO_ACCESS,
                PRIVATE_ANONYMOUS,
                -1,
                0,
            ) as *mut u8
        };
        assert_ne!(first as isize, -1, "no pages");
        let length = slice.len();
        let start = match edge {
            Edge::Start => 0,
            Edge::End => inner / ENTRY - length,
        };
        let mut guarded = Guarded {
            first,
            inner,
            start,
            length,
        };
        guarded.allow(READ_WRITE);
        guarded.entries().fill(f32::from_bits(MARK));
        guarded.slice().copy_from_slice(slice);
        guarded
    }

    fn allow(&mut self, access: i32) {
        let done = unsafe { mprotect(self.first.add(PAGE) as *mut c_void, self.inner, access) };
        assert_eq!(done, 0);
    }

    // Every entry between the two pages.
    fn entries(&mut self) -> &mut [f32] {
        let first = unsafe { self.first.add(PAGE) } as *mut f32;
        unsafe { slice::from_raw_parts_mut(first, self.inner / ENTRY) }
    }

    fn slice(&mut self) -> &mut [f32] {
        let lent = self.start..self.start + self.length;
        &mut self.entries()[lent]
    }

    // The pointer that a call gets.
    fn pointer(&mut self, edge: Edge, wrong: Wrong) -> *mut f32 {
        let right = self.slice().as_mut_ptr();
        match (edge, wrong) {
            (Edge::Start, Wrong::Outward) | (Edge::End, Wrong::Inward) => right.wrapping_sub(1),
            (Edge::Start, Wrong::Inward) | (Edge::End, Wrong::Outward) => right.wrapping_add(1),
            _ => right,
        }
    }

    // Stops the program where an entry beside the slice was written.
    fn look(&mut self) {
        let lent = self.start..self.start + self.length;
        let changed = |(i, x): (usize, &f32)| !lent.contains(&i) && x.to_bits() != MARK;
        if self.entries().iter().enumerate().any(changed) {
            eprintln!("guarded: an entry beside a lent slice was written");
            exit(1);
        }
    }
}

impl Drop for Guarded {
    fn drop(&mut self) {
        unsafe { munmap(self.first as *mut c_void, self.inner + 2 * PAGE) };
    }
}

pub struct Pages {
    pub edge: Edge,
    pub wrong: Wrong,
}

impl Lending for Pages {
    fn to_read<R>(&self, slice: &[f32], call: impl FnOnce(*const f32) -> R) -> R {
        let mut guarded = Guarded::new(slice, self.edge);
        let pointer = guarded.pointer(self.edge, self.wrong);
        guarded.allow(READ);
        if self.wrong == Wrong::Written {
            unsafe { pointer.write_volatile(0.0) };
        }
        let result = call(pointer);
        guarded.look();
        result
    }

    fn to_write<R>(&self, slice: &mut [f32], call: impl FnOnce(*mut f32) -> R) -> R {
        let mut guarded = Guarded::new(slice, self.edge);
        let result = call(guarded.pointer(self.edge, self.wrong));
        guarded.look();
        slice.copy_from_slice(guarded.slice());
        result
    }
}
