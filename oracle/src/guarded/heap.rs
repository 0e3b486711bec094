// A slice in a block of the heap that is exactly as long, a new one for each call: valgrind sees a step outside of it. An
// empty slice is lent as NULL.

use std::ptr::null_mut;

use crate::ours::Lending;
use crate::Wrong;

pub struct Heap {
    pub wrong: Wrong,
}

impl Heap {
    fn pointer(&self, block: &mut [f32]) -> *mut f32 {
        if block.is_empty() {
            return null_mut();
        }
        let right = block.as_mut_ptr();
        match self.wrong {
            Wrong::Outward => right.wrapping_add(1),
            Wrong::Inward => right.wrapping_sub(1),
            _ => right,
        }
    }
}

impl Lending for Heap {
    fn to_read<R>(&self, slice: &[f32], call: impl FnOnce(*const f32) -> R) -> R {
        let mut block: Box<[f32]> = slice.into();
        call(self.pointer(&mut block))
    }

    fn to_write<R>(&self, slice: &mut [f32], call: impl FnOnce(*mut f32) -> R) -> R {
        let mut block: Box<[f32]> = (&*slice).into();
        let result = call(self.pointer(&mut block));
        slice.copy_from_slice(&block);
        result
    }
}
