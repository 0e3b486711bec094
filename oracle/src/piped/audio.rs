// In place of fon's audio buffer and sink.

use alloc::vec::Vec;
use core::{num::NonZeroU32, slice::Iter};

use crate::{chan::Channel, frame::Frame};

#[derive(Debug)]
pub struct Audio<C: Channel, const N: usize> {
    sample_rate: NonZeroU32,
    frames: Vec<Frame<C, N>>,
}

impl<C: Channel, const N: usize> Audio<C, N> {
    pub fn with_frames(hz: u32, frames: Vec<Frame<C, N>>) -> Self {
        let sample_rate = NonZeroU32::new(hz).expect("a sample rate is not 0");
        Audio {
            sample_rate,
            frames,
        }
    }

    pub fn sample_rate(&self) -> NonZeroU32 {
        self.sample_rate
    }

    pub fn iter(&self) -> Iter<'_, Frame<C, N>> {
        self.frames.iter()
    }

    pub fn as_slice(&self) -> &[Frame<C, N>] {
        &self.frames
    }
}

pub trait Sink<C: Channel, const N: usize> {
    fn sample_rate(&self) -> NonZeroU32;
    fn len(&self) -> usize;
    fn sink_with(&mut self, frames: &mut dyn Iterator<Item = Frame<C, N>>);
}
