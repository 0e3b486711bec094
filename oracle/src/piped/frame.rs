// In place of fon's frame: one sample for each channel.

use crate::chan::Channel;

#[derive(Clone, Copy, Debug)]
pub struct Frame<C: Channel, const N: usize>([C; N]);

impl<C: Channel, const N: usize> Default for Frame<C, N> {
    fn default() -> Self {
        Frame([C::default(); N])
    }
}

impl<C: Channel, const N: usize> Frame<C, N> {
    pub fn samples(&self) -> &[C; N] {
        &self.0
    }

    pub fn samples_mut(&mut self) -> &mut [C; N] {
        &mut self.0
    }

    pub fn to<D: Channel + From<C>>(&self) -> Frame<D, N> {
        Frame(self.0.map(D::from))
    }
}
