// In place of fon's channels: one kind of sample, an f32.

pub trait Channel: Copy + Default + From<f32> {
    fn to_f32(self) -> f32;
}

#[derive(Clone, Copy, Debug, Default)]
pub struct Samp32(f32);

impl From<f32> for Samp32 {
    fn from(x: f32) -> Self {
        Samp32(x)
    }
}

impl Channel for Samp32 {
    fn to_f32(self) -> f32 {
        self.0
    }
}
