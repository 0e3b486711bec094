// What a caller keeps between two calls, and what the five entries are asked and answer. The Rust with document 01's rules
// is one that answers; ours, through the C interface, is another.

use fon::engine::Numbers;

// A state and what is lent to each call with it.
#[derive(Clone, Default)]
pub struct Lent {
    pub state: Numbers,
    pub history: Vec<f32>,
    pub coefficients: Vec<f32>,
}

impl Lent {
    // No state yet, and slices that are long enough for every two rates.
    pub fn longest() -> Lent {
        Lent {
            state: Numbers::default(),
            history: vec![0.0; 7_839],
            coefficients: vec![0.0; 7_688],
        }
    }
}

// What a call answers: refusal number (0 where accepted), consumed, written.
pub type Answer = (u32, u32, u32);

pub trait Entries {
    fn new_state(&self, lent: &mut Lent, target: u32) -> Answer;
    fn set_rate(&self, lent: &mut Lent, source: u32) -> Answer;
    fn process(&self, lent: &mut Lent, input: &[f32], out: &mut [f32]) -> Answer;
    fn reset(&self, lent: &mut Lent) -> Answer;
    fn skip(&self, lent: &mut Lent) -> Answer;
}
