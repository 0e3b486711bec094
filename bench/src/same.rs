// Ours beside the Rust with document 01's sine, on what is timed: consumed, written and every bit have to be equal.

use crate::cases::Case;
use crate::engines::Stream;
use crate::ours::Ours;
use crate::stepped::engine::Kept;

// What no call writes by itself: entries past what was written have to keep it.
const UNWRITTEN: f32 = -7.5;

fn equal_bits(name: &str, ours: &[f32], rust: &[f32]) -> Result<(), String> {
    if ours.len() != rust.len() {
        return Err(format!("{name}: {} and {} entries", ours.len(), rust.len()));
    }
    let differs = |(a, b): (&f32, &f32)| a.to_bits() != b.to_bits();
    match ours.iter().zip(rust).position(differs) {
        None => Ok(()),
        Some(i) => Err(format!(
            "{name}, entry {i}: ours {:08x}, the Rust {:08x}",
            ours[i].to_bits(),
            rust[i].to_bits()
        )),
    }
}

struct Pair {
    ours: Ours,
    rust: Kept,
}

// How many calls and outputs were compared.
#[derive(Clone, Copy, Default)]
pub struct Compared {
    pub calls: usize,
    pub outputs: usize,
}

impl Pair {
    fn new(case: &Case) -> Pair {
        Pair {
            ours: Ours::new(case.source, case.target),
            rust: Kept::new(case.source, case.target),
        }
    }

    fn buffers(&self) -> Result<(), String> {
        equal_bits(
            "coefficients",
            &self.ours.coefficients,
            self.rust.coefficients(),
        )?;
        equal_bits("history", &self.ours.history, self.rust.history())
    }

    // The samples, in blocks of this size, with this room for each call.
    fn calls(&mut self, samples: &[f32], block: usize, room: usize) -> Result<Compared, String> {
        let mut ours = vec![UNWRITTEN; room];
        let mut rust = vec![UNWRITTEN; room];
        let mut compared = Compared::default();
        for mut left in samples.chunks(block) {
            while !left.is_empty() {
                let counts = self.ours.process(left, &mut ours);
                let expected = self.rust.process(left, &mut rust);
                if counts != expected {
                    return Err(format!("counts: ours {counts:?}, the Rust {expected:?}"));
                }
                equal_bits("output", &ours, &rust)?;
                compared.calls += 1;
                compared.outputs += counts.1;
                left = &left[counts.0..];
            }
        }
        Ok(compared)
    }
}

pub fn same(case: &Case, samples: &[f32], block: usize, room: usize) -> Result<Compared, String> {
    let mut pair = Pair::new(case);
    let outcome = pair
        .buffers()
        .and_then(|()| pair.calls(samples, block, room))
        .and_then(|compared| pair.buffers().map(|()| compared));
    outcome.map_err(|difference| {
        format!(
            "{}, blocks of {block}, room {room}: not the same bits: {difference}",
            case.rates()
        )
    })
}

// One bit of one coefficient of ours is changed: the outputs have to tell.
pub fn change_noticed(case: &Case, samples: &[f32], block: usize) -> Result<(), String> {
    let mut pair = Pair::new(case);
    let middle = pair.ours.coefficients.len() / 2;
    let changed = pair.ours.coefficients[middle].to_bits() ^ 1;
    pair.ours.coefficients[middle] = f32::from_bits(changed);
    match pair.calls(samples, block, case.room(block)) {
        Err(_) => Ok(()),
        Ok(_) => Err(format!("{}: a changed bit was not noticed", case.rates())),
    }
}
