// How far two numbers may be apart, and how far they were.

#[derive(Clone, Copy)]
pub enum Bound {
    Same,
    Within(f64),
}

impl Bound {
    // `same`: equal bits. `K`, a whole number: at most 2^-K apart.
    pub fn named(word: &str) -> Option<Bound> {
        if word == "same" {
            return Some(Bound::Same);
        }
        let k: i32 = word.parse().ok()?;
        Some(Bound::Within(2f64.powi(-k)))
    }

    // A NaN is within no bound.
    fn holds(self, ours: f64, rust: f64) -> bool {
        match self {
            Bound::Same => ours.to_bits() == rust.to_bits(),
            Bound::Within(most) => (ours - rust).abs() <= most,
        }
    }
}

// What was compared so far: how many pairs of numbers, how many of them were not equal, the largest distance and where it was.
pub struct Met {
    bound: Bound,
    count: u64,
    unequal: u64,
    largest: f64,
    place: String,
}

impl Met {
    pub fn new(bound: Bound) -> Met {
        Met {
            bound,
            count: 0,
            unequal: 0,
            largest: 0.0,
            place: String::new(),
        }
    }

    // Err: the two are further apart than the bound allows.
    pub fn meet(&mut self, ours: f64, rust: f64, place: impl Fn() -> String) -> Result<(), String> {
        if !self.bound.holds(ours, rust) {
            return Err(format!("{}: ours {ours:e}, the Rust {rust:e}", place()));
        }
        let distance = (ours - rust).abs();
        self.count += 1;
        self.unequal += u64::from(distance > 0.0);
        if distance > self.largest {
            self.largest = distance;
            self.place = place();
        }
        Ok(())
    }

    // Both counts; and the largest distance with its place, where there is one.
    pub fn shown(&self) -> String {
        let counts = format!("{} compared, {} not equal", self.count, self.unequal);
        if self.unequal == 0 {
            return counts;
        }
        let exponent = self.largest.log2();
        format!("{counts}, at most 2^{exponent:.2} apart: {}", self.place)
    }
}
