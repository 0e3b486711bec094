// Shows that the comparison can fail: each thing that it looks at is changed once by one bit, and it has to notice.

use crate::compare::{equal_sides, Side};
use crate::operation::{numbers, FIELDS};

type Change<'a> = &'a dyn Fn(&mut Side);
type Part = fn(&mut Side) -> &mut Vec<f32>;

const SLICES: [(&str, Part); 3] = [
    ("history", |side| &mut side.lent.history),
    ("coefficients", |side| &mut side.lent.coefficients),
    ("output", |side| &mut side.out),
];

// A side that is changed and mended again, and the same side as it was.
struct Changed {
    side: Side,
    kept: Side,
    changes: usize,
}

impl Changed {
    // The change undoes itself where it is made twice. What is said of it has to be about this name.
    fn notices(&mut self, name: &str, change: Change) -> Result<(), String> {
        change(&mut self.side);
        match equal_sides(&self.side, &self.kept) {
            Err(difference) if difference.split([':', ',']).next() == Some(name) => {}
            _ => return Err(format!("a change of {name} is not noticed")),
        }
        change(&mut self.side);
        self.changes += 1;
        Ok(())
    }

    fn notices_numbers(&mut self) -> Result<(), String> {
        self.notices("refusal", &|side| side.answer.0 ^= 1)?;
        self.notices("consumed", &|side| side.answer.1 ^= 1)?;
        self.notices("written", &|side| side.answer.2 ^= 1)?;
        for (i, name) in FIELDS.into_iter().enumerate() {
            self.notices(name, &|side| *numbers(&mut side.lent.state)[i] ^= 1)?;
        }
        Ok(())
    }

    // At most so many entries of a slice, evenly spread from the last one on, and its length.
    fn notices_slice(&mut self, name: &str, slice: Part, most: usize) -> Result<(), String> {
        let length = slice(&mut self.kept).len();
        for at in (0..length).rev().step_by(length.div_ceil(most)) {
            self.notices(name, &|side| {
                let entry = &mut slice(side)[at];
                *entry = f32::from_bits(entry.to_bits() ^ 1);
            })?;
        }
        let last = slice(&mut self.side).pop().expect("an entry");
        if equal_sides(&self.side, &self.kept).is_ok() {
            return Err(format!("a shorter {name} is not noticed"));
        }
        slice(&mut self.side).push(last);
        self.changes += 1;
        Ok(())
    }

    fn takes_nans_as_one(&mut self, slice: Part) -> Result<(), String> {
        slice(&mut self.side)[0] = f32::from_bits(0x7fc0_0000);
        let first = std::mem::replace(&mut slice(&mut self.kept)[0], f32::from_bits(0xffc0_0001));
        equal_sides(&self.side, &self.kept)?;
        slice(&mut self.side)[0] = first;
        slice(&mut self.kept)[0] = first;
        Ok(())
    }
}

// Changes everything that a side holds: of each slice at most so many entries, none of the slices being empty. Answers how
// many changes were made.
pub fn changes_noticed(side: &Side, most: usize) -> Result<usize, String> {
    let mut changed = Changed {
        side: side.clone(),
        kept: side.clone(),
        changes: 0,
    };
    equal_sides(&changed.side, &changed.kept)?;
    changed.notices_numbers()?;
    for (name, slice) in SLICES {
        changed.notices_slice(name, slice, most)?;
        changed.takes_nans_as_one(slice)?;
    }
    Ok(changed.changes)
}
