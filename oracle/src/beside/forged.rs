// States that no call left behind: some whose numbers belong together all the same, and some whose numbers do not.

use fon::engine::Numbers;

use crate::operation::{numbers, Operation, Setting, FIELDS};
use crate::random::Random;
use crate::rules::{belongs_together, HIGHEST, LONGEST_HISTORY, LOWEST};

// Every number, as it is in this state.
pub fn back_to(state: &Numbers) -> Operation {
    let mut state = *state;
    let values = numbers(&mut state).map(|value| *value);
    Operation::Forge(FIELDS.into_iter().zip(values).collect())
}

// The numbers in which two states differ, as they are in the second.
pub fn between(old: &Numbers, new: &Numbers) -> Operation {
    let (mut old, mut new) = (*old, *new);
    let values = numbers(&mut old).into_iter().zip(numbers(&mut new));
    let settings = FIELDS.into_iter().zip(values);
    Operation::Forge(
        settings
            .filter(|(_, (old, new))| old != new)
            .map(|(name, (_, new))| (name, *new))
            .collect(),
    )
}

// From 0 to a bound, often one of the two.
fn up_to(random: &mut Random, most: u32) -> u32 {
    let inside = random.between(0, most);
    random.one_of(&[0, most, inside, inside])
}

// The most magic samples that a history of alloc entries has room for.
fn most_magic(state: &Numbers) -> u32 {
    (state.alloc - state.n - 159) / 2
}

// Another state whose numbers belong together, at the same rates; without a source rate only the target can be another.
pub fn belonging(random: &mut Random, state: &Numbers) -> Numbers {
    let mut state = *state;
    if state.source == 0 {
        state.target = random.between(LOWEST, HIGHEST);
        return state;
    }
    let shortest = state.n + 2 * state.magic + 159;
    for _ in 0..random.between(1, 3) {
        match random.between(0, 4) {
            0 => state.position = up_to(random, state.n / 2),
            1 => state.phase = up_to(random, state.den - 1),
            2 => state.alloc = shortest + up_to(random, LONGEST_HISTORY as u32 - shortest),
            3 => {
                state.started = random.between(0, 1);
                state.magic *= state.started;
            }
            _ => {
                state.started = 1;
                state.magic = up_to(random, most_magic(&state));
                break;
            }
        }
    }
    assert!(belongs_together(&state));
    state
}

// One number that is past its bound, or just another.
pub fn astray(random: &mut Random, state: &Numbers) -> Setting {
    let past = [
        ("position", state.n / 2 + 1),
        ("phase", state.den),
        ("magic", (state.alloc.saturating_sub(state.n + 159)) / 2 + 1),
        ("started", 2),
        ("alloc", (state.n + 2 * state.magic + 159).saturating_sub(1)),
        ("alloc", LONGEST_HISTORY as u32 + 1),
        ("kernel", 3 - state.kernel),
        ("kernel", 3),
        ("cutoff", f32::NAN.to_bits()),
        ("cutoff", state.cutoff ^ 1),
        ("buffer", 159),
    ];
    if random.chance(50) {
        return random.one_of(&past);
    }
    let field = random.size(0, FIELDS.len() - 1);
    let mut state = *state;
    let old = *numbers(&mut state)[field];
    let any = random.word();
    let changed = [0, old.wrapping_add(1), old.wrapping_sub(1), u32::MAX, any];
    (FIELDS[field], random.one_of(&changed))
}
