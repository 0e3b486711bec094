// Which operation comes next in a random sequence. It looks at the state and the slices as they are, so that lengths are
// short by one, exact or longer on purpose, and forged numbers lie on both sides of their bounds.

use std::collections::VecDeque;

use fon::engine::Numbers;

use crate::forged;
use crate::lent::Lent;
use crate::operation::{Operation, Slice, LONGEST_LENT, LONGEST_PLAYED};
use crate::pairs::{COMMON, OUT_OF_LIMITS};
use crate::random::Random;
use crate::rules::{belongs_together, history_needed, rated, HIGHEST, LOWEST};
use crate::segments::{Kind, Segment, SPECIAL, UNWRITTEN};

const NEAR_LIMITS: [u32; 4] = [LOWEST, LOWEST + 1, HIGHEST - 1, HIGHEST];

pub struct Mix {
    random: Random,
    // Operations that belong to one move and come one after the other.
    planned: VecDeque<Operation>,
    // The last state that belonged together, to go back to from a forged one.
    good: Numbers,
    // Whether NaNs, infinities and the like are among the samples. They spread, so most sequences have none.
    odd: bool,
}

impl Mix {
    pub fn new(mut random: Random) -> Mix {
        let odd = random.chance(25);
        Mix {
            random,
            planned: VecDeque::new(),
            good: Numbers::default(),
            odd,
        }
    }

    pub fn next(&mut self, lent: &Lent) -> Operation {
        if belongs_together(&lent.state) {
            self.good = lent.state;
        }
        if self.planned.is_empty() {
            self.plan(lent);
        }
        self.planned.pop_front().expect("a move has an operation")
    }

    // How many operations a sequence has.
    pub fn length(&mut self) -> u64 {
        u64::from(self.random.between(5, 80))
    }

    fn plan(&mut self, lent: &Lent) {
        let state = &lent.state;
        if !belongs_together(state) {
            self.astray(lent);
        } else if state.source == 0 {
            match self.random.weighted(&[80, 5, 5, 5]) {
                0 => self.change_rate(lent),
                1 => self.forge(lent),
                2 => self.again(),
                _ => self.any_call(lent),
            }
        } else {
            match self.random.weighted(&[56, 16, 2, 3, 3, 4, 2, 8, 4, 2]) {
                0 => self.process(),
                1 => self.change_rate(lent),
                2 => self.same_rate(lent),
                3 => self.planned.push_back(Operation::Reset),
                4 => self.planned.push_back(Operation::Skip),
                5 => self.poke(lent),
                6 => self.pokes(lent),
                7 => self.forge(lent),
                8 => self.lend(lent),
                _ => self.again(),
            }
        }
    }

    // A state that does not belong together: calls get 7, until it is mended or another is made.
    fn astray(&mut self, lent: &Lent) {
        let mendable = if self.good.target == 0 { 0 } else { 50 };
        match self.random.weighted(&[30, mendable, 35]) {
            0 => self.any_call(lent),
            1 => self.planned.push_back(forged::back_to(&self.good)),
            _ => self.again(),
        }
    }

    fn again(&mut self) {
        let target = match self.random.weighted(&[4, 30, 20, 15, 15, 16]) {
            0 => self.random.one_of(&OUT_OF_LIMITS),
            1 => self.random.one_of(&COMMON),
            2 => self.random.between(LOWEST, 4 * LOWEST),
            3 => self.random.one_of(&NEAR_LIMITS),
            4 => self.random.between(65_537, HIGHEST),
            _ => self.random.between(LOWEST, HIGHEST),
        };
        self.planned.push_back(Operation::New(target));
    }

    // A source rate in limits, by its ratio to the target.
    fn source(&mut self, target: u32) -> u32 {
        let source = match self.random.weighted(&[5, 25, 10, 20, 10, 30]) {
            0 => target,
            1 => target / self.random.between(1, 20) * self.random.between(1, 48),
            2 => self.random.one_of(&NEAR_LIMITS),
            3 => self.random.one_of(&COMMON),
            4 => target - 50 + self.random.between(0, 100),
            _ => self.random.between(LOWEST, HIGHEST),
        };
        source.clamp(LOWEST, HIGHEST)
    }

    fn fill(&mut self) -> u32 {
        let odd = self.sample();
        self.random.one_of(&[0, UNWRITTEN, odd])
    }

    fn lend_lengths(&mut self, history: usize, coefficients: usize) {
        let fill = self.fill();
        self.planned.push_back(Operation::Lend {
            history: history.min(LONGEST_LENT),
            coefficients: coefficients.min(LONGEST_LENT),
            fill,
        });
    }

    // Lends slices for a call that needs these lengths. Both are at least 160, so one less is a length too.
    fn lend_for(&mut self, lent: &Lent, history: usize, coefficients: usize) {
        let held = (lent.history.len(), lent.coefficients.len());
        match self.random.weighted(&[50, 20, 6, 6, 15, 2, 1]) {
            0 if held.0 >= history && held.1 >= coefficients => {}
            0 => self.lend_lengths(held.0.max(history), held.1.max(coefficients)),
            1 => self.lend_lengths(history, coefficients),
            2 => self.lend_lengths(history - 1, coefficients),
            3 => self.lend_lengths(history, coefficients - 1),
            4 => {
                let more = (self.random.size(1, 40), self.random.size(1, 40));
                self.lend_lengths(history + more.0, coefficients + more.1);
            }
            5 => {
                let less = (
                    self.random.size(0, history),
                    self.random.size(0, coefficients),
                );
                self.lend_lengths(less.0, less.1);
            }
            _ => self.lend_lengths(LONGEST_LENT, LONGEST_LENT),
        }
    }

    fn change_rate(&mut self, lent: &Lent) {
        if self.random.chance(4) {
            let source = self.random.one_of(&OUT_OF_LIMITS);
            self.planned.push_back(Operation::Rate(source));
            return;
        }
        let source = self.source(lent.state.target);
        let new = rated(source, lent.state.target);
        self.lend_for(lent, history_needed(&lent.state, &new), new.table);
        self.planned.push_back(Operation::Rate(source));
    }

    // The rate that is set already needs no slices. Then those that the next call needs are lent again.
    fn same_rate(&mut self, lent: &Lent) {
        let state = &lent.state;
        let table = rated(state.source, state.target).table;
        if self.random.chance(50) {
            let less = (
                self.random.size(0, state.alloc as usize),
                self.random.size(0, table),
            );
            self.lend_lengths(less.0, less.1);
        }
        self.planned.push_back(Operation::Rate(state.source));
        if self.random.chance(80) {
            self.lend_lengths(state.alloc as usize, table);
        }
    }

    // Other slices for the same state, and a call.
    fn lend(&mut self, lent: &Lent) {
        let state = &lent.state;
        let table = rated(state.source, state.target).table;
        self.lend_for(lent, state.alloc as usize, table);
        self.any_call(lent);
    }

    fn any_call(&mut self, lent: &Lent) {
        match self.random.weighted(&[40, 20, 20, 20]) {
            0 => self.process(),
            1 => {
                let source = self.source(lent.state.target.clamp(LOWEST, HIGHEST));
                self.planned.push_back(Operation::Rate(source));
            }
            2 => self.planned.push_back(Operation::Reset),
            _ => self.planned.push_back(Operation::Skip),
        }
    }

    // A length of an input or an output: mostly short, so that many calls are made.
    fn call_size(&mut self) -> usize {
        match self.random.weighted(&[25, 60, 260, 480, 150, 18, 5, 2]) {
            0 => 0,
            1 => 1,
            2 => self.random.size(2, 16),
            3 => self.random.size(17, 160),
            4 => self.random.size(161, 1_024),
            5 => self.random.size(1_025, 4_096),
            6 => self.random.size(4_097, LONGEST_PLAYED),
            _ => LONGEST_PLAYED,
        }
    }

    fn process(&mut self) {
        let mut left = self.call_size();
        let room = self.call_size();
        let mut input = Vec::new();
        while left > 0 {
            let count = if self.random.chance(70) {
                left
            } else {
                self.random.size(1, left)
            };
            let segment = self.segment(count);
            left -= segment.count();
            input.push(segment);
        }
        self.planned.push_back(Operation::Process { room, input });
    }

    // Between -1 and 1; in an odd sequence anything.
    fn sample(&mut self) -> u32 {
        if self.odd && self.random.chance(50) {
            let any = self.random.word();
            let special = self.random.one_of(&SPECIAL);
            return self.random.one_of(&[any, special]);
        }
        (self.random.word() as i32 as f32 / 2_147_483_648.0).to_bits()
    }

    // At most `most` samples, and at least one. A machine is slow on subnormal numbers, so those are few in a row.
    fn segment(&mut self, most: usize) -> Segment {
        let seed = self.random.word() >> self.random.between(0, 31);
        let special = if self.odd { 20 } else { 0 };
        match self.random.weighted(&[5, 10, 70, special, 10]) {
            0 => Segment::Listed((0..most.min(8)).map(|_| self.sample()).collect()),
            1 => Segment::Constant {
                sample: self.sample(),
                count: most,
            },
            2 => Segment::Drawn {
                kind: Kind::Uniform,
                seed,
                count: most,
            },
            3 => Segment::Drawn {
                kind: Kind::Special,
                seed,
                count: most,
            },
            _ => Segment::Drawn {
                kind: Kind::Subnormal,
                seed,
                count: most.min(24),
            },
        }
    }

    // A slice to overwrite, and its length. One that is empty has no entry to overwrite.
    fn slice(&mut self, lent: &Lent) -> Option<(Slice, usize)> {
        let history = (Slice::History, lent.history.len());
        let coefficients = (Slice::Coefficients, lent.coefficients.len());
        let drawn = self.random.one_of(&[history, history, coefficients]);
        (drawn.1 > 0).then_some(drawn)
    }

    fn poke(&mut self, lent: &Lent) {
        match self.slice(lent) {
            Some((slice, length)) => {
                let at = self.random.size(0, length - 1);
                let sample = self.sample();
                self.planned
                    .push_back(Operation::Poke { slice, at, sample });
            }
            None => self.process(),
        }
    }

    fn pokes(&mut self, lent: &Lent) {
        match self.slice(lent) {
            Some((slice, length)) => {
                let at = self.random.size(0, length - 1);
                let most = self.random.size(1, 200).min(length - at);
                let segment = self.segment(most);
                self.planned
                    .push_back(Operation::Pokes { slice, at, segment });
            }
            None => self.process(),
        }
    }

    // Numbers that belong together and are others than a call left behind, or numbers that do not.
    fn forge(&mut self, lent: &Lent) {
        if self.random.chance(50) {
            let state = forged::belonging(&mut self.random, &lent.state);
            self.planned.push_back(forged::between(&lent.state, &state));
            if state.source != 0 && state.alloc as usize > lent.history.len() {
                let table = rated(state.source, state.target).table;
                self.lend_for(lent, state.alloc as usize, table);
            }
        } else {
            let setting = forged::astray(&mut self.random, &lent.state);
            self.planned.push_back(Operation::Forge(vec![setting]));
            self.any_call(lent);
        }
    }
}
