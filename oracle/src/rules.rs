// What document 01 adds around the Rust: which call is refused with which number, and which part of a lent slice a call
// may touch. Written from document 01's text; the Rust is asked only for calls that are accepted.

use fon::engine::{Engine, Numbers, DIRECT, INTERPOLATED, NO_KERNEL};

use crate::lent::{Answer, Entries, Lent};

// "Sizes".
pub const LOWEST: u32 = 4_000;
pub const HIGHEST: u32 = 192_000;
pub const LONGEST_HISTORY: u64 = 7_839;
pub const LONGEST_CALL: usize = 16_777_216;

// "Refusal numbers": those that a call can get.
pub const RATE: u32 = 1;
const HISTORY: u32 = 2;
const COEFFICIENTS: u32 = 3;
const EMPTY: u32 = 4;
const TOO_LONG: u32 = 5;
const NO_SOURCE: u32 = 6;
const NOT_TOGETHER: u32 = 7;

pub fn in_limits(hz: u32) -> bool {
    (LOWEST..=HIGHEST).contains(&hz)
}

// "Setting a rate": everything that two rates in limits give.
pub struct Rated {
    num: u32,
    den: u32,
    pub n: u32,
    int: u32,
    frac: u32,
    cutoff: f32,
    oversample: u32,
    pub kernel: u32,
    // How many coefficients are needed.
    pub table: usize,
}

pub fn common_divisor(a: u32, b: u32) -> u32 {
    if b == 0 {
        a
    } else {
        common_divisor(b, a % b)
    }
}

pub fn rated(source: u32, target: u32) -> Rated {
    let factor = common_divisor(source, target);
    let (num, den) = (source / factor, target / factor);
    let mut cutoff = 0.96;
    let mut n = 160;
    let mut oversample = 16;
    if num > den {
        cutoff = (0.96 * den as f32) / num as f32;
        n = (160 * num / den).div_ceil(8) * 8;
        for x in 1..=4 {
            if (1 << x) * den < num {
                oversample /= 2;
            }
        }
    }
    let direct = n * den <= n * oversample + 8 && 536_870_911 / den >= n;
    Rated {
        num,
        den,
        n,
        int: num / den,
        frac: num % den,
        cutoff,
        oversample,
        kernel: if direct { DIRECT } else { INTERPOLATED },
        table: if direct { n * den } else { n * oversample + 8 } as usize,
    }
}

fn fresh(s: &Numbers) -> bool {
    let expected = Numbers {
        target: s.target,
        den: 1,
        buffer: 160,
        cutoff: 1.0f32.to_bits(),
        kernel: NO_KERNEL,
        ..Numbers::default()
    };
    in_limits(s.target) && *s == expected
}

fn as_rated(s: &Numbers, r: &Rated) -> bool {
    (s.num, s.den, s.n, s.int, s.frac) == (r.num, r.den, r.n, r.int, r.frac)
        && s.cutoff == r.cutoff.to_bits()
        && (s.oversample, s.kernel) == (r.oversample, r.kernel)
}

// "A state .. belongs together when".
pub fn belongs_together(s: &Numbers) -> bool {
    if s.source == 0 {
        return fresh(s);
    }
    if !in_limits(s.source) || !in_limits(s.target) || s.buffer != 160 {
        return false;
    }
    let alloc = u64::from(s.alloc);
    let n = u64::from(s.n);
    as_rated(s, &rated(s.source, s.target))
        && (n + 159..=LONGEST_HISTORY).contains(&alloc)
        && s.phase < s.den
        && s.position <= s.n / 2
        && n + 2 * u64::from(s.magic) + 159 <= alloc
        && s.started <= 1
        && (s.started == 1 || s.magic == 0)
}

const ACCEPTED: Answer = (0, 0, 0);

fn refused(number: u32) -> Answer {
    (number, 0, 0)
}

// How long the history has to be where a state is given another rate.
pub fn history_needed(state: &Numbers, new: &Rated) -> usize {
    state.alloc.max(new.n + 159) as usize
}

// The Rust behind the rules: it is asked where a call is accepted.
#[derive(Default)]
pub struct Rules {
    engine: Engine,
}

impl Entries for Rules {
    fn new_state(&self, lent: &mut Lent, target: u32) -> Answer {
        if !in_limits(target) {
            lent.state = Numbers::default();
            return refused(RATE);
        }
        lent.state = self.engine.new_state(target);
        ACCEPTED
    }

    fn set_rate(&self, lent: &mut Lent, source: u32) -> Answer {
        if !belongs_together(&lent.state) {
            return refused(NOT_TOGETHER);
        }
        if !in_limits(source) {
            return refused(RATE);
        }
        if source == lent.state.source {
            return ACCEPTED;
        }
        let new = rated(source, lent.state.target);
        if lent.history.len() < history_needed(&lent.state, &new) {
            return refused(HISTORY);
        }
        if lent.coefficients.len() < new.table {
            return refused(COEFFICIENTS);
        }
        let used = &lent.history[..lent.state.alloc as usize];
        let (mem, table) = self.engine.source_hz(&mut lent.state, source, used);
        // What the Rust made of the rates is what document 01 says.
        assert!(as_rated(&lent.state, &new) && table.len() == new.table);
        assert!(belongs_together(&lent.state));
        lent.history[..mem.len()].copy_from_slice(&mem);
        lent.coefficients[..table.len()].copy_from_slice(&table);
        ACCEPTED
    }

    fn process(&self, lent: &mut Lent, input: &[f32], out: &mut [f32]) -> Answer {
        if !belongs_together(&lent.state) {
            return refused(NOT_TOGETHER);
        }
        if lent.state.source == 0 {
            return refused(NO_SOURCE);
        }
        let alloc = lent.state.alloc as usize;
        let table = rated(lent.state.source, lent.state.target).table;
        if lent.history.len() < alloc {
            return refused(HISTORY);
        }
        if lent.coefficients.len() < table {
            return refused(COEFFICIENTS);
        }
        if input.is_empty() {
            return refused(EMPTY);
        }
        if input.len() > LONGEST_CALL || out.len() > LONGEST_CALL {
            return refused(TOO_LONG);
        }
        let (mem, table) = (&mut lent.history[..alloc], &lent.coefficients[..table]);
        let (consumed, written) =
            self.engine
                .process_float(&mut lent.state, mem, table, input, out);
        assert!(belongs_together(&lent.state));
        (0, consumed, written)
    }

    fn reset(&self, lent: &mut Lent) -> Answer {
        if !belongs_together(&lent.state) {
            return refused(NOT_TOGETHER);
        }
        let alloc = lent.state.alloc as usize;
        if lent.history.len() < alloc {
            return refused(HISTORY);
        }
        self.engine
            .reset_mem(&mut lent.state, &mut lent.history[..alloc]);
        ACCEPTED
    }

    fn skip(&self, lent: &mut Lent) -> Answer {
        if !belongs_together(&lent.state) {
            return refused(NOT_TOGETHER);
        }
        self.engine.skip_zeros(&mut lent.state);
        ACCEPTED
    }
}
