// How often each kind of call, refusal, branch and size was met. Every name is listed, so that one which was never met
// shows as 0. Refusal 5 is not among them: its calls are longer than a script's, and longest_call.rs makes them.

use std::cmp::Ordering;
use std::collections::BTreeMap;

use fon::engine::{muldiv_panics, Numbers, DIRECT};

use crate::compare::Side;
use crate::operation::{Operation, LONGEST_PLAYED};
use crate::rules::{belongs_together, history_needed, in_limits, rated, HIGHEST, LOWEST};
use crate::segments::{Kind, Segment};

const NAMES: &[&str] = &[
    "operation new",
    "operation lend",
    "operation rate",
    "operation process",
    "operation reset",
    "operation skip",
    "operation poke",
    "operation pokes",
    "operation forge",
    "new accepted",
    "new refused 1",
    "rate accepted",
    "rate refused 1",
    "rate refused 2",
    "rate refused 3",
    "rate refused 7",
    "process accepted",
    "process refused 2",
    "process refused 3",
    "process refused 4",
    "process refused 6",
    "process refused 7",
    "reset accepted",
    "reset refused 2",
    "reset refused 7",
    "skip accepted",
    "skip refused 7",
    "accepted after a refused call",
    "same rate again",
    "same rate again, slices too short",
    "rate: the first of a state",
    "rate: not started",
    "rate: filter longer, no magic",
    "rate: filter longer, magic, none left",
    "rate: filter longer, magic, some left",
    "rate: filter shorter, no magic",
    "rate: filter shorter, magic",
    "rate: filter as long, no magic",
    "rate: filter as long, magic",
    "rate: alloc grows",
    "rate: alloc stays",
    "rate: the Rust would panic on the phase",
    "rate: history exact",
    "rate: history longer",
    "rate: history shorter by one",
    "rate: coefficients exact",
    "rate: coefficients longer",
    "rate: coefficients shorter by one",
    "pair: equal",
    "pair: up",
    "pair: down",
    "pair: no more than 20 to 20",
    "pair: 1 to 50 Hz apart",
    "pair: den above 65,536",
    "pair: one is 4,000",
    "pair: one is 192,000",
    "pair: 48 to 1",
    "pair: 1 to 48",
    "pair: direct, oversample 1",
    "pair: direct, oversample 2",
    "pair: direct, oversample 4",
    "pair: direct, oversample 8",
    "pair: direct, oversample 16",
    "pair: interpolated, oversample 1",
    "pair: interpolated, oversample 2",
    "pair: interpolated, oversample 4",
    "pair: interpolated, oversample 8",
    "pair: interpolated, oversample 16",
    "process: room 0",
    "process: room 1",
    "process: room 2 to 16",
    "process: room 17 to 1,024",
    "process: room above 1,024",
    "process: room 16,384",
    "process: input 1",
    "process: input 2 to 16",
    "process: input 17 to 1,024",
    "process: input above 1,024",
    "process: input 16,384",
    "process: magic samples first",
    "process: magic samples first, room 0",
    "process: magic samples left",
    "process: more read than a chunk",
    "process: input read to its end",
    "process: input left over",
    "process: NaN among the outputs",
    "process: alloc more than the filter needs",
    "process: history exact",
    "process: history longer",
    "process: history shorter by one",
    "process: coefficients exact",
    "process: coefficients longer",
    "process: coefficients shorter by one",
    "segment b",
    "segment c",
    "segment r",
    "segment s",
    "segment d",
    "forged, back as it was",
    "forged, belongs",
    "forged, does not belong",
    "forged, kernel 3 or more",
    "forged, cutoff NaN",
    "accepted on a forged state",
];

pub struct Tally {
    met: BTreeMap<&'static str, u64>,
    operations: u64,
    outputs: u64,
    // Whether the last call was refused.
    refused: bool,
    // The last state that belonged together, and whether it comes from a forged one.
    good: Numbers,
    forged: bool,
}

// "exact", "longer" or "shorter by one"; other lengths are not counted.
fn length_name(length: usize, needed: usize) -> Option<&'static str> {
    match length {
        _ if length > needed => Some("longer"),
        _ if length == needed => Some("exact"),
        _ if length + 1 == needed => Some("shorter by one"),
        _ => None,
    }
}

fn segment_name(segment: &Segment) -> &'static str {
    match segment {
        Segment::Listed(_) => "segment b",
        Segment::Constant { .. } => "segment c",
        Segment::Drawn { kind, .. } => match kind {
            Kind::Uniform => "segment r",
            Kind::Special => "segment s",
            Kind::Subnormal => "segment d",
        },
    }
}

fn size_name(size: usize) -> &'static str {
    match size {
        0 => "0",
        1 => "1",
        2..=16 => "2 to 16",
        17..=1_024 => "17 to 1,024",
        LONGEST_PLAYED => "16,384",
        _ => "above 1,024",
    }
}

// Document 01's branches of "Setting a rate".
fn branch_name(before: &Numbers, n: u32) -> &'static str {
    let held = before.n + 2 * before.magic;
    match (n.cmp(&before.n), before.magic > 0) {
        _ if before.source == 0 => "the first of a state",
        _ if before.started == 0 => "not started",
        (Ordering::Greater, false) => "filter longer, no magic",
        (Ordering::Greater, true) if n > held => "filter longer, magic, none left",
        (Ordering::Greater, true) => "filter longer, magic, some left",
        (Ordering::Less, false) => "filter shorter, no magic",
        (Ordering::Less, true) => "filter shorter, magic",
        (Ordering::Equal, false) => "filter as long, no magic",
        (Ordering::Equal, true) => "filter as long, magic",
    }
}

impl Tally {
    pub fn new() -> Tally {
        Tally {
            met: NAMES.iter().map(|&name| (name, 0)).collect(),
            operations: 0,
            outputs: 0,
            refused: false,
            good: Numbers::default(),
            forged: false,
        }
    }

    // A new sequence: nothing was played before.
    pub fn begin(&mut self) {
        self.refused = false;
        self.good = Numbers::default();
        self.forged = false;
    }

    // How many operations were counted.
    pub fn operations(&self) -> u64 {
        self.operations
    }

    fn add(&mut self, name: &str) {
        match self.met.get_mut(name) {
            Some(count) => *count += 1,
            None => panic!("no such name: {name}"),
        }
    }

    fn add_where(&mut self, holds: bool, name: &str) {
        if holds {
            self.add(name);
        }
    }

    // The state before the operation, and what the Rust's side is after it.
    pub fn count(&mut self, before: &Numbers, operation: &Operation, after: &Side) {
        self.operations += 1;
        self.add(&format!("operation {}", operation.word()));
        match operation {
            Operation::New(_) => self.forged = false,
            Operation::Rate(source) => self.rate(before, *source, after),
            Operation::Process { room, input } => self.process(before, *room, input, after),
            Operation::Forge(_) => self.forge(after),
            Operation::Reset | Operation::Skip => {}
            Operation::Lend { .. } | Operation::Poke { .. } | Operation::Pokes { .. } => {}
        }
        self.answer(operation, after);
        if belongs_together(&after.lent.state) {
            self.good = after.lent.state;
        }
    }

    fn answer(&mut self, operation: &Operation, after: &Side) {
        let call = match operation {
            Operation::New(_) | Operation::Rate(_) | Operation::Process { .. } => operation.word(),
            Operation::Reset | Operation::Skip => operation.word(),
            _ => return,
        };
        let number = after.answer.0;
        if number == 0 {
            self.add(&format!("{call} accepted"));
            self.add_where(self.refused, "accepted after a refused call");
            self.add_where(self.forged, "accepted on a forged state");
        } else {
            self.add(&format!("{call} refused {number}"));
        }
        self.refused = number != 0;
    }

    // How long the lent slices are, beside what the call needs.
    fn lengths(&mut self, call: &str, after: &Side, history: usize, coefficients: usize) {
        if let Some(name) = length_name(after.lent.history.len(), history) {
            self.add(&format!("{call}: history {name}"));
        }
        if let Some(name) = length_name(after.lent.coefficients.len(), coefficients) {
            self.add(&format!("{call}: coefficients {name}"));
        }
    }

    fn rate(&mut self, before: &Numbers, source: u32, after: &Side) {
        if !belongs_together(before) || !in_limits(source) {
            return;
        }
        let new = rated(source, before.target);
        let history = history_needed(before, &new);
        let lent = &after.lent;
        if source == before.source {
            let short = lent.history.len() < history || lent.coefficients.len() < new.table;
            self.add("same rate again");
            self.add_where(short, "same rate again, slices too short");
            return;
        }
        self.lengths("rate", after, history, new.table);
        if after.answer.0 == 0 {
            self.change(before, &lent.state);
            self.pair(&lent.state);
        }
    }

    fn change(&mut self, before: &Numbers, state: &Numbers) {
        self.add(&format!("rate: {}", branch_name(before, state.n)));
        let alloc = if state.alloc > before.alloc {
            "grows"
        } else {
            "stays"
        };
        self.add(&format!("rate: alloc {alloc}"));
        let panics = muldiv_panics(before.phase, state.den);
        self.add_where(panics, "rate: the Rust would panic on the phase");
    }

    fn pair(&mut self, state: &Numbers) {
        let (source, target) = (state.source, state.target);
        self.add(match source.cmp(&target) {
            Ordering::Equal => "pair: equal",
            Ordering::Less => "pair: up",
            Ordering::Greater => "pair: down",
        });
        let apart = source.abs_diff(target);
        self.add_where(
            state.num.max(state.den) <= 20,
            "pair: no more than 20 to 20",
        );
        self.add_where((1..=50).contains(&apart), "pair: 1 to 50 Hz apart");
        self.add_where(state.den > 65_536, "pair: den above 65,536");
        self.add_where([source, target].contains(&LOWEST), "pair: one is 4,000");
        self.add_where([source, target].contains(&HIGHEST), "pair: one is 192,000");
        self.add_where((state.num, state.den) == (48, 1), "pair: 48 to 1");
        self.add_where((state.num, state.den) == (1, 48), "pair: 1 to 48");
        let kernel = if state.kernel == DIRECT {
            "direct"
        } else {
            "interpolated"
        };
        self.add(&format!("pair: {kernel}, oversample {}", state.oversample));
    }

    fn process(&mut self, before: &Numbers, room: usize, input: &[Segment], after: &Side) {
        if belongs_together(before) && before.source != 0 {
            let table = rated(before.source, before.target).table;
            self.lengths("process", after, before.alloc as usize, table);
        }
        if after.answer.0 != 0 {
            return;
        }
        for segment in input {
            self.add(segment_name(segment));
        }
        let length: usize = input.iter().map(Segment::count).sum();
        self.add(&format!("process: room {}", size_name(room)));
        self.add(&format!("process: input {}", size_name(length)));
        self.round(before, room, length, after);
    }

    fn round(&mut self, before: &Numbers, room: usize, length: usize, after: &Side) {
        let (_, consumed, written) = after.answer;
        let magic = before.magic > 0;
        let chunk = before.alloc - before.n - 1;
        let all_read = consumed as usize == length;
        let outputs = &after.out[..written as usize];
        self.outputs += u64::from(written);
        self.add_where(magic, "process: magic samples first");
        self.add_where(magic && room == 0, "process: magic samples first, room 0");
        self.add_where(after.lent.state.magic > 0, "process: magic samples left");
        self.add_where(consumed > chunk, "process: more read than a chunk");
        self.add_where(all_read, "process: input read to its end");
        self.add_where(!all_read, "process: input left over");
        self.add_where(
            outputs.iter().any(|x| x.is_nan()),
            "process: NaN among the outputs",
        );
        self.add_where(
            before.alloc > before.n + 159,
            "process: alloc more than the filter needs",
        );
    }

    fn forge(&mut self, after: &Side) {
        let state = &after.lent.state;
        if !belongs_together(state) {
            self.add("forged, does not belong");
        } else if *state == self.good {
            self.add("forged, back as it was");
        } else {
            self.add("forged, belongs");
            self.forged = true;
        }
        self.add_where(state.kernel > 2, "forged, kernel 3 or more");
        self.add_where(f32::from_bits(state.cutoff).is_nan(), "forged, cutoff NaN");
    }

    // What was never met.
    pub fn missing(&self) -> Vec<&'static str> {
        NAMES
            .iter()
            .copied()
            .filter(|name| self.met[name] == 0)
            .collect()
    }

    pub fn print(&self) {
        for name in NAMES {
            println!("{:>10}  {name}", self.met[name]);
        }
        println!("{:>10}  outputs compared", self.outputs);
    }
}
