// Plays a script of calls and prints an answer line for each operation. The format is told in docs/REPLAY.md.

use std::io::{self, Read, Write};
use std::slice::from_ref;

use crate::lent::{Answer, Entries, Lent};
use crate::operation::{numbers, Operation, Setting, Slice, FIELDS};
use crate::segments::{self, Segment};

// What an operation answers, and the outputs with the room they had. None: it cannot be played.
pub type Played = Option<(Answer, Vec<f32>)>;

fn answered(answer: Answer) -> Played {
    Some((answer, Vec::new()))
}

fn no_call() -> Played {
    answered((0, 0, 0))
}

fn process(entries: &impl Entries, lent: &mut Lent, room: usize, input: &[Segment]) -> Played {
    let input = segments::samples(input);
    let mut out = segments::unwritten(room);
    let answer = entries.process(lent, &input, &mut out);
    Some((answer, out))
}

fn poke(lent: &mut Lent, slice: Slice, at: usize, samples: &[f32]) -> Played {
    let slice = match slice {
        Slice::History => &mut lent.history,
        Slice::Coefficients => &mut lent.coefficients,
    };
    slice
        .get_mut(at..at + samples.len())?
        .copy_from_slice(samples);
    no_call()
}

fn forge(lent: &mut Lent, settings: &[Setting]) -> Played {
    for &(name, value) in settings {
        let field = FIELDS.iter().position(|&field| field == name)?;
        *numbers(&mut lent.state)[field] = value;
    }
    no_call()
}

pub fn play(entries: &impl Entries, lent: &mut Lent, operation: &Operation) -> Played {
    match *operation {
        Operation::New(target) => answered(entries.new_state(lent, target)),
        Operation::Lend {
            history,
            coefficients,
            fill,
        } => {
            lent.history.resize(history, f32::from_bits(fill));
            lent.coefficients.resize(coefficients, f32::from_bits(fill));
            no_call()
        }
        Operation::Rate(source) => answered(entries.set_rate(lent, source)),
        Operation::Process { room, ref input } => process(entries, lent, room, input),
        Operation::Reset => answered(entries.reset(lent)),
        Operation::Skip => answered(entries.skip(lent)),
        Operation::Poke { slice, at, sample } => poke(lent, slice, at, &[f32::from_bits(sample)]),
        Operation::Pokes {
            slice,
            at,
            ref segment,
        } => poke(lent, slice, at, &segments::samples(from_ref(segment))),
        Operation::Forge(ref settings) => forge(lent, settings),
    }
}

fn print_state(lent: &Lent) -> String {
    let mut state = lent.state;
    let shown = |(name, value): (&str, &mut u32)| match name {
        "cutoff" => format!("{:08x} ", segments::word(f32::from_bits(*value))),
        _ => format!("{value} "),
    };
    FIELDS
        .into_iter()
        .zip(numbers(&mut state))
        .map(shown)
        .collect()
}

pub fn answer_line(lent: &Lent, (refusal, consumed, written): Answer, out: &[f32]) -> String {
    format!(
        "= {refusal} {consumed} {written} | {}| {} {} {} |{}",
        print_state(lent),
        segments::hash(&lent.history),
        segments::hash(&lent.coefficients),
        segments::hash(out),
        segments::print(&out[..written as usize]),
    )
}

// Plays standard input on these entries, and prints the answers on standard output.
pub fn replay(entries: &impl Entries) -> io::Result<()> {
    let mut script = String::new();
    io::stdin().read_to_string(&mut script)?;
    let mut answers = io::BufWriter::new(io::stdout().lock());
    let mut lent = Lent::default();
    for (i, line) in script.split('\n').enumerate() {
        if line.is_empty() || line.starts_with('#') {
            continue;
        }
        match Operation::parse(line).and_then(|operation| play(entries, &mut lent, &operation)) {
            Some((answer, out)) => writeln!(answers, "{}", answer_line(&lent, answer, &out))?,
            None => {
                writeln!(answers, "bad line {}", i + 1)?;
                break;
            }
        }
    }
    answers.flush()
}
