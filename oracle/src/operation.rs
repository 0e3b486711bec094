// One operation of a script as data: read from a line, and printed as one. The format is told in docs/REPLAY.md.

use std::fmt::{self, Display, Formatter};

use fon::engine::Numbers;

use crate::segments::{bits, number, Segment};

// The longest history or coefficients, and the longest input or output, that a script can ask for.
pub const LONGEST_LENT: usize = 8_192;
pub const LONGEST_PLAYED: usize = 16_384;

// A lent slice that can be overwritten.
#[derive(Clone, Copy, PartialEq, Eq, Debug)]
pub enum Slice {
    History,
    Coefficients,
}

// A number of the state by its name, and what it becomes.
pub type Setting = (&'static str, u32);

#[derive(Clone, PartialEq, Eq, Debug)]
pub enum Operation {
    New(u32),
    Lend {
        history: usize,
        coefficients: usize,
        fill: u32,
    },
    Rate(u32),
    Process {
        room: usize,
        input: Vec<Segment>,
    },
    Reset,
    Skip,
    Poke {
        slice: Slice,
        at: usize,
        sample: u32,
    },
    Pokes {
        slice: Slice,
        at: usize,
        segment: Segment,
    },
    Forge(Vec<Setting>),
}

// The numbers of a state, in the order in which an answer line prints them.
pub const FIELDS: [&str; 16] = [
    "target",
    "source",
    "num",
    "den",
    "n",
    "alloc",
    "buffer",
    "int",
    "frac",
    "cutoff",
    "oversample",
    "started",
    "kernel",
    "position",
    "phase",
    "magic",
];

// The numbers in that order.
pub fn numbers(state: &mut Numbers) -> [&mut u32; 16] {
    [
        &mut state.target,
        &mut state.source,
        &mut state.num,
        &mut state.den,
        &mut state.n,
        &mut state.alloc,
        &mut state.buffer,
        &mut state.int,
        &mut state.frac,
        &mut state.cutoff,
        &mut state.oversample,
        &mut state.started,
        &mut state.kernel,
        &mut state.position,
        &mut state.phase,
        &mut state.magic,
    ]
}

fn size(word: &str, most: usize) -> Option<usize> {
    number(word).map(|n| n as usize).filter(|&n| n <= most)
}

fn slice(word: &str) -> Option<Slice> {
    match word {
        "h" => Some(Slice::History),
        "c" => Some(Slice::Coefficients),
        _ => None,
    }
}

// Segments that are together no longer than an input can be.
fn segments(words: &[&str]) -> Option<Vec<Segment>> {
    let parsed: Vec<Segment> = words
        .iter()
        .map(|w| Segment::parse(w))
        .collect::<Option<_>>()?;
    let count: usize = parsed.iter().map(Segment::count).sum();
    (count <= LONGEST_PLAYED).then_some(parsed)
}

fn setting(word: &str) -> Option<Setting> {
    let (name, value) = word.split_once('=')?;
    let name = FIELDS.into_iter().find(|&field| field == name)?;
    let value = if name == "cutoff" {
        bits(value)
    } else {
        number(value)
    };
    Some((name, value?))
}

impl Operation {
    // None: the line is no operation.
    pub fn parse(line: &str) -> Option<Operation> {
        let words: Vec<&str> = line.split(' ').collect();
        Some(match *words {
            ["new", target] => Operation::New(number(target)?),
            ["lend", history, coefficients, fill] => Operation::Lend {
                history: size(history, LONGEST_LENT)?,
                coefficients: size(coefficients, LONGEST_LENT)?,
                fill: bits(fill)?,
            },
            ["rate", source] => Operation::Rate(number(source)?),
            ["process", room, ref input @ ..] => Operation::Process {
                room: size(room, LONGEST_PLAYED)?,
                input: segments(input)?,
            },
            ["reset"] => Operation::Reset,
            ["skip"] => Operation::Skip,
            ["poke", which, at, sample] => Operation::Poke {
                slice: slice(which)?,
                at: number(at)? as usize,
                sample: bits(sample)?,
            },
            ["pokes", which, at, samples] => Operation::Pokes {
                slice: slice(which)?,
                at: number(at)? as usize,
                segment: segments(&[samples])?.remove(0),
            },
            ["forge", ref settings @ ..] => {
                Operation::Forge(settings.iter().map(|w| setting(w)).collect::<Option<_>>()?)
            }
            _ => return None,
        })
    }

    // The word that its line begins with.
    pub fn word(&self) -> &'static str {
        match self {
            Operation::New(_) => "new",
            Operation::Lend { .. } => "lend",
            Operation::Rate(_) => "rate",
            Operation::Process { .. } => "process",
            Operation::Reset => "reset",
            Operation::Skip => "skip",
            Operation::Poke { .. } => "poke",
            Operation::Pokes { .. } => "pokes",
            Operation::Forge(_) => "forge",
        }
    }
}

impl Display for Slice {
    fn fmt(&self, f: &mut Formatter) -> fmt::Result {
        f.write_str(match self {
            Slice::History => "h",
            Slice::Coefficients => "c",
        })
    }
}

fn print_settings(f: &mut Formatter, settings: &[Setting]) -> fmt::Result {
    for &(name, value) in settings {
        if name == "cutoff" {
            write!(f, " {name}={value:08x}")?;
        } else {
            write!(f, " {name}={value}")?;
        }
    }
    Ok(())
}

impl Display for Operation {
    fn fmt(&self, f: &mut Formatter) -> fmt::Result {
        f.write_str(self.word())?;
        match self {
            Operation::New(hz) | Operation::Rate(hz) => write!(f, " {hz}"),
            Operation::Lend {
                history,
                coefficients,
                fill,
            } => {
                write!(f, " {history} {coefficients} {fill:08x}")
            }
            Operation::Process { room, input } => {
                write!(f, " {room}")?;
                input.iter().try_for_each(|segment| write!(f, " {segment}"))
            }
            Operation::Reset | Operation::Skip => Ok(()),
            Operation::Poke { slice, at, sample } => write!(f, " {slice} {at} {sample:08x}"),
            Operation::Pokes { slice, at, segment } => write!(f, " {slice} {at} {segment}"),
            Operation::Forge(settings) => print_settings(f, settings),
        }
    }
}
