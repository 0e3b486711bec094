// What is timed: streams of engines. An engine that is not installed is not among them.

use crate::ours::Ours;
use crate::plain::engine::Kept;

#[cfg(libsamplerate)]
use crate::libsamplerate;
#[cfg(soxr)]
use crate::soxr;
#[cfg(speexdsp)]
use crate::speexdsp;

// One stream, from one rate to another.
pub trait Stream {
    // Answers how many samples were read and how many outputs written.
    fn process(&mut self, input: &[f32], out: &mut [f32]) -> (usize, usize);
}

impl Stream for Kept {
    fn process(&mut self, input: &[f32], out: &mut [f32]) -> (usize, usize) {
        Kept::process(self, input, out)
    }
}

// A new stream from the first rate to the second; None where the engine refuses them.
type Open = fn(u32, u32) -> Option<Box<dyn Stream>>;

#[derive(Clone, Copy)]
pub struct Engine {
    pub name: &'static str,
    pub open: Open,
    // Whether it reads no more than it needs. One that does not, with room 1 keeps more and more samples back.
    pub reads_as_needed: bool,
}

pub const RUST: Engine = Engine {
    name: "the Rust",
    open: |source, target| Some(Box::new(Kept::new(source, target))),
    reads_as_needed: true,
};

pub const OURS: Engine = Engine {
    name: "ours",
    open: |source, target| Some(Box::new(Ours::new(source, target))),
    reads_as_needed: true,
};

// The Rust is the first: the others are told as ratios to it.
pub fn all() -> Vec<Engine> {
    vec![
        RUST,
        OURS,
        #[cfg(speexdsp)]
        Engine {
            name: "SpeexDSP 8",
            open: speexdsp::open,
            reads_as_needed: true,
        },
        #[cfg(libsamplerate)]
        Engine {
            name: "libsamplerate medium",
            open: |source, target| libsamplerate::open(libsamplerate::MEDIUM, source, target),
            reads_as_needed: true,
        },
        #[cfg(libsamplerate)]
        Engine {
            name: "libsamplerate best",
            open: |source, target| libsamplerate::open(libsamplerate::BEST, source, target),
            reads_as_needed: true,
        },
        #[cfg(soxr)]
        Engine {
            name: "soxr HQ",
            open: soxr::open,
            reads_as_needed: false,
        },
    ]
}

// Reads the whole block, in as many calls as the room asks for; what a call did not read is offered again. Answers how many
// outputs were written.
pub fn feed(stream: &mut dyn Stream, block: &[f32], out: &mut [f32]) -> usize {
    let mut left = block;
    let mut total = 0;
    while !left.is_empty() {
        let (consumed, written) = stream.process(left, out);
        assert!(consumed + written > 0, "a call that read and wrote nothing");
        left = &left[consumed..];
        total += written;
    }
    total
}
