// Plays the same scripts as the oracle's program, but through the real `pipe` and `flush` of resampler.rs. It knows `new`,
// `rate` and `process`; the line `# flush` has the next `process` done by `flush`. For each `process` it prints what an
// answer line holds of it: consumed, written, the hash of the output slice, the outputs. `lend` is passed over.

use std::io::{self, Read};
use std::num::NonZeroU32;

use piped_fon::chan::{Channel, Samp32};
use piped_fon::frame::Frame;
use piped_fon::{Audio, Resampler, Sink};

#[path = "../segments.rs"]
mod segments;

use segments::Segment;

// A sink that keeps what it is given, in a slice as long as the script's room.
struct Kept<'a> {
    hz: NonZeroU32,
    out: &'a mut [f32],
    written: &'a mut usize,
}

impl Sink<Samp32, 1> for Kept<'_> {
    fn sample_rate(&self) -> NonZeroU32 {
        self.hz
    }

    fn len(&self) -> usize {
        self.out.len()
    }

    fn sink_with(&mut self, frames: &mut dyn Iterator<Item = Frame<Samp32, 1>>) {
        for frame in frames {
            self.out[*self.written] = frame.samples()[0].to_f32();
            *self.written += 1;
        }
    }
}

fn audio(source: u32, input: &[f32]) -> Audio<Samp32, 1> {
    let frame = |&x: &f32| {
        let mut frame = Frame::default();
        frame.samples_mut()[0] = Samp32::from(x);
        frame
    };
    Audio::with_frames(source, input.iter().map(frame).collect())
}

// One stream of a script.
struct Stream {
    target: u32,
    source: u32,
    resampler: Option<Resampler<1>>,
}

impl Stream {
    // A `process` line: its room, its samples. All samples are read, since the room is large enough.
    fn process(&mut self, room: usize, input: &[f32], flush: bool) {
        let mut out = segments::unwritten(room);
        let mut written = 0;
        let sink = Kept {
            hz: NonZeroU32::new(self.target).expect("a target rate"),
            out: &mut out,
            written: &mut written,
        };
        if flush {
            self.resampler
                .take()
                .expect("a stream")
                .flush::<Samp32, _>(sink);
        } else {
            let resampler = self.resampler.as_mut().expect("a stream");
            resampler.pipe::<Samp32, Samp32, _>(&audio(self.source, input), sink);
        }
        let shown = segments::print(&out[..written]);
        println!(
            "{} {written} {} |{shown}",
            input.len(),
            segments::hash(&out)
        );
    }
}

fn input(words: &[&str]) -> Vec<f32> {
    let segment = |word: &&str| Segment::parse(word).expect("a segment");
    segments::samples(&words.iter().map(segment).collect::<Vec<_>>())
}

fn main() -> io::Result<()> {
    let mut script = String::new();
    io::stdin().read_to_string(&mut script)?;
    let mut stream = Stream {
        target: 0,
        source: 0,
        resampler: None,
    };
    let mut flush = false;
    for line in script.lines() {
        let words: Vec<&str> = line.split(' ').collect();
        let number = |i: usize| segments::number(words[i]).expect("a number");
        match words[0] {
            "new" => {
                stream.target = number(1);
                stream.resampler = Some(Resampler::new(stream.target));
            }
            "rate" => stream.source = number(1),
            "process" => {
                stream.process(number(1) as usize, &input(&words[2..]), flush);
                flush = false;
            }
            "#" => flush = words[1..] == ["flush"],
            _ => {}
        }
    }
    Ok(())
}
