// The small program once more, through the real `pipe` and `flush`, in constant memory, to be timed beside ours.
//
// `hour make` writes an hour of noise at 48,000 Hz, with the header that asks for 47,952 Hz. `hour conform` pulls what it
// reads onto the target rate of its header, 1,024 samples at a time, as ours does. It trusts its header and reads whole
// samples only: it is here for its speed, not for its answers.

use std::io::{self, BufReader, BufWriter, Read, Write};
use std::num::NonZeroU32;

use piped_fon::chan::{Channel, Samp32};
use piped_fon::frame::Frame;
use piped_fon::{Audio, Resampler, Sink};

const HEADER: usize = 13;
const BLOCK: usize = 1024;

// A sink that writes what it is given as 16-bit samples.
struct Samples<'a, W: Write> {
    hz: NonZeroU32,
    out: &'a mut W,
}

impl<W: Write> Sink<Samp32, 1> for Samples<'_, W> {
    fn sample_rate(&self) -> NonZeroU32 {
        self.hz
    }

    // More than a block can lead to.
    fn len(&self) -> usize {
        48 * BLOCK + 1
    }

    fn sink_with(&mut self, frames: &mut dyn Iterator<Item = Frame<Samp32, 1>>) {
        for frame in frames {
            let whole = (frame.samples()[0].to_f32() * 32768.0).round();
            let sample = whole.clamp(-32768.0, 32767.0) as i16;
            self.out.write_all(&sample.to_le_bytes()).expect("a write");
        }
    }
}

fn frame(bytes: &[u8]) -> Frame<Samp32, 1> {
    let sample = i16::from_le_bytes([bytes[0], bytes[1]]);
    let mut frame = Frame::default();
    frame.samples_mut()[0] = Samp32::from(f32::from(sample) / 32768.0);
    frame
}

fn conform() -> io::Result<()> {
    let mut input = BufReader::new(io::stdin().lock());
    let mut out = BufWriter::new(io::stdout().lock());
    let mut header = [0; HEADER];
    input.read_exact(&mut header)?;
    let rate = |at: usize| u32::from_le_bytes(header[at..at + 4].try_into().expect("four bytes"));
    let (source, target) = (rate(5), rate(9));
    let hz = NonZeroU32::new(target).expect("a target rate");
    let mut resampler = Resampler::<1>::new(target);
    let mut block = [0; 2 * BLOCK];
    loop {
        let mut size = 0;
        while size < block.len() {
            match input.read(&mut block[size..])? {
                0 => break,
                some => size += some,
            }
        }
        let frames: Vec<_> = block[..size].chunks_exact(2).map(frame).collect();
        if frames.is_empty() {
            break;
        }
        let sink = Samples { hz, out: &mut out };
        resampler.pipe::<Samp32, Samp32, _>(&Audio::with_frames(source, frames), sink);
    }
    resampler.flush::<Samp32, _>(Samples { hz, out: &mut out });
    out.flush()
}

fn make() -> io::Result<()> {
    let mut out = BufWriter::new(io::stdout().lock());
    out.write_all(b"DVS\x01\x00")?;
    out.write_all(&48000u32.to_le_bytes())?;
    out.write_all(&47952u32.to_le_bytes())?;
    let mut x: u32 = 1;
    for _ in 0..3600 * 48000 {
        x = x.wrapping_mul(1664525).wrapping_add(1013904223);
        out.write_all(&((x >> 18) as i16 - 8192).to_le_bytes())?;
    }
    out.flush()
}

fn main() -> io::Result<()> {
    match std::env::args().nth(1).as_deref() {
        Some("make") => make(),
        Some("conform") => conform(),
        _ => {
            eprintln!("usage: hour make|conform");
            Ok(())
        }
    }
}
