// Values at points: each line of standard input names a point, and is printed with the value there.

use std::io::{self, Read, Write};

use fon::engine;

use crate::lent::{Entries, Lent};
use crate::rules::Rules;
use crate::segments;
use crate::sixteen::to_i16;

fn each_line(mut shown: impl FnMut(&str) -> String) -> io::Result<()> {
    let mut points = String::new();
    io::stdin().read_to_string(&mut points)?;
    let mut values = io::BufWriter::new(io::stdout().lock());
    for point in points.lines() {
        writeln!(values, "{point} {}", shown(point))?;
    }
    values.flush()
}

// `XXXXXXXX`, the bits of an f32: its 16 bits.
pub fn sixteen() -> io::Result<()> {
    each_line(|point| {
        let x = f32::from_bits(u32::from_str_radix(point, 16).expect("bits of an f32"));
        format!("{:04x}", to_i16(x) as u16)
    })
}

// `XXXXXXXXXXXXXXXX`, the bits of an f64: the bits of its sine.
pub fn sine() -> io::Result<()> {
    each_line(|point| {
        let a = f64::from_bits(u64::from_str_radix(point, 16).expect("bits of an f64"));
        format!("{:016x}", engine::sine(a).to_bits())
    })
}

// `SSSSSS TTTTTT IIIII`, source, target, index: the bits of the coefficient there.
pub fn coefficients() -> io::Result<()> {
    let rules = Rules::default();
    let mut lent = Lent::longest();
    each_line(|point| {
        let words: Vec<u32> = point
            .split(' ')
            .map(|w| segments::number(w).expect("a number"))
            .collect();
        if (lent.state.source, lent.state.target) != (words[0], words[1]) {
            assert_eq!(rules.new_state(&mut lent, words[1]).0, 0);
            assert_eq!(rules.set_rate(&mut lent, words[0]).0, 0);
        }
        format!("{:08x}", lent.coefficients[words[2] as usize].to_bits())
    })
}
