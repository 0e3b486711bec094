// How the cost grows with the work: lines for `bench/growth.tsv`, each a panel of the picture, a place on its x axis, an engine, and
// the time in ns.

use crate::cases::{noise, Case, BLOCK, DRIFT};
use crate::engines::{feed, Engine, Stream, OURS, RUST};
use crate::measure::{in_turn, now, Effort, Spread, Work};
use crate::same::same;
use crate::tables::blocks;

fn line(panel: &str, at: usize, engine: &str, time: f64) {
    println!("{panel}\t{at}\t{engine}\t{time:.4}");
}

fn open(engine: Engine, case: &Case) -> Box<dyn Stream> {
    (engine.open)(case.source, case.target).expect("rates in limits")
}

// The median time of an output in ns, of the Rust and of ours, at each case with its block size. All have their turn in one round, so
// that a minute in which the machine is slow does not look like growth.
fn an_output(
    points: &[(Case, usize)],
    samples: &[f32],
    effort: Effort,
) -> Result<Vec<[f64; 2]>, String> {
    let mut works: Vec<Work> = Vec::new();
    for (case, block) in points {
        let room = case.room(*block);
        same(case, samples, *block, room)?;
        works.extend([RUST, OURS].map(|engine| blocks(open(engine, case), samples, *block, room)));
    }
    let times = in_turn(&mut works, effort);
    let medians: Vec<f64> = times.iter().map(|times| Spread::of(times).median).collect();
    Ok(medians
        .chunks_exact(2)
        .map(|two| [two[0], two[1]])
        .collect())
}

// From k times 4,000 Hz: to 4,000 Hz with the direct kernel, to 4,004 Hz with the interpolated one. n is k times 160, or a little
// less. An output is a sum over n samples, so its time grows with n; what has to be flat is the time of one of them.
fn lengths_of_filter(samples: &[f32], effort: Effort) -> Result<(), String> {
    let mut points = Vec::new();
    for target in [4_000, 4_004] {
        for k in [1, 2, 3, 4, 6, 8, 12, 16, 24, 32, 48] {
            let source = k * 4_000;
            points.push((
                Case {
                    name: "",
                    source,
                    target,
                },
                BLOCK,
            ));
        }
    }
    let times = an_output(&points, samples, effort)?;
    for ((case, _), [rust, ours]) in points.iter().zip(times) {
        let (n, kernel) = case.filter();
        line(kernel, n, RUST.name, rust / n as f64);
        line(kernel, n, OURS.name, ours / n as f64);
    }
    Ok(())
}

fn sizes_of_block(samples: &[f32], effort: Effort) -> Result<(), String> {
    let points: Vec<(Case, usize)> = (0..=14).map(|power| (DRIFT, 1 << power)).collect();
    let times = an_output(&points, samples, effort)?;
    for ((_, block), [rust, ours]) in points.iter().zip(times) {
        line("block", *block, RUST.name, rust);
        line("block", *block, OURS.name, ours);
    }
    Ok(())
}

// A recording at 8,000 Hz of the same ratio as DRIFT: ten hours of it are done in minutes.
const RECORDED: Case = Case {
    name: "",
    source: 8_000,
    target: 7_992,
};

// One recording of so many seconds, from new streams; the Rust and ours in turn, about a second at a time. The time of an output.
fn recording(samples: &[f32], seconds: usize) -> [f64; 2] {
    let mut streams = [open(RUST, &RECORDED), open(OURS, &RECORDED)];
    let mut out = vec![1.0; RECORDED.room(BLOCK)];
    let mut times = [0.0; 2];
    let mut outputs = [0; 2];
    let blocks = (seconds * RECORDED.source as usize).div_ceil(BLOCK);
    let mut chunks = samples.chunks_exact(BLOCK).cycle().take(blocks);
    loop {
        let turn: Vec<&[f32]> = chunks.by_ref().take(8).collect();
        if turn.is_empty() {
            return [0, 1].map(|i| times[i] / outputs[i] as f64);
        }
        for i in 0..2 {
            let start = now();
            for block in &turn {
                outputs[i] += feed(&mut *streams[i], block, &mut out);
            }
            times[i] += now() - start;
        }
    }
}

// Each length as often as fits into an hour of sound, but once at least and no more than the effort's rounds.
fn lengths_of_recording(samples: &[f32], effort: Effort, longest: usize) {
    let lengths = [1, 10, 60, 600, 3_600, 36_000];
    let lengths: Vec<usize> = lengths.into_iter().filter(|&s| s <= longest).collect();
    let mut times = vec![[Vec::new(), Vec::new()]; lengths.len()];
    for round in 0..effort.rounds {
        for (seconds, times) in lengths.iter().zip(&mut times) {
            if round < (3_600 / seconds).max(1) {
                let [rust, ours] = recording(samples, *seconds);
                times[0].push(rust);
                times[1].push(ours);
            }
        }
    }
    for (seconds, [rust, ours]) in lengths.iter().zip(&times) {
        line("length", *seconds, RUST.name, Spread::of(rust).median);
        line("length", *seconds, OURS.name, Spread::of(ours).median);
    }
}

// `longest` is the longest recording in seconds.
pub fn print(effort: Effort, longest: usize) -> Result<(), String> {
    let samples = noise();
    println!("panel\tat\tengine\tns");
    lengths_of_filter(&samples, effort)?;
    sizes_of_block(&samples, effort)?;
    same(&RECORDED, &samples, BLOCK, RECORDED.room(BLOCK))?;
    lengths_of_recording(&samples, effort, longest);
    Ok(())
}
