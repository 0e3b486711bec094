// The tables of `bench/run`, in Markdown.

use std::hint::black_box;

use crate::cases::{noise, Case, BLOCK, CASES, MOST_STEPS};
use crate::engines::{all, feed, Engine, Stream};
use crate::measure::{in_turn, Effort, Spread, Work};
use crate::ours::Ours;
use crate::plain::engine::Kept;
use crate::same::{change_noticed, same, Compared};

#[cfg(speexdsp)]
use crate::speexdsp::Speex;

const REFUSED: &str = "refused";

pub fn ratio(spread: Spread) -> String {
    let Spread { low, median, high } = spread;
    format!("{median:.2} ({low:.2} to {high:.2})")
}

pub fn row(cells: &[String]) {
    println!("| {} |", cells.join(" | "));
}

pub fn head(cells: &[String]) {
    row(cells);
    println!("|{}", "---|".repeat(cells.len()));
}

// A paragraph, in lines as long as those of our pages.
pub fn say(words: &str) {
    let mut line = String::new();
    for word in words.split(' ') {
        if !line.is_empty() && line.len() + 1 + word.len() > 130 {
            println!("{line}");
            line.clear();
        }
        if !line.is_empty() {
            line.push(' ');
        }
        line.push_str(word);
    }
    println!("{line}\n");
}

// 1234567 as 1,234,567.
fn grouped(number: f64) -> String {
    let digits = format!("{number:.0}");
    let mut text = String::new();
    for (i, digit) in digits.chars().enumerate() {
        if i > 0 && (digits.len() - i) % 3 == 0 {
            text.push(',');
        }
        text.push(digit);
    }
    text
}

// Feeds a stream with the noise, block after block, which starts again at its end. The output's entries are written here, before
// anything is timed.
pub fn blocks<'a>(
    mut stream: Box<dyn Stream>,
    samples: &'a [f32],
    block: usize,
    room: usize,
) -> Work<'a> {
    let mut out = vec![1.0; room];
    let mut chunks = samples.chunks_exact(block).cycle();
    Box::new(move |steps| {
        let chunks = chunks.by_ref().take(steps);
        chunks
            .map(|block| feed(&mut *stream, block, &mut out))
            .sum()
    })
}

// One row's times: for each engine its own, None where it refuses the rates.
fn streams(
    engines: &[Engine],
    case: &Case,
    samples: &[f32],
    room: usize,
    effort: Effort,
) -> Vec<Option<Vec<f64>>> {
    let opened: Vec<_> = engines
        .iter()
        .map(|engine| (engine.open)(case.source, case.target))
        .collect();
    let refused: Vec<bool> = opened.iter().map(Option::is_none).collect();
    let mut works: Vec<Work> = opened
        .into_iter()
        .flatten()
        .map(|stream| blocks(stream, samples, BLOCK, room))
        .collect();
    let mut times = in_turn(&mut works, effort).into_iter();
    refused
        .into_iter()
        .map(|refused| if refused { None } else { times.next() })
        .collect()
}

// The ratios to the first, the Rust, of all that follow it.
fn ratios(times: &[Option<Vec<f64>>]) -> Vec<String> {
    let Some(Some(base)) = times.first() else {
        return Vec::new();
    };
    let cell = |times: &Option<Vec<f64>>| match times {
        None => REFUSED.to_string(),
        Some(times) => ratio(Spread::of_ratios(times, base)),
    };
    times[1..].iter().map(cell).collect()
}

// The room that a call gets.
enum Room {
    Enough,
    One,
}

impl Room {
    // Whether an engine's outputs keep step with what it reads.
    fn suits(&self, engine: &Engine) -> bool {
        matches!(self, Room::Enough) || engine.reads_as_needed
    }
}

fn streams_table(room: &Room, samples: &[f32], effort: Effort) -> Result<Compared, String> {
    let engines: Vec<Engine> = all()
        .into_iter()
        .filter(|engine| room.suits(engine))
        .collect();
    let mut cells: Vec<String> = ["case", "rates", "n, kernel"].map(String::from).to_vec();
    cells.extend(engines[1..].iter().map(|engine| engine.name.to_string()));
    cells.extend(["ours, ns an output", "ours, outputs a second"].map(String::from));
    head(&cells);
    let mut all_compared = Compared::default();
    for case in &CASES {
        let room = match room {
            Room::Enough => case.room(BLOCK),
            Room::One => 1,
        };
        let compared = same(case, samples, BLOCK, room)?;
        all_compared.calls += compared.calls;
        all_compared.outputs += compared.outputs;
        let times = streams(&engines, case, samples, room, effort);
        let (n, kernel) = case.filter();
        let mut cells = vec![
            case.name.to_string(),
            case.rates(),
            format!("{n}, {kernel}"),
        ];
        cells.extend(ratios(&times));
        let ours = Spread::of(times[1].as_ref().expect("ours takes all cases")).median;
        cells.extend([format!("{ours:.0}"), grouped(1e9 / ours)]);
        row(&cells);
    }
    Ok(all_compared)
}

fn say_compared(compared: Compared) {
    println!();
    say(&format!(
        "The same bits: before the time ours and the Rust with document 01's sine (one line of `math.rs` changed) were given the same \
         calls, 65,536 samples in each case; coefficients, history, consumed, written and all outputs were equal, {} outputs in {} \
         calls. The timed calls go on with the same samples and are not compared.",
        grouped(compared.outputs as f64),
        grouped(compared.calls as f64)
    ));
}

// The time of a new state and its first rate.
fn set_rate_table(effort: Effort) {
    let mut cells = vec!["case", "rates", "coefficients", "ours"];
    #[cfg(speexdsp)]
    cells.push("SpeexDSP 8");
    cells.push("ours, µs");
    head(&cells.into_iter().map(String::from).collect::<Vec<_>>());
    for case in &CASES {
        let (source, target) = (case.source, case.target);
        let mut ours = Ours::new(source, target);
        let coefficients = ours.coefficients.len();
        let mut works: Vec<Work> = vec![
            repeated(move || drop(black_box(Kept::new(source, target)))),
            repeated(move || ours.begin(black_box(source), target)),
            #[cfg(speexdsp)]
            repeated(move || drop(black_box(Speex::new(source, target)))),
        ];
        let times: Vec<_> = in_turn(&mut works, effort).into_iter().map(Some).collect();
        let mut cells = vec![
            case.name.to_string(),
            case.rates(),
            grouped(coefficients as f64),
        ];
        cells.extend(ratios(&times));
        let ours = Spread::of(times[1].as_ref().expect("ours takes all cases")).median;
        cells.push(format!("{:.1}", ours / 1e3));
        row(&cells);
    }
}

fn repeated<'a>(mut step: impl FnMut() + 'a) -> Work<'a> {
    Box::new(move |steps| {
        (0..steps).for_each(|_| step());
        steps
    })
}

// The time of a call that has nothing to do: a sample is offered, since an empty input is refused, and there is no room.
fn fixed_table(samples: &[f32], effort: Effort) {
    head(&["case", "rates", "ours, ns", "quartiles"].map(String::from));
    for case in CASES.iter().chain([&MOST_STEPS]) {
        let mut ours = Ours::new(case.source, case.target);
        let nothing = move || {
            let counts = ours.process(black_box(&samples[..1]), &mut []);
            assert_eq!(counts, (0, 0), "a call with no room");
        };
        let times = in_turn(&mut [repeated(nothing)], effort);
        let Spread { low, median, high } = Spread::of(&times[0]);
        row(&[
            case.name.to_string(),
            case.rates(),
            format!("{median:.0}"),
            format!("{low:.0} to {high:.0}"),
        ]);
    }
}

pub fn print(effort: Effort) -> Result<(), String> {
    let samples = noise();
    change_noticed(&CASES[0], &samples, BLOCK)?;
    println!("## Blocks of 1,024\n");
    say(
        "Each call is offered what is left of a block of 1,024 samples, with room for all that it leads to. Buffers: all entries of \
         history, coefficients and output were written before the time begins, and the streams have run; nothing is cleared then, nor \
         between blocks and rounds.",
    );
    say_compared(streams_table(&Room::Enough, &samples, effort)?);
    println!("## Room for one output\n");
    say(
        "One call for each output: room 1, and what is left of a block of 1,024 samples is offered each time. Buffers: as above. soxr \
         is left out: with room 1 it reads more than its outputs use, at 1000/999 twice as much, and keeps it.",
    );
    say_compared(streams_table(&Room::One, &samples, effort)?);
    println!("## Setting a rate\n");
    say(
        "A new state and its first rate. Buffers: ours is lent the same two each time, not cleared before; it writes all of their \
         entries. The Rust gets new ones, cleared, SpeexDSP gets its own, and both give them back within the time.",
    );
    set_rate_table(effort);
    println!("\n## A call's fixed cost\n");
    say(
        "An accepted call with nothing to do: one sample is offered, since an empty input is refused, and there is no room, so nothing \
         is read and nothing written. What is left is the check of the state and the way through C. Buffers: as above.",
    );
    fixed_table(&samples, effort);
    Ok(())
}
