//! Scripts of calls, and what the Rust answered to them (`docs/REPLAY.md`).
//!
//! A script also does what this crate leaves no way to do: it forges states, overwrites entries of the history, and lends
//! slices that are too short. From such a line on, until the script makes a new state, its calls are passed over. Of an
//! answer all is compared but the sums over the lent history and coefficients, whose length is the crate's own affair.

use marshdeck::{Refusal, Resampler};

use crate::{drawn, segments, truth};

#[derive(Default)]
struct Player {
    /// None while the script does what the crate leaves no way to do.
    resampler: Option<Resampler>,
    compared: usize,
}

/// What a call answered: the refusal or 0, the counts, and the output with all its room.
type Played = (u32, usize, usize, Vec<f32>);

fn no_counts(result: Result<(), Refusal>) -> Played {
    (
        result.map_or_else(Refusal::number, |()| 0),
        0,
        0,
        Vec::new(),
    )
}

fn process(resampler: &mut Resampler, room: usize, words: &[&str]) -> Played {
    let input = drawn(words);
    let mut output = segments::unwritten(room);
    match resampler.process(&input, &mut output) {
        Ok((consumed, written)) => (0, consumed.0, written.0, output),
        Err(refusal) => (refusal.number(), 0, 0, output),
    }
}

/// The answer's line without the two sums over what is lent.
fn line(resampler: &Resampler, (refusal, consumed, written, output): &Played) -> String {
    let s = resampler.state();
    format!(
        "= {refusal} {consumed} {written} | {} {} {} {} {} {} {} {} {} {:08x} {} {} {} {} {} {} | {} |{}",
        s.target,
        s.source,
        s.num,
        s.den,
        s.filt_len,
        s.mem_alloc_size,
        s.buffer_size,
        s.int_advance,
        s.frac_advance,
        segments::word(s.cutoff),
        s.oversample,
        s.started,
        s.kernel,
        s.last_sample,
        s.samp_frac_num,
        s.magic_samples,
        segments::hash(output),
        segments::print(&output[..*written]),
    )
}

/// The same of a line that was expected: the first two of the three sums are left out.
fn without_lent(expected: &str) -> String {
    let parts: Vec<&str> = expected.split('|').collect();
    let sum = parts[2].trim().rsplit(' ').next().expect("a sum");
    format!("{}|{}| {sum} |{}", parts[0], parts[1], parts[3])
}

impl Player {
    fn play(&mut self, asked: &str, expected: &str) {
        let refusal = expected.split(' ').nth(1).expect("a refusal");
        let words: Vec<&str> = asked.split(' ').collect();
        match words[..] {
            ["new", target] => self.make(segments::number(target).expect("a rate"), refusal),
            ["lend", ..] if self.has_no_rate() => {}
            ["lend" | "forge" | "poke" | "pokes", ..] => self.resampler = None,
            _ if ["2", "3", "7"].contains(&refusal) => self.resampler = None,
            _ => self.call(&words, expected),
        }
    }

    fn has_no_rate(&self) -> bool {
        self.resampler
            .as_ref()
            .is_some_and(|r| r.state().source == 0)
    }

    fn make(&mut self, target: u32, refusal: &str) {
        let made = Resampler::new(target);
        let told = made.as_ref().map_or_else(|r| r.number(), |_| 0);
        assert_eq!(told.to_string(), refusal, "new {target}");
        self.resampler = made.ok();
        self.compared += 1;
    }

    fn call(&mut self, words: &[&str], expected: &str) {
        let Some(resampler) = &mut self.resampler else {
            return;
        };
        let number = |word| segments::number(word).expect("a number");
        let played = match *words {
            ["rate", source] => no_counts(resampler.set_source_hz(number(source))),
            ["process", room, ref rest @ ..] => process(resampler, number(room) as usize, rest),
            ["reset"] => no_counts(resampler.reset()),
            ["skip"] => no_counts(resampler.skip_zeros()),
            _ => panic!("an unknown line: {words:?}"),
        };
        assert_eq!(
            line(resampler, &played),
            without_lent(expected),
            "{words:?}"
        );
        self.compared += 1;
    }
}

/// Plays a whole script. Answers how many of its lines were compared.
fn compared(script: &str, answers: &str) -> usize {
    let (script, answers) = (truth::read(script), truth::read(answers));
    let is_played = |line: &&str| !line.is_empty() && !line.starts_with('#');
    let asked: Vec<&str> = script.lines().filter(is_played).collect();
    let expected: Vec<&str> = answers.lines().collect();
    assert_eq!(asked.len(), expected.len());
    let mut player = Player::default();
    for (line, answer) in asked.into_iter().zip(expected) {
        player.play(line, answer);
    }
    player.compared
}

#[test]
fn the_example_of_the_script_format() {
    let lines = compared("oracle/scripts/example.txt", "oracle/scripts/example.out");
    assert_eq!(lines, 3);
}

#[test]
fn the_script_of_all_kinds_of_calls() {
    let lines = compared("crates/replay/stdin", "crates/replay/stdout");
    assert_eq!(lines, 2009);
}
