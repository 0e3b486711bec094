//! Whole recordings: the example of docs/REPLAY.md, the same outputs however the input is cut, closed totals, resets, and
//! rates that change on the way.

use marshdeck::{closed_total, Consumed, Resampler, Written};

use crate::{bits, noise};

/// Cases A to H of document 01, and the house's own: a recorder whose clock runs a little off.
const RATES: [(u32, u32); 9] = [
    (44_100, 48_000),
    (48_000, 44_100),
    (48_000, 16_000),
    (192_000, 4_000),
    (32_000, 16_000),
    (42_000, 20_000),
    (45_000, 48_000),
    (48_000, 51_000),
    (48_000, 47_952),
];

/// A resampler that has read nothing.
fn rated(source_hz: u32, target_hz: u32) -> Resampler {
    let mut resampler = Resampler::new(target_hz).unwrap();
    resampler.set_source_hz(source_hz).unwrap();
    resampler
}

/// All outputs of the samples, offered `block` at a time with room for `room`.
fn fed(resampler: &mut Resampler, samples: &[f32], block: usize, room: usize) -> Vec<f32> {
    let mut outputs = Vec::new();
    let mut output = vec![0.0; room];
    let mut unread = samples;
    while !unread.is_empty() {
        let offered = &unread[..unread.len().min(block)];
        let (consumed, written) = resampler.process(offered, &mut output).unwrap();
        unread = &unread[consumed.0..];
        outputs.extend_from_slice(&output[..written.0]);
    }
    outputs
}

/// The samples with the zeros that close the recording.
fn closed(resampler: &Resampler, samples: &[f32]) -> Vec<f32> {
    [samples, &vec![0.0; resampler.closing_zeros()]].concat()
}

#[test]
fn the_example_comes_out_bit_for_bit() {
    let mut output = [0.0; 1000];
    let mut resampler = rated(48_000, 16_000);
    let counts = resampler.process(&noise(1, 300), &mut output).unwrap();
    assert_eq!(counts, (Consumed(300), Written(20)));
    assert_eq!(
        bits(&output[..4]),
        [0xbe4fe9c4, 0xbe0d6477, 0xbda3fdfc, 0xbe76eb64]
    );
    assert_eq!(
        bits(&output[16..20]),
        [0xbd13b498, 0xbcbf363e, 0xbde6c29f, 0xbf1c3de9]
    );
    assert_eq!(bits(&output[20..]), [0; 980]);
}

#[test]
fn worked_cases_of_one_call() {
    let cases = [
        (158, 9, 158, 0, 82),
        (300, 1000, 300, 20, 0),
        (300, 5, 255, 5, 0),
        (400, 26, 316, 26, 2),
    ];
    for (samples, room, consumed, written, position) in cases {
        let mut resampler = rated(48_000, 16_000);
        let mut output = vec![0.0; room];
        let counts = resampler.process(&noise(1, samples), &mut output).unwrap();
        assert_eq!(counts, (Consumed(consumed), Written(written)));
        assert_eq!(resampler.state().last_sample, position);
    }
}

#[test]
fn cutting_is_free() {
    for (source_hz, target_hz) in RATES {
        let stream = closed(&rated(source_hz, target_hz), &noise(3, 2_000));
        let whole = fed(&mut rated(source_hz, target_hz), &stream, 10_000, 10_000);
        for (block, room) in [(1, 1), (7, 3), (160, 10_000), (10_000, 1), (333, 50)] {
            let cut = fed(&mut rated(source_hz, target_hz), &stream, block, room);
            assert_eq!(bits(&cut), bits(&whole), "{source_hz} to {target_hz}");
        }
    }
}

#[test]
fn a_closed_recording_has_the_total_that_is_told() {
    for (source_hz, target_hz) in RATES {
        for samples in [0, 1, 2, 3, 4, 159, 2_000] {
            let mut resampler = rated(source_hz, target_hz);
            let stream = closed(&resampler, &noise(4, samples));
            let outputs = fed(&mut resampler, &stream, 500, 500);
            let total = closed_total(Consumed(samples), source_hz, target_hz);
            assert_eq!(total, Ok(Written(outputs.len())));
        }
    }
}

#[test]
fn zeros_close_by_half_the_filter() {
    assert_eq!(Resampler::new(16_000).unwrap().closing_zeros(), 0);
    assert_eq!(rated(48_000, 16_000).closing_zeros(), 240);
    assert_eq!(rated(192_000, 4_000).closing_zeros(), 3_840);
}

#[test]
fn a_reset_and_a_skip_make_ready_for_another_recording() {
    for (source_hz, target_hz) in RATES {
        let mut resampler = rated(source_hz, target_hz);
        let stream = closed(&resampler, &noise(5, 1_000));
        let first = fed(&mut resampler, &stream, 400, 400);
        resampler.reset().unwrap();
        assert_eq!(resampler.state().last_sample, 0);
        resampler.skip_zeros().unwrap();
        assert_eq!(
            resampler.state().last_sample as usize,
            resampler.closing_zeros()
        );
        let again = fed(&mut resampler, &stream, 400, 400);
        assert_eq!(bits(&again), bits(&first));
    }
}

#[test]
fn the_history_stays_long_enough_however_the_rate_changes() {
    let mut resampler = rated(192_000, 4_000);
    for hz in [4_000, 192_000, 48_000, 4_001, 191_999, 191_999, 4_000] {
        fed(&mut resampler, &noise(6, 9_000), 1_000, 1_000);
        resampler.set_source_hz(hz).unwrap();
        assert_eq!(resampler.state().source, hz);
        assert_eq!(resampler.state().mem_alloc_size, 7_839);
    }
    fed(&mut resampler, &noise(6, 9_000), 1_000, 1_000);
}

#[test]
fn a_clone_goes_on_by_itself_on_another_thread() {
    let samples = noise(7, 700);
    let mut resampler = rated(48_000, 47_952);
    fed(&mut resampler, &samples, 100, 100);
    let mut other = resampler.clone();
    let there = {
        let samples = samples.clone();
        std::thread::spawn(move || fed(&mut other, &samples, 90, 90))
    };
    let here = fed(&mut resampler, &samples, 110, 110);
    assert_eq!(bits(&there.join().unwrap()), bits(&here));
}

#[test]
fn a_resampler_may_be_shared_between_threads() {
    fn shared<T: Send + Sync>() {}
    shared::<Resampler>();
}
