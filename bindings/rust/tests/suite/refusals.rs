//! Every refusal that a caller of this crate can meet, and that it changes nothing.

use marshdeck::{closed_total, needed, Consumed, Refusal, Resampler, MAX_CALL};

use crate::{bits, noise};

/// What every entry of an output holds before a call.
const MARKED: f32 = 7.0;

/// In the middle of a stream from 48,000 to 16,000 Hz.
fn started() -> Resampler {
    let mut resampler = Resampler::new(16_000).unwrap();
    resampler.set_source_hz(48_000).unwrap();
    resampler.process(&noise(1, 301), &mut [0.0; 1000]).unwrap();
    resampler
}

/// The state, and what the next 400 samples become: all of the history has a part in that.
fn told(mut resampler: Resampler) -> (marshdeck::State, Vec<u32>) {
    let state = *resampler.state();
    let mut output = vec![0.0; 500];
    resampler.process(&noise(2, 400), &mut output).unwrap();
    (state, bits(&output))
}

#[test]
fn a_target_rate_out_of_limits_gets_1() {
    for hz in [0, 3_999, 192_001, u32::MAX] {
        assert_eq!(Resampler::new(hz).unwrap_err(), Refusal::Rate);
    }
    for hz in [4_000, 192_000] {
        assert_eq!(Resampler::new(hz).unwrap().state().target, hz);
    }
}

#[test]
fn a_source_rate_out_of_limits_gets_1_and_changes_nothing() {
    for hz in [0, 3_999, 192_001, u32::MAX] {
        let mut resampler = started();
        assert_eq!(resampler.set_source_hz(hz), Err(Refusal::Rate));
        assert_eq!(told(resampler), told(started()));
    }
}

#[test]
fn without_a_source_rate_a_call_gets_6_before_4_and_5() {
    let mut resampler = Resampler::new(16_000).unwrap();
    let fresh = *resampler.state();
    for input in [vec![], vec![0.5; 3], vec![0.0; MAX_CALL + 1]] {
        let mut output = [MARKED; 3];
        let refused = resampler.process(&input, &mut output);
        assert_eq!(refused, Err(Refusal::NoRate));
        assert_eq!(output, [MARKED; 3]);
        assert_eq!(*resampler.state(), fresh);
    }
}

#[test]
fn an_empty_input_gets_4_before_5() {
    for room in [0, 1, MAX_CALL + 1] {
        let mut resampler = started();
        let mut output = vec![MARKED; room];
        let refused = resampler.process(&[], &mut output);
        assert_eq!(refused, Err(Refusal::EmptyInput));
        assert!(output.iter().all(|&x| x == MARKED));
        assert_eq!(told(resampler), told(started()));
    }
}

#[test]
fn a_longer_call_than_16777216_gets_5() {
    let longest = vec![0.5; MAX_CALL];
    let too_long = vec![0.5; MAX_CALL + 1];
    let mut resampler = started();
    let mut output = [MARKED; 3];
    let refused = resampler.process(&too_long, &mut output);
    assert_eq!(refused, Err(Refusal::TooLong));
    assert_eq!(output, [MARKED; 3]);
    let mut output = too_long;
    let refused = resampler.process(&[1.0], &mut output);
    assert_eq!(refused, Err(Refusal::TooLong));
    assert!(output.iter().all(|&x| x == 0.5));
    assert_eq!(told(resampler.clone()), told(started()));
    output.truncate(MAX_CALL);
    assert!(resampler.process(&[1.0], &mut output).is_ok());
    assert!(resampler.process(&longest, &mut [0.0; 3]).is_ok());
}

#[test]
fn room_for_nothing_is_accepted() {
    let mut resampler = started();
    let (consumed, written) = resampler.process(&[1.0], &mut []).unwrap();
    assert_eq!((consumed.0, written.0), (0, 0));
    assert_eq!(told(resampler), told(started()));
}

#[test]
fn sizes_and_totals_refuse_as_the_calls_do() {
    for (source, target) in [(3_999, 16_000), (48_000, 192_001)] {
        assert_eq!(needed(source, target), Err(Refusal::Rate));
        let most = Consumed(1 << 41);
        assert_eq!(closed_total(most, source, target), Err(Refusal::Rate));
    }
    let more = Consumed((1 << 40) + 1);
    assert_eq!(closed_total(more, 48_000, 16_000), Err(Refusal::TooMany));
}

#[test]
fn a_refusal_is_an_error_that_tells_its_number() {
    let error: Box<dyn std::error::Error + Send + Sync> = Box::new(Refusal::EmptyInput);
    assert_eq!(error.to_string(), "refused 4: the input is empty");
}
