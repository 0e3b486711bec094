//! The constants of the header, all of them, and those that the crate has for them.

use marshdeck::{Refusal, MAX_CALL, MAX_COEFFICIENTS, MAX_HISTORY, VERSION};

use crate::truth;

#[test]
fn constants_are_the_headers() {
    let header = truth::read("include/marshdeck.h");
    let defined: Vec<(&str, u32)> = header
        .lines()
        .filter_map(|line| line.strip_prefix("#define MARSHDECK_"))
        .filter_map(|rest| rest.split_once(' '))
        .map(|(name, value)| (name, value.split(' ').next().unwrap_or(value)))
        .map(|(name, value)| (name, value.parse().expect("a number")))
        .collect();
    let ours = [
        ("VERSION", VERSION),
        ("ACCEPTED", 0),
        ("RATE", Refusal::Rate.number()),
        ("HISTORY", Refusal::History.number()),
        ("COEFFICIENTS", Refusal::Coefficients.number()),
        ("EMPTY_INPUT", Refusal::EmptyInput.number()),
        ("TOO_LONG", Refusal::TooLong.number()),
        ("NO_RATE", Refusal::NoRate.number()),
        ("STATE", Refusal::State.number()),
        ("TOO_MANY", Refusal::TooMany.number()),
        ("MAX_HISTORY", MAX_HISTORY as u32),
        ("MAX_COEFFICIENTS", MAX_COEFFICIENTS as u32),
        ("MAX_CALL", MAX_CALL as u32),
    ];
    assert_eq!(defined, ours);
}
