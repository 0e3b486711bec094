//! Why a call is refused.

use std::error::Error;
use std::fmt;

/// Why a call is refused. A refused call has read nothing, written nothing and changed nothing.
///
/// A [`Resampler`](crate::Resampler) keeps its buffers long enough and its state whole, so none of its calls is refused
/// for [`History`](Refusal::History), [`Coefficients`](Refusal::Coefficients) or [`State`](Refusal::State). They are here
/// because the numbers are those of the written rules.
#[derive(Clone, Copy, Debug, PartialEq, Eq, Hash)]
#[repr(u32)]
pub enum Refusal {
    /// A rate is not from 4,000 to 192,000 Hz.
    Rate = 1,
    /// The history is shorter than needed.
    History = 2,
    /// There are fewer coefficients than needed.
    Coefficients = 3,
    /// The input is empty.
    EmptyInput = 4,
    /// The input or the output is longer than [`MAX_CALL`](crate::MAX_CALL).
    TooLong = 5,
    /// No source rate was set.
    NoRate = 6,
    /// The state's numbers don't belong together.
    State = 7,
    /// A recording has more than 2^40 samples. [`closed_total`](crate::closed_total) alone gives this.
    TooMany = 100,
}

impl Refusal {
    const ALL: [Refusal; 8] = [
        Refusal::Rate,
        Refusal::History,
        Refusal::Coefficients,
        Refusal::EmptyInput,
        Refusal::TooLong,
        Refusal::NoRate,
        Refusal::State,
        Refusal::TooMany,
    ];

    /// The number that the written rules and the C interface have for it.
    pub const fn number(self) -> u32 {
        self as u32
    }

    pub(crate) fn numbered(number: u32) -> Option<Refusal> {
        Refusal::ALL.into_iter().find(|r| r.number() == number)
    }

    const fn reason(self) -> &'static str {
        match self {
            Refusal::Rate => "a rate is not from 4,000 to 192,000 Hz",
            Refusal::History => "the history is shorter than needed",
            Refusal::Coefficients => "there are fewer coefficients than needed",
            Refusal::EmptyInput => "the input is empty",
            Refusal::TooLong => "the input or the output is longer than 16,777,216",
            Refusal::NoRate => "no source rate was set",
            Refusal::State => "the state's numbers don't belong together",
            Refusal::TooMany => "the recording has more than 2^40 samples",
        }
    }
}

impl fmt::Display for Refusal {
    fn fmt(&self, f: &mut fmt::Formatter<'_>) -> fmt::Result {
        write!(f, "refused {}: {}", self.number(), self.reason())
    }
}

impl Error for Refusal {}
