//! The numbers of a resampler.

/// All that a resampler keeps between two calls but its samples and its coefficients. It is for reading: a
/// [`Resampler`](crate::Resampler) shows its own and takes none.
///
/// The layout is that of the C interface's `marshdeck_state`.
#[derive(Clone, Copy, Debug, PartialEq)]
#[non_exhaustive]
#[repr(C)]
pub struct State {
    /// The target rate in Hz.
    pub target: u32,
    /// The source rate in Hz, 0 before one was set.
    pub source: u32,
    /// The source rate over the target rate in lowest terms: this over `den`.
    pub num: u32,
    /// What `num` is over.
    pub den: u32,
    /// The filter's length, n.
    pub filt_len: u32,
    /// How many entries of the history are in use.
    pub mem_alloc_size: u32,
    /// 160.
    pub buffer_size: u32,
    /// `num` over `den`, the whole part.
    pub int_advance: u32,
    /// `num` over `den`, the rest.
    pub frac_advance: u32,
    /// The filter's cutoff, as a part of half the source rate.
    pub cutoff: f32,
    /// How many coefficients the interpolated kernel has for each entry of the filter.
    pub oversample: u32,
    /// 1 once samples were processed.
    pub started: u32,
    /// The kernel: 0 none, 1 direct, 2 interpolated.
    pub kernel: u32,
    /// The position: the entry of the history at which the next output's window starts.
    pub last_sample: u32,
    /// The phase: how far past that entry the output lies, in den-ths.
    pub samp_frac_num: u32,
    /// Samples that a rate change left over in the history. They are played before any input.
    pub magic_samples: u32,
}
