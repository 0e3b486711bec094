"""A verified resampler for one channel of f32 sound, from any source rate to a target rate, both from 4,000 to 192,000 Hz.

The resampler is written and proved in Rattle; this module calls it through its C interface, include/marshdeck.h, and owns
what that has to be lent: the state, the history and the coefficients. It needs Python 3.9 or later and nothing else.

It loads libmarshdeck.so, which the script `build` beside this file makes, from the repository's target/staticlib or from the
folder that the environment variable MARSHDECK_LIB names.

The thread's floating-point mode has to be the usual one: round to nearest, no flush to zero.

A call may read less than it was given: what it did not read is offered again. A recording is closed by `closing_zeros`
after its last sample, and then it has as many outputs as `closed_total` tells, if it began with a new resampler and its
first rate, or with `reset` and then `skip_zeros`, and kept that rate:

    stream = Resampler(47952)
    stream.set_source_hz(48000)
    stream_samples = samples + array("f", [0.0]) * stream.closing_zeros()
    outputs = array("f")
    read = 0
    while read < len(stream_samples):
        consumed, made = stream.process(stream_samples[read : read + 1024], 1024)
        read += consumed
        outputs += made
"""

from __future__ import annotations

import ctypes
import os
import threading
from array import array
from pathlib import Path
from typing import Iterable, NamedTuple, Union

__all__ = [
    "MAX_CALL",
    "MAX_COEFFICIENTS",
    "MAX_HISTORY",
    "VERSION",
    "Refused",
    "Resampler",
    "Sizes",
    "State",
    "closed_total",
    "from_i16",
    "needed",
    "sine",
    "to_i16",
]

#: The version of include/marshdeck.h that this module is written for.
VERSION = 1

#: The longest history, and the most coefficients, that two rates in limits need.
MAX_HISTORY = 7839
MAX_COEFFICIENTS = 7688

#: The most samples that one call takes, and the most that it gives.
MAX_CALL = 16777216

#: What `Resampler.process` takes as samples.
Samples = Union["array[float]", bytes, bytearray, memoryview, Iterable[float]]

_REASONS = {
    1: "a rate is not from 4,000 to 192,000 Hz",
    2: "the history is shorter than needed",
    3: "there are fewer coefficients than needed",
    4: "the input is empty",
    5: "the input or the output is longer than 16,777,216",
    6: "no source rate was set",
    7: "the state's numbers don't belong together",
    100: "the recording has more than 2^40 samples",
}


class Refused(Exception):
    """A call was refused. It has read nothing, written nothing and changed nothing."""

    def __init__(self, number: int) -> None:
        super().__init__(f"refused {number}: {_REASONS.get(number, 'for a reason that this version does not have')}")
        #: The number that the written rules and the C interface have for the reason.
        self.number = number


class State(ctypes.Structure):
    """All that a resampler keeps between two calls but its samples and its coefficients: the header's marshdeck_state."""

    _fields_ = [
        ("target", ctypes.c_uint32),
        ("source", ctypes.c_uint32),
        ("num", ctypes.c_uint32),
        ("den", ctypes.c_uint32),
        ("filt_len", ctypes.c_uint32),
        ("mem_alloc_size", ctypes.c_uint32),
        ("buffer_size", ctypes.c_uint32),
        ("int_advance", ctypes.c_uint32),
        ("frac_advance", ctypes.c_uint32),
        ("cutoff", ctypes.c_float),
        ("oversample", ctypes.c_uint32),
        ("started", ctypes.c_uint32),
        ("kernel", ctypes.c_uint32),
        ("last_sample", ctypes.c_uint32),
        ("samp_frac_num", ctypes.c_uint32),
        ("magic_samples", ctypes.c_uint32),
    ]


class _Answer(ctypes.Structure):
    _fields_ = [
        ("refusal", ctypes.c_uint32),
        ("consumed", ctypes.c_uint32),
        ("written", ctypes.c_uint32),
        ("state", State),
    ]


class _Total(ctypes.Structure):
    _fields_ = [("refusal", ctypes.c_uint32), ("total", ctypes.c_uint64)]


class _Sizes(ctypes.Structure):
    _fields_ = [
        ("refusal", ctypes.c_uint32),
        ("history", ctypes.c_uint32),
        ("coefficients", ctypes.c_uint32),
    ]


class Sizes(NamedTuple):
    """How long the two buffers have to be for a pair of rates. A `Resampler` sees to that itself."""

    history: int
    coefficients: int


_FLOATS = ctypes.POINTER(ctypes.c_float)
_LENT = [_FLOATS, ctypes.c_size_t]

# Each function of the header: what it answers, and what it takes.
_FUNCTIONS = {
    "marshdeck_new": (_Answer, [ctypes.c_uint32]),
    "marshdeck_set_rate": (_Answer, [State, ctypes.c_uint32, *_LENT, *_LENT]),
    "marshdeck_process": (_Answer, [State, *_LENT, *_LENT, *_LENT, *_LENT]),
    "marshdeck_reset": (_Answer, [State, *_LENT]),
    "marshdeck_skip": (_Answer, [State]),
    "marshdeck_to_i16": (ctypes.c_int16, [ctypes.c_float]),
    "marshdeck_from_i16": (ctypes.c_float, [ctypes.c_int16]),
    "marshdeck_sine": (ctypes.c_double, [ctypes.c_double]),
    "marshdeck_closed_total": (_Total, [ctypes.c_uint64, ctypes.c_uint32, ctypes.c_uint32]),
    "marshdeck_needed": (_Sizes, [ctypes.c_uint32, ctypes.c_uint32]),
}


def _load() -> ctypes.CDLL:
    repository = Path(__file__).resolve().parent.parent.parent
    folder = Path(os.environ.get("MARSHDECK_LIB", repository / "target" / "staticlib"))
    path = folder.resolve() / "libmarshdeck.so"
    if not path.is_file():
        raise ImportError(
            f"{path} is missing: make it with `tools/archive` at the repository's root and then bindings/python/build, "
            "or name its folder in MARSHDECK_LIB"
        )
    library = ctypes.CDLL(str(path))
    for name, (answers, takes) in _FUNCTIONS.items():
        function = getattr(library, name)
        function.restype = answers
        function.argtypes = takes
    return library


_C = _load()


def _unsigned(number: int, bits: int) -> int:
    """The nearest number that fits: ctypes would cut one that does not, and a rate out of limits could come into them."""
    return max(0, min(number, 2**bits - 1))


def _unless_refused(refusal: int) -> None:
    if refusal != 0:
        raise Refused(refusal)


def _copied(samples: Samples) -> array[float]:
    """The samples as floats of our own, which nobody changes while a call reads them."""
    try:
        view = memoryview(samples)  # type: ignore[arg-type]
    except TypeError:
        return array("f", samples)
    if view.format not in ("f", "<f", "B"):
        raise TypeError(f"samples are f32, as floats or as their bytes, and not of format {view.format!r}")
    if view.ndim != 1:
        raise TypeError("samples are of one channel, in one dimension")
    copy = array("f")
    copy.frombytes(view.tobytes())
    return copy


def _lent(floats: array[float]) -> tuple[ctypes.Array[ctypes.c_float], int]:
    """A pointer to the floats, and how many they are."""
    return (ctypes.c_float * len(floats)).from_buffer(floats), len(floats)


class Resampler:
    """A resampler for one stream: a state with the history and the coefficients that belong to it.

    Threads may share one: its calls then run one after the other. Those of different resamplers run at the same time.
    """

    def __init__(self, target_hz: int) -> None:
        """A resampler to a target rate. It has no source rate yet. Refusal 1."""
        answer = _C.marshdeck_new(_unsigned(target_hz, 32))
        _unless_refused(answer.refusal)
        self._state = answer.state
        self._history = array("f", bytes(4 * MAX_HISTORY))
        self._coefficients = array("f", bytes(4 * MAX_COEFFICIENTS))
        # While a call runs nobody else may have what it was lent.
        self._lock = threading.Lock()

    def set_source_hz(self, hz: int) -> None:
        """Sets the source rate. Refusal 1.

        It may be set anew in the middle of a stream: its samples are carried over. The rate that is set already changes
        nothing. Equal rates are resampled like all others: a caller who wants a copy makes one.
        """
        with self._lock:
            answer = _C.marshdeck_set_rate(
                self._state, _unsigned(hz, 32), *_lent(self._history), *_lent(self._coefficients)
            )
            self._state = answer.state
        _unless_refused(answer.refusal)

    def process(self, samples: Samples, room: int) -> tuple[int, array[float]]:
        """Resamples: reads samples and makes at most `room` outputs, until one of them is used up. Refusals 6, 4, 5.

        Answers how many samples were consumed, and the outputs. What was not consumed has to be offered again. No room (0) is
        accepted. The samples are an array("f"), another buffer of f32, the bytes of f32, little-endian, or any numbers.

        The samples that a rate change left over are played first, so a call may make outputs and yet consume nothing: 0
        consumed does not mean the end.
        """
        if room < 0:
            raise ValueError(f"the room is {room}")
        source = _copied(samples)
        # Too much room is refused, however much it is.
        output = array("f", bytes(4 * min(room, MAX_CALL + 1)))
        with self._lock:
            answer = _C.marshdeck_process(
                self._state, *_lent(self._history), *_lent(self._coefficients), *_lent(source), *_lent(output)
            )
            self._state = answer.state
        _unless_refused(answer.refusal)
        return answer.consumed, output[: answer.written]

    def reset(self) -> None:
        """Makes the resampler ready for another stream at the same rates: the history becomes silence.

        The position becomes 0, so the filter's run-in comes out too; `skip_zeros` leaves it out, as for a first stream.
        """
        with self._lock:
            answer = _C.marshdeck_reset(self._state, *_lent(self._history))
            self._state = answer.state
        _unless_refused(answer.refusal)

    def skip_zeros(self) -> None:
        """Leaves out the filter's run-in: the position becomes half the filter's length."""
        with self._lock:
            answer = _C.marshdeck_skip(self._state)
            self._state = answer.state
        _unless_refused(answer.refusal)

    def closing_zeros(self) -> int:
        """How many zeros after its last sample close a recording: half the filter's length. 0 before a rate is set."""
        return self._state.filt_len // 2

    def state(self) -> State:
        """A copy of the numbers as the last accepted call left them."""
        return State.from_buffer_copy(self._state)


def closed_total(samples: int, source_hz: int, target_hz: int) -> int:
    """How many outputs a closed recording of so many samples has: samples * den / num, rounded up. Refusals 1, 100.

    Closed means that `closing_zeros` were read after its samples; they are not among those that are counted here.

    This is told of a recording that began with a new resampler and its first rate, or with `reset` and then `skip_zeros`, and
    that kept its rate. Of any other the outputs may be more or fewer.
    """
    if samples < 0:
        raise ValueError(f"the samples are {samples}")
    told = _C.marshdeck_closed_total(_unsigned(samples, 64), _unsigned(source_hz, 32), _unsigned(target_hz, 32))
    _unless_refused(told.refusal)
    return told.total


def needed(source_hz: int, target_hz: int) -> Sizes:
    """How long the buffers have to be for these two rates. Refusal 1."""
    told = _C.marshdeck_needed(_unsigned(source_hz, 32), _unsigned(target_hz, 32))
    _unless_refused(told.refusal)
    return Sizes(told.history, told.coefficients)


def to_i16(x: float) -> int:
    """A sample, rounded to f32, times 32768, to the nearest whole number, halves away from zero, clamped. NaN gives 0."""
    return _C.marshdeck_to_i16(x)


def from_i16(sample: int) -> float:
    """A 16-bit sample divided by 32768, exactly."""
    if not -32768 <= sample <= 32767:
        raise ValueError(f"{sample} is no 16-bit sample")
    return _C.marshdeck_from_i16(sample)


def sine(angle: float) -> float:
    """The sine that the coefficients are made with. It is meant for angles up to 256 in size."""
    return _C.marshdeck_sine(angle)
