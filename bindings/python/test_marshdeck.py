"""The module held to answers that the Rust made, and to what the written rules say.

The answers are in this repository, or in a copy of them, whose folder MARSHDECK_TRUTH names.
"""

from __future__ import annotations

import ctypes
import math
import os
import re
import struct
import threading
import unittest
from array import array
from pathlib import Path

import marshdeck
from marshdeck import MAX_CALL, Refused, Resampler

TRUTH = Path(os.environ.get("MARSHDECK_TRUTH", Path(__file__).resolve().parent.parent.parent))

# Cases A to H of document 01, and the house's own: a recorder whose clock runs a little off.
RATES = [
    (44100, 48000),
    (48000, 44100),
    (48000, 16000),
    (192000, 4000),
    (32000, 16000),
    (42000, 20000),
    (45000, 48000),
    (48000, 51000),
    (48000, 47952),
]

# The entries of an `s` segment that are not like `r` (docs/REPLAY.md).
SPECIAL = """7fc00000 7f800000 ff800000 00000001 80000001 007fffff 00800000 80000000 7f7fffff ff7fffff 3f800000 bf800000
33800000 0da24260 4b800000 00000000""".split()


def truth(path: str) -> str:
    return (TRUTH / path).read_text()


def of_bits(word: str) -> float:
    return struct.unpack(">f", bytes.fromhex(word))[0]


def words_of(samples: array[float]) -> list[int]:
    """The bits of samples, any NaN counted as one."""
    words = struct.unpack(f"<{len(samples)}I", samples.tobytes())
    return [0x7FC00000 if w & 0x7FFFFFFF > 0x7F800000 else w for w in words]


def drawn(kind: str, x: int) -> float:
    if kind == "s" and x < 1 << 29:
        return of_bits(SPECIAL[x >> 25])
    if kind == "d":
        return of_bits(f"{x >> 9 | (x & 1) << 31:08x}")
    return ((x >> 8) - 8388608) / 8388608


def segment(text: str) -> array[float]:
    """The samples that a script names (docs/REPLAY.md)."""
    kind, rest = text.split(":")
    if kind == "b":
        return array("f", [of_bits(w.replace("nan", "7fc00000")) for w in rest.split(",")])
    first, count = rest.split("*")
    if kind == "c":
        return array("f", [of_bits(first)]) * int(count)
    samples = array("f")
    x = int(first)
    for _ in range(int(count)):
        x = (x * 1664525 + 1013904223) % 2**32
        samples.append(drawn(kind, x))
    return samples


def noise(seed: int, count: int) -> array[float]:
    """Samples between -1 and 1, the same ones for the same seed."""
    return segment(f"r:{seed}*{count}")


def rated(source_hz: int, target_hz: int) -> Resampler:
    """A resampler that has read nothing."""
    resampler = Resampler(target_hz)
    resampler.set_source_hz(source_hz)
    return resampler


def fed(resampler: Resampler, samples: array[float], block: int, room: int) -> array[float]:
    """All outputs of the samples, offered `block` at a time with room for `room`."""
    outputs = array("f")
    read = 0
    while read < len(samples):
        consumed, made = resampler.process(samples[read : read + block], room)
        read += consumed
        outputs += made
    return outputs


def closed(resampler: Resampler, samples: array[float]) -> array[float]:
    """The samples with the zeros that close the recording."""
    return samples + array("f", [0.0]) * resampler.closing_zeros()


def numbers(resampler: Resampler) -> bytes:
    return bytes(resampler.state())


class Header(unittest.TestCase):
    def test_constants_are_the_headers(self) -> None:
        defined = re.findall(r"^#define MARSHDECK_(\w+) (\d+)", truth("include/marshdeck.h"), re.MULTILINE)
        values = {name: int(value) for name, value in defined}
        for name in ["VERSION", "MAX_HISTORY", "MAX_COEFFICIENTS", "MAX_CALL"]:
            self.assertEqual(values.pop(name), getattr(marshdeck, name), name)
        self.assertEqual(values.pop("ACCEPTED"), 0)
        self.assertEqual(sorted(values.values()), sorted(marshdeck._REASONS))

    def test_twins_are_laid_out_as_the_headers_structs(self) -> None:
        twins = {
            "state": marshdeck.State,
            "answer": marshdeck._Answer,
            "total": marshdeck._Total,
            "sizes": marshdeck._Sizes,
        }
        lines = []
        for name, twin in twins.items():
            lines.append(f"SIZE({name}, {ctypes.sizeof(twin)})")
            lines += [f"FIELD({name}, {field}, {getattr(twin, field).offset})" for field, _ in twin._fields_]
        listed = [line for line in truth("bindings/layout.def").splitlines() if line.endswith(")")]
        self.assertEqual(lines, listed)

    def test_twins_have_the_headers_types(self) -> None:
        types = {"float": ctypes.c_float, "uint32_t": ctypes.c_uint32, "uint64_t": ctypes.c_uint64}
        types["marshdeck_state"] = marshdeck.State
        structs = re.findall(r"typedef struct \{(.*?)\} marshdeck_(\w+);", truth("include/marshdeck.h"), re.DOTALL)
        declared = {
            name: [(field, types[of]) for of, field in re.findall(r"^ +(\w+) (\w+);", body, re.MULTILINE)]
            for body, name in structs
        }
        ours = {"state": marshdeck.State, "answer": marshdeck._Answer, "total": marshdeck._Total, "sizes": marshdeck._Sizes}
        self.assertEqual(declared, {name: twin._fields_ for name, twin in ours.items()})


class Player:
    """Plays a script of calls (docs/REPLAY.md) as far as this module leaves a way to.

    A script also forges states, overwrites entries of the history, and lends slices that are too short. From such a line on,
    until the script makes a new state, its calls are passed over. Of an answer all is compared but the sums over the lent
    history and coefficients, whose length is the module's own affair.
    """

    def __init__(self, test: unittest.TestCase) -> None:
        self.test = test
        # None while the script does what the module leaves no way to do.
        self.resampler: Resampler | None = None
        self.compared = 0

    def play(self, asked: str, expected: str) -> None:
        operation, *words = asked.split(" ")
        refusal = int(expected.split(" ")[1])
        if operation == "new":
            self.make(int(words[0]), refusal)
        elif operation == "lend":
            if self.resampler and self.resampler.state().source != 0:
                self.resampler = None
        elif operation in ("forge", "poke", "pokes") or refusal in (2, 3, 7):
            self.resampler = None
        elif self.resampler:
            head, state, sums, shown = expected.split("|")
            without_lent = f"{head}|{state}| {sums.split()[2]} |{shown}"
            self.test.assertEqual(self.line(operation, words), without_lent, asked)
            self.compared += 1

    def make(self, target: int, refusal: int) -> None:
        self.resampler = None
        told = 0
        try:
            self.resampler = Resampler(target)
        except Refused as refused:
            told = refused.number
        self.test.assertEqual(told, refusal)
        self.compared += 1

    def line(self, operation: str, words: list[str]) -> str:
        """Does one call. Answers its line without the two sums over what is lent."""
        refusal, consumed, room = 0, 0, 0
        outputs = array("f")
        try:
            if operation == "rate":
                self.resampler.set_source_hz(int(words[0]))
            elif operation == "process":
                room = int(words[0])
                samples = sum((segment(w) for w in words[1:]), array("f"))
                consumed, outputs = self.resampler.process(samples, room)
            else:
                {"reset": self.resampler.reset, "skip": self.resampler.skip_zeros}[operation]()
        except Refused as refused:
            refusal = refused.number
        return self.told(refusal, consumed, outputs, room)

    def told(self, refusal: int, consumed: int, outputs: array[float], room: int) -> str:
        state = self.resampler.state()
        values = [getattr(state, name) for name, _ in marshdeck.State._fields_]
        values[9] = f"{words_of(array('f', [state.cutoff]))[0]:08x}"
        words = words_of(outputs)
        total = 0
        # A script's output holds 4b1df00d where nothing was written.
        for word in words + [0x4B1DF00D] * (room - len(words)):
            total = (total * 65599 + word) % 4294967291
        bits = ["nan" if word == 0x7FC00000 else f"{word:08x}" for word in words]
        shown = bits if len(bits) <= 8 else bits[:4] + [".."] + bits[-4:]
        numbers = " ".join(str(value) for value in values)
        return f"= {refusal} {consumed} {len(words)} | {numbers} | {total} |" + "".join(f" {b}" for b in shown)


class Replay(unittest.TestCase):
    def compared(self, script: str, answers: str) -> int:
        asked = [line for line in truth(script).splitlines() if line and not line.startswith("#")]
        expected = truth(answers).splitlines()
        self.assertEqual(len(asked), len(expected))
        player = Player(self)
        for line, answer in zip(asked, expected):
            player.play(line, answer)
        return player.compared

    def test_the_example_of_the_script_format(self) -> None:
        self.assertEqual(self.compared("oracle/scripts/example.txt", "oracle/scripts/example.out"), 3)

    def test_the_script_of_all_kinds_of_calls(self) -> None:
        self.assertEqual(self.compared("crates/replay/stdin", "crates/replay/stdout"), 2009)


class Refusals(unittest.TestCase):
    def refused(self, number: int, call, *arguments) -> None:
        with self.assertRaises(Refused) as caught:
            call(*arguments)
        self.assertEqual(caught.exception.number, number)

    def unchanged(self, number: int, call: str, *arguments) -> None:
        """In the middle of a stream a call is refused, and what comes after is what comes without it."""
        told = []
        for refuse in (True, False):
            resampler = rated(48000, 16000)
            resampler.process(noise(1, 301), 1000)
            if refuse:
                self.refused(number, getattr(resampler, call), *arguments)
            told.append((numbers(resampler), fed(resampler, noise(2, 400), 400, 500)))
        self.assertEqual(*told)

    def test_rates_out_of_limits_get_1(self) -> None:
        # Cut to 32 bits the last two would be in limits.
        for hz in (0, -1, 3999, 192001, 2**32 + 48000, 48000 - 2**32):
            self.refused(1, Resampler, hz)
            self.unchanged(1, "set_source_hz", hz)
            self.refused(1, marshdeck.needed, hz, 16000)
            self.refused(1, marshdeck.closed_total, 2**41, 48000, hz)

    def test_an_empty_input_gets_4_before_5(self) -> None:
        for room in (0, 1, MAX_CALL + 1):
            self.unchanged(4, "process", [], room)

    def test_a_longer_call_than_16777216_gets_5(self) -> None:
        self.unchanged(5, "process", bytes(4 * (MAX_CALL + 1)), 3)
        self.unchanged(5, "process", [1.0], MAX_CALL + 1)
        self.unchanged(5, "process", [1.0], 10**15)
        self.assertEqual(rated(48000, 16000).process([1.0], MAX_CALL)[0], 1)
        self.assertGreater(rated(48000, 16000).process(bytes(4 * MAX_CALL), 3)[0], 0)

    def test_without_a_source_rate_a_call_gets_6(self) -> None:
        resampler = Resampler(16000)
        fresh = numbers(resampler)
        for samples in ([], [0.5], bytes(4 * (MAX_CALL + 1))):
            self.refused(6, resampler.process, samples, 3)
        self.assertEqual(numbers(resampler), fresh)

    def test_more_samples_than_are_counted_get_100(self) -> None:
        for samples in (2**40 + 1, 2**64, 2**64 + 3):
            self.refused(100, marshdeck.closed_total, samples, 48000, 16000)

    def test_what_is_no_number_of_samples_is_an_error(self) -> None:
        with self.assertRaises(ValueError):
            rated(48000, 16000).process([1.0], -1)
        with self.assertRaises(ValueError):
            marshdeck.closed_total(-1, 48000, 16000)
        for sample in (-32769, 32768):
            with self.assertRaises(ValueError):
                marshdeck.from_i16(sample)

    def test_a_refusal_tells_its_number_and_why(self) -> None:
        self.assertEqual(str(Refused(4)), "refused 4: the input is empty")


class Recording(unittest.TestCase):
    def test_the_example_comes_out_bit_for_bit(self) -> None:
        consumed, outputs = rated(48000, 16000).process(noise(1, 300), 1000)
        self.assertEqual((consumed, len(outputs)), (300, 20))
        self.assertEqual(words_of(outputs[:4]), [0xBE4FE9C4, 0xBE0D6477, 0xBDA3FDFC, 0xBE76EB64])
        self.assertEqual(words_of(outputs[-4:]), [0xBD13B498, 0xBCBF363E, 0xBDE6C29F, 0xBF1C3DE9])

    def test_all_kinds_of_samples(self) -> None:
        samples = noise(1, 300)
        expected = rated(48000, 16000).process(samples, 1000)
        kinds = [samples.tobytes(), bytearray(samples.tobytes()), memoryview(samples), list(samples), iter(samples)]
        for kind in [*kinds, (ctypes.c_float * 300)(*samples)]:
            self.assertEqual(rated(48000, 16000).process(kind, 1000), expected)

    def test_what_is_no_f32_is_an_error(self) -> None:
        for kind in (array("h", [1]), array("d", [1.0]), "text", 3):
            with self.assertRaises(TypeError):
                rated(48000, 16000).process(kind, 1)
        with self.assertRaises(ValueError):
            rated(48000, 16000).process(b"\0\0\0", 1)

    def test_more_than_one_channel_is_an_error(self) -> None:
        for shape in ([2, 150], [150, 2], [1, 300], []):
            view = memoryview(bytes(4 * math.prod(shape))).cast("f", shape)
            with self.assertRaises(TypeError):
                rated(48000, 16000).process(view, 1000)

    def test_cutting_is_free(self) -> None:
        for rates in RATES:
            stream = closed(rated(*rates), noise(3, 1000))
            whole = fed(rated(*rates), stream, 10000, 10000)
            for block, room in [(7, 3), (160, 10000), (10000, 1), (333, 50)]:
                self.assertEqual(fed(rated(*rates), stream, block, room), whole, rates)

    def test_a_closed_recording_has_the_total_that_is_told(self) -> None:
        for rates in RATES:
            for samples in (0, 1, 2, 3, 4, 159, 2000):
                resampler = rated(*rates)
                outputs = fed(resampler, closed(resampler, noise(4, samples)), 500, 500)
                self.assertEqual(len(outputs), marshdeck.closed_total(samples, *rates))

    def test_zeros_close_by_half_the_filter(self) -> None:
        self.assertEqual(Resampler(16000).closing_zeros(), 0)
        self.assertEqual(rated(48000, 16000).closing_zeros(), 240)

    def test_a_reset_and_a_skip_make_ready_for_another_recording(self) -> None:
        for rates in RATES:
            resampler = rated(*rates)
            stream = closed(resampler, noise(5, 1000))
            first = fed(resampler, stream, 400, 400)
            resampler.reset()
            self.assertEqual(resampler.state().last_sample, 0)
            resampler.skip_zeros()
            self.assertEqual(resampler.state().last_sample, resampler.closing_zeros())
            self.assertEqual(fed(resampler, stream, 400, 400), first)

    def test_the_rate_changes_on_the_way(self) -> None:
        resampler = rated(192000, 4000)
        for hz in (4000, 192000, 48000, 4001, 191999, 191999, 4000):
            fed(resampler, noise(6, 2000), 1000, 1000)
            resampler.set_source_hz(hz)
            self.assertEqual((resampler.state().source, resampler.state().mem_alloc_size), (hz, 7839))

    def test_a_state_that_was_shown_is_a_copy(self) -> None:
        resampler = rated(48000, 16000)
        resampler.state().den = 2
        self.assertEqual(resampler.state().den, 1)

    def test_threads_share_a_resampler_one_call_after_the_other(self) -> None:
        shared, alone = rated(48000, 47952), rated(48000, 47952)
        made = []
        threads = [
            threading.Thread(target=lambda: made.append(len(shared.process([0.5] * 3001, 4000)[1]))) for _ in range(8)
        ]
        for thread in threads:
            thread.start()
        for thread in threads:
            thread.join()
        in_turn = [len(alone.process([0.5] * 3001, 4000)[1]) for _ in range(8)]
        self.assertEqual((numbers(shared), sorted(made)), (numbers(alone), sorted(in_turn)))


class Page(unittest.TestCase):
    def test_the_python_of_the_page_runs(self) -> None:
        blocks = re.findall(r"^```python\n(.*?)^```", truth("bindings/README.md"), re.DOTALL | re.MULTILINE)
        self.assertEqual(len(blocks), 1)
        exec(blocks[0], {})


class Values(unittest.TestCase):
    def test_sixteen_bits_by_the_vectors(self) -> None:
        lines = truth("crates/vectors/data/to_i16.txt").splitlines()
        for line in lines:
            bits, sample = line.split(" ")
            self.assertEqual(marshdeck.to_i16(of_bits(bits)) % 2**16, int(sample, 16), line)
        self.assertEqual(len(lines), 6000)

    def test_every_sample_goes_there_and_back(self) -> None:
        for sample in range(-32768, 32768):
            self.assertEqual(marshdeck.from_i16(sample), sample / 32768)
            self.assertEqual(marshdeck.to_i16(sample / 32768), sample)

    def test_sines_by_the_vectors(self) -> None:
        """The vectors are libm's sines: document 01 asks for ours within 2^-40 of them."""
        lines = truth("crates/vectors/data/sine.txt").splitlines()
        for line in lines:
            angle, expected = struct.unpack(">dd", bytes.fromhex(line))
            self.assertLessEqual(abs(marshdeck.sine(angle) - expected), 2.0**-40, line)
        self.assertEqual(len(lines), 2000)

    def test_closed_totals_by_the_vectors(self) -> None:
        lines = [line.split() for line in truth("crates/vectors/data/limits.txt").splitlines() if line.startswith("closed")]
        for _, source, target, samples, _, kind, answer in lines:
            try:
                told = ("total", marshdeck.closed_total(int(samples), int(source), int(target)))
            except Refused as refused:
                told = ("many", 0) if refused.number == 100 else ("refused", refused.number)
            self.assertEqual(told, (kind, int(answer)))
        self.assertEqual(len(lines), 8)

    def test_sizes(self) -> None:
        self.assertEqual(marshdeck.needed(48000, 16000), (639, 480))
        self.assertEqual(marshdeck.needed(44100, 48000), (319, 2568))
        self.assertEqual(marshdeck.needed(192000, 4000), (7839, 7680))


if __name__ == "__main__":
    unittest.main()
