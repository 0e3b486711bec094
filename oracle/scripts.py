#!/usr/bin/env python3
"""Makes the questions that the oracle answers: scripts of calls, points, and PCM files.

usage: scripts.py replay|driver|sixteen|sine|coefficients     on standard output
       scripts.py conform FOLDER                              NAME.in for each case, the names on standard output

Nothing here is an expected answer. The numbers that a pair of rates gives are worked out, by document 01's formulas, only to
choose lengths and values next to a limit. The same questions come out each time: what looks random is drawn from `Draw`.
"""

import math
import os
import struct
import sys

MARKED = "4b1df00d"  # what lent entries hold before a call, so that a touched one shows
ENOUGH_HISTORY = 7839
ENOUGH_COEFFICIENTS = 7688


class Draw:
    """A generator of our own, so that no version of Python draws otherwise."""

    def __init__(self, seed):
        self.x = seed

    def below(self, limit):
        self.x = (self.x * 6364136223846793005 + 1442695040888963407) % 2**64
        return (self.x >> 32) % limit

    def between(self, low, high):
        return low + self.below(high - low + 1)

    def one_of(self, choices):
        return choices[self.below(len(choices))]


# --- document 01's numbers, to choose questions by -------------------------------------------------------------------


class Rated:
    """What document 01, "Setting a rate", makes of two rates."""

    def __init__(self, source, target):
        g = math.gcd(source, target)
        self.source, self.target = source, target
        self.num, self.den = source // g, target // g
        self.n, self.oversample = 160, 16
        if self.num > self.den:
            self.n = (160 * self.num // self.den + 7) // 8 * 8
            self.oversample = 16 >> sum(2**x * self.den < self.num for x in range(1, 5))
        self.direct = self.den <= self.oversample
        self.table = self.n * self.den if self.direct else self.n * self.oversample + 8
        self.alloc = self.n + 159


def float_bits(x):
    return struct.unpack("<I", struct.pack("<f", x))[0]


def double_bits(x):
    return struct.unpack("<Q", struct.pack("<d", x))[0]


CASES = {
    "A": (44100, 48000),
    "B": (48000, 44100),
    "C": (48000, 16000),
    "D": (192000, 4000),
    "E": (32000, 16000),
    "F": (42000, 20000),
    "G": (45000, 48000),
    "H": (48000, 51000),
}


def pairs_of_every_kind(each, seed):
    """`each` pairs for every oversample and both kernels, then pairs at the limits."""
    draw = Draw(seed)
    found = {(o, direct): [] for o in (16, 8, 4, 2, 1) for direct in (True, False)}
    while any(len(pairs) < each for pairs in found.values()):
        den = draw.between(1, draw.one_of([2, 4, 16, 40, 400]))
        num = draw.between(1, den * 48)
        low = -(-4000 // min(num, den))
        high = 192000 // max(num, den)
        if low > high:
            continue
        scale = draw.between(low, high)
        r = Rated(num * scale, den * scale)
        pairs = found[r.oversample, r.direct]
        if len(pairs) < each and r.source != r.target and (r.source, r.target) not in pairs:
            pairs.append((r.source, r.target))
    chosen = [pair for key in sorted(found, reverse=True) for pair in found[key]]
    return chosen + [
        (192000, 4000), (4000, 192000), (4000, 4000), (192000, 192000), (192000, 191999), (191999, 192000),
        (191999, 4000), (4001, 4000), (4000, 4001), (4000, 191999), (48000, 47952), (68000, 4000), (64000, 4000),
        (64001, 4000), (32001, 4000), (16001, 4000), (8001, 4000), (8000, 4000), (16000, 4000), (32000, 4000),
        (65536, 65537), (96000, 44100), (11025, 8000), (22050, 48000),
    ]


# --- the script of calls ---------------------------------------------------------------------------------------------


def start(source, target, more_history=0, more_coefficients=0):
    """A new state with marked slices, each longer than needed by so many, and its first rate."""
    r = Rated(source, target)
    return [
        f"new {target}",
        "lend 0 0 " + MARKED,
        f"lend {r.alloc + more_history} {r.table + more_coefficients} {MARKED}",
        f"rate {source}",
    ]


def before_anything():
    yield "# Before anything: the state's numbers are all 0, so every call but new gets 7"
    yield from ["rate 48000", "process 3 r:1*3", "process 0", "reset", "skip"]


def targets():
    yield "# New states: targets in and out of limits. A refused one is all 0, and later calls with it get 7"
    for target in (4000, 192000, 3999, 192001, 0, 1, 4294967295, 48000):
        yield f"new {target}"
        yield from ["skip", "reset"]
    yield "new 3999"
    yield from ["rate 48000", "process 1 r:1*1", "reset", "skip"]
    yield "new 192001"
    yield from ["rate 3999", "process 1", "reset", "skip"]


def sources():
    yield "# Source rates in and out of limits: 3999 and 192001 get 1, and so does each before any look at the slices"
    for lent in ("lend 0 0 " + MARKED, f"lend {ENOUGH_HISTORY} {ENOUGH_COEFFICIENTS} {MARKED}"):
        yield "new 48000"
        yield lent
        for source in (3999, 192001, 0, 4294967295, 4000, 192000):
            yield f"rate {source}"
        yield "process 4 r:7*90"
        yield "rate 3999"
        yield "rate 192001"


def refusals_of_rate():
    yield "# Setting a rate, what is refused first: 7, 1, then the same rate is accepted, then 2, 3"
    r = Rated(48000, 16000)
    yield "new 16000"
    yield "lend 0 0 " + MARKED
    yield "forge kernel=3"
    yield from ["rate 3999", "rate 48000"]
    yield "forge kernel=0"
    yield from ["rate 3999", "rate 48000"]
    yield f"lend {r.alloc - 1} {r.table - 1} {MARKED}"
    yield "rate 48000"
    yield f"lend {r.alloc - 1} {r.table} {MARKED}"
    yield "rate 48000"
    yield f"lend {r.alloc} {r.table - 1} {MARKED}"
    yield "rate 48000"
    yield f"lend {r.alloc} {r.table} {MARKED}"
    yield "rate 48000"
    yield "process 5 r:3*300"
    yield "# The same rate again: accepted with no change and no look at the slices"
    yield f"lend 1 1 {MARKED}"
    yield "rate 48000"
    yield "lend 0 0 " + MARKED
    yield "rate 48000"
    yield "rate 192001"
    yield "rate 44100"
    yield "forge magic=1"
    yield from ["rate 48000", "rate 192001"]
    yield "# A shorter filter still needs the old length of the history"
    small = Rated(8000, 16000)
    yield from start(48000, 16000)
    yield f"lend {r.alloc - 1} {small.table} {MARKED}"
    yield "rate 8000"
    yield f"lend {r.alloc} {small.table - 1} {MARKED}"
    yield "rate 8000"
    yield f"lend {r.alloc} {small.table} {MARKED}"
    yield "rate 8000"


def refusals_of_process():
    yield "# Processing, what is refused first: 7, 6, 2, 3, 4. Refusal 5 is past the player's longest call"
    r = Rated(44100, 48000)
    yield "new 48000"
    yield "lend 0 0 " + MARKED
    yield "forge started=1"
    yield "process 0"
    yield "forge started=0"
    yield from ["process 0", "process 2 r:1*2"]
    yield f"lend {r.alloc} {r.table} {MARKED}"
    yield from ["process 0", "process 2 r:1*2", "rate 44100"]
    yield f"lend {r.alloc - 1} {r.table - 1} {MARKED}"
    yield from ["process 3", "process 3 r:1*90"]
    yield f"lend {r.alloc} {r.table - 1} {MARKED}"
    yield from ["process 3", "process 3 r:1*90"]
    yield f"lend {r.alloc - 1} {r.table} {MARKED}"
    yield from ["process 3", "process 3 r:1*90"]
    yield f"lend {r.alloc} {r.table} {MARKED}"
    yield from ["process 3", "process 0", "process 3 r:1*90", "process 0 r:1*90", "process 3"]
    yield "forge phase=160"
    yield from ["process 3", "process 3 r:1*90"]
    yield f"lend 0 0 {MARKED}"
    yield "process 3 r:1*90"
    yield "# The longest call that the player takes, in and out"
    yield from start(192000, 191999)
    yield "process 16384 r:5*16384"
    yield from start(4000, 4001)
    yield "process 16384 s:6*16384"


def refusals_of_reset_and_skip():
    yield "# Reset: 7, 2. Skip: 7. Neither looks at the coefficients, skip not at the history"
    r = Rated(48000, 16000)
    yield from start(48000, 16000)
    yield "process 3 r:2*300"
    yield f"lend {r.alloc - 1} 0 {MARKED}"
    yield "forge buffer=161"
    yield from ["reset", "skip"]
    yield "forge buffer=160"
    yield from ["reset", "skip"]
    yield f"lend {r.alloc + 2} 0 {MARKED}"
    yield from ["reset", "skip", "reset"]
    yield "new 16000"
    yield "lend 0 0 " + MARKED
    yield from ["reset", "skip"]
    yield f"lend 5 5 {MARKED}"
    yield from ["reset", "skip"]


def worked_pairs():
    for name, (source, target) in CASES.items():
        r = Rated(source, target)
        yield f"# Case {name}: {source} to {target}, with one entry too few, with just enough, with more"
        yield f"new {target}"
        yield "lend 0 0 " + MARKED
        yield f"lend {r.alloc - 1} {r.table} {MARKED}"
        yield f"rate {source}"
        yield f"lend {r.alloc} {r.table - 1} {MARKED}"
        yield f"rate {source}"
        yield f"lend {r.alloc} {r.table} {MARKED}"
        yield f"rate {source}"
        yield f"process 12 r:11*{r.n}"
        yield "process 1000 r:12*200"
        yield from start(source, target, 3, 5)
        yield f"process 12 s:13*{r.n}"
        yield "process 1000 r:14*200"


def worked_calls():
    calls = {"I": (158, 9), "J": (300, 1000), "K": (300, 5), "L": (400, 26)}
    for name, (samples, room) in calls.items():
        yield f"# Case {name}: C from fresh, {samples} in, room {room}"
        yield from start(48000, 16000)
        yield f"process {room} r:1*{samples}"
        yield f"process {room} r:2*{samples}"


def closed_totals():
    yield "# Closed totals: M samples and n/2 zeros. C with M=3 makes 1, with M=4 makes 2; A with M=1 makes 2"
    for source, target, samples in ((48000, 16000, 3), (48000, 16000, 4), (44100, 48000, 1), (48000, 47952, 1000),
                                    (4000, 192000, 1), (192000, 4000, 48), (192000, 4000, 49)):
        r = Rated(source, target)
        yield from start(source, target)
        yield f"process 2000 r:{samples}*{samples} c:00000000*{r.n // 2}"


def longest_history():
    yield "# 192000 to 4000 with 7838 history entries gets 2, with 7839 not"
    yield "new 4000"
    yield "lend 0 0 " + MARKED
    yield f"lend 7838 7680 {MARKED}"
    yield "rate 192000"
    yield f"lend 7839 7679 {MARKED}"
    yield "rate 192000"
    yield f"lend 7839 7680 {MARKED}"
    yield "rate 192000"
    yield "process 3 r:9*8000"


def carried_phase():
    yield "# The phase at a rate change where the Rust panics: the exact quotient, 65536 here"
    yield from start(65536, 65537)
    yield "process 1 r:1*81"
    yield "rate 65535"
    yield "process 4 r:2*20"
    yield "# More of them, and the largest phase that the Rust still carries"
    draw = Draw(5)
    for target, sources in ((191999, (191998, 191997, 191996, 100003)), (131071, (131070, 65537, 131069)),
                            (192000, (191999, 191998, 191997, 191999))):
        yield f"new {target}"
        yield f"lend {ENOUGH_HISTORY} {ENOUGH_COEFFICIENTS} {MARKED}"
        for source in sources:
            yield f"rate {source}"
            yield f"process {draw.between(1, 9)} r:{draw.below(1000)}*100"
    for v in (65536, 65535, 65534):
        yield from start(65536, 65537)
        yield f"forge phase={v}"
        yield "rate 65535"
    for v in (22369, 22370, 191998):
        yield from start(191999, 192000, 400)
        yield f"forge phase={v}"
        yield "rate 191998"
        yield from start(192000, 191999, 400)
        yield f"forge phase={v}"
        yield "rate 191998"


def pairs_of_rates():
    yield "# Pairs of rates: every oversample, both kernels, the limits. Sound, odd values, subnormal numbers"
    draw = Draw(1)
    for i, (source, target) in enumerate(pairs_of_every_kind(7, 2)):
        r = Rated(source, target)
        yield from start(source, target, draw.below(4), draw.below(4))
        room = draw.between(9, 24) if r.n < 3000 else draw.between(1, 9)
        most = 1 + 30 * r.num // r.den
        yield f"process {room} r:{i}*{min(r.n // 2 + most, 6000)}"
        yield f"process {draw.between(0, 3)} r:{i}*{draw.between(1, 200)}"
        kind = draw.one_of("sd")
        yield f"process {room} {kind}:{i}*{min(most + draw.below(400), 3000)}"


def chunk_edges():
    yield "# Chunk edges: 158 samples from fresh, more once the filter was longer"
    for source, target in ((48000, 16000), (44100, 48000), (47000, 47952)):
        for samples in (157, 158, 159, 315, 316, 317, 474):
            yield from start(source, target)
            yield f"process 500 r:{samples}*{samples}"
            yield f"process 500 r:{samples}*1"
    for samples in (157, 158, 159, 477, 478, 479, 480, 956, 957):
        yield from start(48000, 16000, 320, 2600)
        yield "rate 16001"
        yield f"process 3 r:{samples}*{samples}"
        yield f"process 1000 r:{samples}*{samples}"
    yield "# Rooms 0 to 3 and one sample at a time"
    for source, target in ((48000, 16000), (44100, 48000), (16000, 48000), (42000, 20000)):
        yield from start(source, target, 1, 1)
        for i, room in enumerate((0, 1, 2, 3, 0, 3, 2, 1, 0)):
            yield f"process {room} r:{i}*{(158, 1, 90, 2)[i % 4]}"
    yield "# The room ends at a chunk edge, one before it, one after it"
    for room in (25, 26, 27, 52, 53):
        yield from start(48000, 16000)
        yield f"process {room} r:4*400"
        yield f"process {room} r:5*400"


def seed_after(seed, samples):
    """The seed with which an `r` segment goes on where one of so many samples ended."""
    for _ in range(samples):
        seed = (seed * 1664525 + 1013904223) % 2**32
    return seed


def one_stream_cut():
    yield "# One stream, cut in four ways, and with rooms that leave samples to be offered again"
    for source, target in ((44100, 48000), (48000, 16000)):
        for cut in ((600,), (1, 599), (300, 300), (7, 151, 158, 159, 125)):
            yield from start(source, target)
            read = 0
            for samples in cut:
                yield f"process 700 r:{seed_after(8, read)}*{samples}"
                read += samples
            yield f"process 700 c:00000000*{Rated(source, target).n // 2}"
    yield from start(48000, 16000)
    for room, read in ((5, 0), (26, 255), (1, 571), (9, 571)):
        yield f"process {room} r:{seed_after(8, read)}*{600 - read}"


def printed_outputs():
    yield "# 0, 1, 7, 8, 9 and 10 outputs; segments of every kind joined; segments of no samples"
    yield from start(44100, 48000, 2, 2)
    for room in (0, 1, 7, 8, 9, 10):
        yield f"process {room} r:4294967295*100"
    yield "process 20 r:0*3 s:1*20 d:2*4 c:3f800000*5 b:3f800000 b:bf800000,00000000,80000000 r:4294967295*6"
    yield "process 3 r:1*0"
    yield "process 3 c:3f800000*0 r:1*0 s:1*0 d:1*0"
    yield "process 3 r:1*0 b:3f000000 d:1*0"
    draw = Draw(3)
    yield "process 9 b:" + ",".join("nan" if draw.below(9) == 0 else f"{draw.below(2**32):08x}" for _ in range(120))
    yield "process 300 b:" + ",".join(f"{float_bits(draw.below(2001) / 1000 - 1):08x}" for _ in range(250))


def odd_values():
    yield "# NaN, infinities, subnormal numbers and -0.0 as samples, in the history and among the coefficients"
    for source, target in ((48000, 16000), (44100, 48000), (45000, 48000), (42000, 20000)):
        r = Rated(source, target)
        yield from start(source, target, 1, 1)
        yield f"process 30 s:1*{r.n // 2 + 30}"
        yield "process 30 s:2*400"
        yield "reset"
        yield f"process 30 d:3*{r.n}"
        yield "process 20 c:80000000*60"
        yield f"process 20 c:80000000*{r.n + 60}"
        yield "process 9 b:nan,7f800000,ff800000,00000001,80000001,007fffff,00800000,80000000,7f7fffff,ff7fffff r:1*30"
        yield "process 9 c:7f7fffff*40 c:ff7fffff*40"
        yield "process 9 b:7fc00001,ffc00000,7f800001,ff812345,7fffffff r:5*20"
        yield "reset"
        yield "poke h 0 7fc00000"
        yield f"poke h {r.n - 2} 7f800000"
        yield "process 3 r:1*9"
        yield "process 20 r:2*90"
        yield "# A coefficient of 0 is not skipped: 0 times infinity is NaN"
        yield f"pokes h 0 c:7f800000*{r.n}"
        yield f"pokes c 0 c:00000000*{r.table}"
        yield "process 5 c:7f800000*20"
        yield f"pokes h 0 r:3*{r.alloc}"
        yield f"pokes c 0 s:4*{r.table}"
        yield "process 5 r:5*20"
        yield f"pokes c 0 c:80000000*{r.table}"
        yield "process 9 r:5*40"
        yield f"pokes c 0 d:8*{r.table}"
        yield "process 9 d:5*40"
        yield f"poke c {r.table} 00000001"
        yield f"poke h {r.alloc} 80000000"
        yield f"pokes c 0 r:8*{r.table}"
        yield f"process 9 r:6*{r.n + 40}"


def excess():
    yield "# Slices longer than needed: the excess keeps what was poked there, also past a direct table after a longer one"
    yield "new 48000"
    yield "lend 0 0 " + MARKED
    yield "lend 8192 8192 80000000"
    for i, source in enumerate((44100, 48000, 45000, 96000, 144000, 44100, 192000, 4000)):
        yield f"pokes h {8192 - 9} s:{i}*9"
        yield f"pokes c {8192 - 9} s:{i}*9"
        yield f"rate {source}"
        yield f"process 20 r:{i}*160"
        yield f"pokes c 7000 r:{i}*300"
    yield "reset"
    yield "process 4 r:1*50"


def resets_and_skips():
    yield "# Resets and skips: before a rate, after it, in the middle, with magic samples"
    for source, target in ((48000, 16000), (44100, 48000), (192000, 4000)):
        yield f"new {target}"
        yield from ["reset", "skip"]
        yield "lend 0 0 " + MARKED
        yield f"lend {ENOUGH_HISTORY + 1} {ENOUGH_COEFFICIENTS} {MARKED}"
        yield f"rate {source}"
        yield from ["skip", "reset", "process 4 r:1*20", "reset", "skip", "process 4 r:1*90", "skip", "process 9 r:2*90"]
        yield "rate 24000"
        yield from ["skip", "process 1 r:3*9", "skip", "process 3 r:4*50", "reset", "process 3 r:4*50"]
        yield f"rate {source}"
        yield from ["reset", "rate 4001", "process 3 r:5*200", "skip", "skip", "process 3 r:5*200"]


def magic_samples():
    yield "# Magic samples: shorter filters leave them, calls with rooms 0 to 3 play them, longer filters take them back"
    for first, then in ((192000, (4000, 48000, 96000, 191000)), (96000, (48000, 60000, 4000, 96001)),
                        (192000, (100000, 50000, 25000, 4000, 192000)), (48000, (44000, 47000, 48000, 4000, 48001))):
        for rooms in ((0,), (1, 0), (3, 2), (40,)):
            target = 16000 if first < 192000 else 4000
            yield f"new {target}"
            yield f"lend {ENOUGH_HISTORY} {ENOUGH_COEFFICIENTS} {MARKED}"
            yield f"rate {first}"
            yield f"process 5 r:1*{Rated(first, target).n}"
            for source in then:
                yield f"rate {source}"
                for room in rooms:
                    yield f"process {room} r:{room}*{1 + 7 * room}"
    yield "# Rate after rate with no call in between"
    for sources in ((192000, 4000, 192000, 4000, 96000), (4000, 8000, 16000, 32000, 64000, 32000, 16000, 8000)):
        for begun in (False, True):
            yield "new 4000"
            yield f"lend {ENOUGH_HISTORY} {ENOUGH_COEFFICIENTS} {MARKED}"
            if begun:
                yield "rate 100000"
                yield "process 2 r:8*3000"
            for source in sources:
                yield f"rate {source}"
            yield "process 30 r:9*60"


def random_changes():
    draw = Draw(77)
    for stream in range(14):
        target = draw.one_of([4000, 8000, 16000, 44100, 48000, 47952, draw.between(4000, 192000)])
        yield f"# Stream {stream} to {target}: rates, calls, resets and skips as drawn"
        yield f"new {target}"
        yield "lend 0 0 " + MARKED
        yield f"lend {ENOUGH_HISTORY + draw.below(9)} {ENOUGH_COEFFICIENTS + draw.below(9)} {MARKED}"
        for step in range(38):
            turn = draw.below(20)
            if turn < 7 or step == 0:
                near = [draw.between(4000, 192000), draw.between(4000, 60000), min(target + draw.below(99), 192000),
                        draw.one_of([44100, 48000, 96000, 192000, 4000])]
                yield f"rate {draw.one_of(near)}"
            elif turn < 18:
                room = draw.one_of([0, 1, 2, 3, draw.below(40)])
                kind = draw.one_of(["r", "r", "r", "s", "d"])
                count = draw.one_of([1, 2, 3, 157, 158, 159, draw.between(1, 600), draw.between(1, 5000)])
                yield f"process {room} {kind}:{draw.below(2**32)}*{count}"
            else:
                yield draw.one_of(["reset", "skip", "skip"])


def short_slices():
    draw = Draw(78)
    yield "# Calls as drawn with slices of any length, most of them about as long as needed"
    for stream in range(5):
        target = draw.one_of([8000, 16000, 48000, 100000])
        yield f"new {target}"
        for step in range(18):
            source = draw.one_of([8000, 44100, 48000, 96000, 32000, 16000])
            r = Rated(source, target)
            yield f"lend {max(r.alloc + draw.between(-2, 2), 0)} {max(r.table + draw.between(-2, 2), 0)} {MARKED}"
            yield f"rate {source}"
            yield f"process {draw.below(20)} r:{draw.below(1000)}*{draw.below(300)}"
            if draw.below(4) == 0:
                yield draw.one_of(["reset", "skip"])


CALLS = ["process 2 r:1*2", "rate 48000", "reset", "skip", "rate 32000"]


def wrong_numbers():
    """For a state whose numbers belong together, wrong values of each of them."""
    yield "# Forged: each number of a fresh state wrong, one at a time; every call gets 7"
    yield "new 16000"
    yield f"lend {ENOUGH_HISTORY} {ENOUGH_COEFFICIENTS} {MARKED}"
    wrong = ["target=3999", "target=192001", "target=0", "source=48000", "source=3999", "num=1", "den=0", "den=2", "n=160",
             "alloc=1", "alloc=319", "buffer=159", "buffer=161", "buffer=0", "int=1", "frac=1", "cutoff=3f7fffff",
             "cutoff=3f800001", "cutoff=7fc00000", "cutoff=bf800000", "cutoff=7f812345", "oversample=1", "oversample=16",
             "started=1", "kernel=1", "kernel=2", "kernel=3", "kernel=4294967295", "position=1", "phase=1", "magic=1"]
    right = {"target": 16000, "source": 0, "num": 0, "den": 1, "n": 0, "alloc": 0, "buffer": 160, "int": 0, "frac": 0,
             "cutoff": "3f800000", "oversample": 0, "started": 0, "kernel": 0, "position": 0, "phase": 0, "magic": 0}
    for i, setting in enumerate(wrong):
        name = setting.split("=")[0]
        yield f"forge {setting}"
        yield from [CALLS[i % 4], CALLS[(i + 1) % 4]]
        yield f"forge {name}={right[name]}"
    yield "# A kernel that there is not stays until the next new state"
    yield "forge kernel=3"
    yield from ["skip", "rate 48000", "reset", "process 1 r:1*1", "new 3999", "forge kernel=7", "skip", "new 16000", "skip"]
    yield "rate 48000"
    yield "# Forged: each number of a state with a rate wrong, one at a time"
    wrong = ["target=16001", "target=3999", "target=192001", "target=0", "source=0", "source=47999", "source=3999",
             "source=192001", "source=96000", "num=0", "num=2", "num=6", "num=4294967295", "den=0", "den=2", "den=4294967295",
             "n=479", "n=481", "n=0", "n=4294967295", "n=4294967137", "alloc=638", "alloc=7840", "alloc=0",
             "alloc=4294967295", "buffer=159", "buffer=161", "buffer=0", "int=2", "int=4", "frac=1", "cutoff=3ea3d709",
             "cutoff=3ea3d70b", "cutoff=bea3d70a", "cutoff=7fc00000", "cutoff=ffc00001", "cutoff=3f75c28f", "oversample=7",
             "oversample=16", "oversample=0", "started=2", "started=4294967295", "kernel=0", "kernel=2", "kernel=3",
             "kernel=4294967295", "position=241", "position=4294967295", "phase=1", "phase=4294967295", "magic=1",
             "magic=2147483648", "magic=4294967295", "magic=4294967216"]
    right = {"target": 16000, "source": 48000, "num": 3, "den": 1, "n": 480, "alloc": 639, "buffer": 160, "int": 3,
             "frac": 0, "cutoff": "3ea3d70a", "oversample": 8, "started": 0, "kernel": 1, "position": 240, "phase": 0,
             "magic": 0}
    for started in (0, 1):
        right["started"] = started
        for i, setting in enumerate(wrong):
            name = setting.split("=")[0]
            yield f"forge {setting}"
            yield CALLS[(i + started) % 5]
            yield f"forge {name}={right[name]}"
        yield "process 1 r:1*300"
    yield "# Several at once, and a ratio that is not in lowest terms"
    yield "forge num=6 den=2"
    yield from CALLS
    yield "forge num=3 den=1 source=32000 target=16000"
    yield from CALLS
    yield "new 16000"
    yield "forge source=16000 num=1 den=1 n=160 alloc=319 int=1 cutoff=3f75c28f oversample=16 kernel=1 position=80"
    yield from ["process 5 r:1*90", "rate 16000"]
    yield "forge cutoff=3f75c290"
    yield from CALLS


def border_numbers():
    """Both sides of each bound that is not an equation."""
    yield "# Forged: both sides of each bound, for a state with magic samples to spare"
    for source, target in ((48000, 16000), (44100, 48000), (42000, 20000), (192000, 4000), (4000, 192000)):
        r = Rated(source, target)
        most = ENOUGH_HISTORY - 159 - r.n
        borders = [
            f"alloc={r.alloc}", f"alloc={r.alloc - 1}", "alloc=7839", "alloc=7840", f"alloc={r.alloc}", f"position={r.n // 2}",
            f"position={r.n // 2 + 1}", "position=0", f"phase={r.den - 1}", f"phase={r.den}", "phase=0", "started=0", "started=2",
            "started=1", "magic=1", "magic=0", f"alloc=7839 magic={most // 2}", f"alloc=7839 magic={most // 2 + 1}",
            f"alloc={r.alloc + 1} magic=0", f"alloc={r.alloc + 1} magic=1", f"alloc={min(r.alloc + 2, 7839)} magic=1",
            "alloc=7839 magic=1 started=0", "alloc=7839 magic=0 started=0", f"alloc=7839 magic={min(1, most // 2)} started=1",
        ]
        yield f"new {target}"
        yield "lend 0 0 " + MARKED
        yield f"lend {ENOUGH_HISTORY + 1} {ENOUGH_COEFFICIENTS} {MARKED}"
        yield f"rate {source}"
        yield f"pokes h 0 r:6*{ENOUGH_HISTORY}"
        for i, setting in enumerate(borders):
            yield f"forge {setting}"
            yield ("process 2 r:1*3", "skip", "process 0 r:2*1", f"rate {source}")[i % 4]


def good_forged():
    """States that no call made, but whose numbers belong together."""
    yield "# Forged states whose numbers belong together: any phase, position, magic, start; then calls and rates"
    draw = Draw(4)
    for i, (source, target) in enumerate(pairs_of_every_kind(2, 9)[:32] + list(CASES.values())):
        r = Rated(source, target)
        alloc = draw.one_of([r.alloc, draw.between(r.alloc, ENOUGH_HISTORY), ENOUGH_HISTORY])
        most = (alloc - 159 - r.n) // 2
        started = draw.one_of([0, 1, 1, 1])
        magic = draw.one_of([0, most, draw.between(0, most), min(most, draw.below(9))]) if started else 0
        yield f"new {target}"
        yield f"lend {ENOUGH_HISTORY + draw.below(2)} {ENOUGH_COEFFICIENTS} {MARKED}"
        yield f"rate {source}"
        yield f"pokes h 0 r:{i}*{ENOUGH_HISTORY}"
        yield (f"forge alloc={alloc} started={started} magic={magic} position={draw.between(0, r.n // 2)} "
               f"phase={draw.one_of([r.den - 1, draw.below(r.den)])}")
        yield f"process {draw.one_of([0, 1, 3, 30])} r:{i}*{draw.between(1, 400)}"
        yield f"rate {draw.one_of([4000, 8000, 44100, 48000, 96000, 192000, draw.between(4000, 192000)])}"
        yield f"process {draw.one_of([0, 1, 3, 30])} r:{i}*{draw.between(1, 400)}"
        yield draw.one_of(["skip", "reset", "process 9 s:4*99"])
    yield "# A rate after forging, with no call in between: never started, started, with the most magic samples"
    for i, (source, target) in enumerate(CASES.values()):
        r = Rated(source, target)
        most = (ENOUGH_HISTORY - 159 - r.n) // 2
        for started, magic in ((0, 0), (1, 0), (1, most), (1, most // 3)):
            yield f"new {target}"
            yield f"lend {ENOUGH_HISTORY} {ENOUGH_COEFFICIENTS} {MARKED}"
            yield f"rate {source}"
            yield f"pokes h 0 s:{i}*{ENOUGH_HISTORY}"
            yield f"forge alloc={ENOUGH_HISTORY} started={started} magic={magic} position=1 phase={draw.below(r.den)}"
            yield f"rate {draw.one_of([4000, 32000, 64000, 128000, 191999])}"
            yield "process 3 r:1*200"
    yield "# A history that is needed longer than lent, by a forged alloc"
    yield from start(48000, 16000)
    yield "forge alloc=640"
    yield from ["process 2 r:1*3", "reset", "rate 44100", "rate 48000", "skip"]
    yield f"lend 640 {ENOUGH_COEFFICIENTS} {MARKED}"
    yield from ["process 2 r:1*3", "reset", "rate 44100", "process 2 r:1*3"]


def lent_anew():
    yield "# Lent slices cut, filled up with zeros, -0.0, NaN, and poked at both ends"
    yield "new 16000"
    yield "lend 0 0 00000000"
    for history, coefficients, fill in ((3, 2, "00000000"), (5, 5, "80000000"), (8, 6, "7fc00000"), (4, 9, "ff800000"),
                                        (6, 4, "ffffffff"), (8192, 8192, "3f800000"), (0, 8192, MARKED), (1, 0, MARKED)):
        yield f"lend {history} {coefficients} {fill}"
    yield "lend 9 9 00000000"
    yield from ["poke h 0 3f800000", "poke h 8 80000000", "poke c 0 7f800001", "poke c 8 00000001"]
    yield from ["pokes h 0 r:1*9", "pokes c 4 s:2*5", "pokes h 8 b:nan", "pokes c 0 d:3*9", "pokes h 2 c:bf800000*3"]
    yield "pokes c 1 b:00000001,80000001,nan,ff800000"


PARTS = [
    before_anything, targets, sources, refusals_of_rate, refusals_of_process, refusals_of_reset_and_skip,
    worked_pairs, worked_calls, closed_totals, longest_history, carried_phase, pairs_of_rates, chunk_edges,
    one_stream_cut, printed_outputs, odd_values, excess, resets_and_skips, magic_samples, random_changes,
    short_slices, wrong_numbers, border_numbers, good_forged, lent_anew,
]


def replay():
    for part in PARTS:
        yield from part()
        yield ""


# --- the script that the driver and the real `pipe` and `flush` both play --------------------------------------------


def driver():
    """Streams with up to three rates, each ended by a flush: n/2 zeros. No stream begins with equal rates, which `pipe`
    copies; no phase is carried where the Rust panics; every room is large enough, as `pipe` asks."""
    draw = Draw(31)
    for source, target in pairs_of_every_kind(4, 32):
        if source == target:
            continue
        rates = [source] + [draw.between(4000, 192000) for _ in range(draw.below(3))]
        rates = [hz for i, hz in enumerate(rates)
                 if i == 0 or Rated(hz, target).den * Rated(rates[i - 1], target).den < 2**32]
        yield f"new {target}"
        yield f"lend {ENOUGH_HISTORY} {ENOUGH_COEFFICIENTS} {MARKED}"
        for hz in rates:
            r = Rated(hz, target)
            yield f"rate {hz}"
            for _ in range(draw.between(1, 3)):
                # The magic samples of an earlier rate, at most 3,760, are played too.
                longest = min(3000, 12000 * r.num // r.den)
                yield f"process 16384 {draw.one_of('rrrrrs')}:{draw.below(2**32)}*{draw.between(1, longest)}"
        yield "# flush"
        yield f"process 16384 c:00000000*{r.n // 2}"


# --- points ----------------------------------------------------------------------------------------------------------


def around(bits):
    """The bits of a positive f32 and of its neighbours, and the same with the sign."""
    return [sign | b for sign in (0, 1 << 31) for b in (bits - 1, bits, bits + 1)]


def sixteen():
    draw = Draw(16)
    points = [0, 1, 2, 0x007FFFFF, 0x00800000, 0x7F7FFFFF, 0x7F800000, 0x7F800001, 0x7FC00000, 0x7FFFFFFF, 0x7FA5A5A5]
    points = [sign | b for sign in (0, 1 << 31) for b in points]
    steps = list(range(0, 140)) + [2**k + d for k in range(7, 15) for d in (-2, -1, 0, 1)] + list(range(32700, 32772))
    steps += [65535, 65536, 131072, 2**23, 2**24, 2**31] + [draw.below(32768) for _ in range(160)]
    for k in steps:
        points += around(float_bits((k + 0.5) / 32768))
        if k > 0:
            points += around(float_bits(k / 32768))
    points += [draw.below(2**32) for _ in range(500)]
    while len(points) < 6000:
        points.append(float_bits((draw.below(2**25) - 2**24) / 2**24 * 1.1))
    return [f"{b:08x}" for b in points]


def sine():
    draw = Draw(17)
    points = [0.0, 5e-324, 2.2250738585072014e-308, 2.225073858507201e-308, 1e-300, 1e-30, 1e-9, 2.0**-27, 2.0**-26, 1e-6, 0.5,
              1.0, 255.0, math.nextafter(256.0, 0.0), 256.0]
    for k in range(1, 163):
        quarter = k * (math.pi / 2)
        points += [math.nextafter(quarter, 0.0), quarter, math.nextafter(quarter, 256.0)]
    while len(points) < 1000:
        high = draw.one_of([256, 256, 16, 2, 1])
        points.append((draw.below(2**32) * 2**20 + draw.below(2**20)) / 2**52 * high)
    return [f"{double_bits(sign * a):016x}" for a in points for sign in (1.0, -1.0)]


def coefficients():
    draw = Draw(18)
    for source, target in dict.fromkeys(pairs_of_every_kind(3, 19) + list(CASES.values())):
        r = Rated(source, target)
        middle = r.n // 2 - 1 if r.direct else r.n // 2 * r.oversample + 4
        chosen = {0, 1, 2, 3, 4, 5, r.n - 1, r.table - 1, r.table - 2, r.table - 5, middle - 1, middle, middle + 1}
        while len(chosen) < 50:
            chosen.add(draw.below(r.table))
        for i in sorted(chosen):
            yield f"{source:06d} {target:06d} {i:05d}"


# --- PCM files -------------------------------------------------------------------------------------------------------


def pcm(source, target, samples, version=1, mark=b"DVS"):
    header = mark + struct.pack("<HII", version, source, target)
    return header + struct.pack(f"<{len(samples)}h", *samples)


def sound(count, seed, loud=32767):
    """A triangle tone that climbs, with some noise on it, in whole numbers so that it is the same everywhere."""
    draw = Draw(seed)
    samples = []
    for i in range(count):
        tone = abs(i * (40 + i // 8) % 2048 - 1024) - 512
        noise = draw.below(257) - 128
        samples.append(loud * (tone + noise) // 640)
    return samples


def headers():
    good = pcm(48000, 16000, [1, 2, 3])
    yield "empty", b""
    yield "one_byte", b"D"
    yield "twelve_bytes", good[:12]
    yield "short_good_mark", b"DVS\x01\x00"
    yield "short_wrong_version", pcm(48000, 16000, [], version=2)[:12]
    yield "wrong_mark_first", pcm(48000, 16000, [1], mark=b"dVS")
    yield "wrong_mark_second", pcm(48000, 16000, [1], mark=b"DWS")
    yield "wrong_mark_third", pcm(48000, 16000, [1], mark=b"DVT")
    yield "wrong_mark_and_version", pcm(48000, 16000, [1], version=7, mark=b"RIF")
    yield "version_0", pcm(48000, 16000, [1], version=0)
    yield "version_2", pcm(48000, 16000, [1], version=2)
    yield "version_257", pcm(48000, 16000, [1], version=257)
    yield "version_2_rate_3999", pcm(3999, 16000, [1], version=2)
    yield "source_3999", pcm(3999, 16000, [1])
    yield "source_192001", pcm(192001, 16000, [1])
    yield "target_3999", pcm(48000, 3999, [1])
    yield "target_192001", pcm(48000, 192001, [1])
    yield "both_3999", pcm(3999, 3999, [1])
    yield "source_0", pcm(0, 16000, [1])
    yield "source_high_bytes", pcm(48000 + 2**24, 16000, [1])
    yield "target_high_bytes", pcm(48000, 16000 + 2**17, [1])


def lengths():
    yield "c_3", pcm(48000, 16000, [30000, -20000, 10000])
    yield "c_4", pcm(48000, 16000, [30000, -20000, 10000, 32767])
    yield "a_1", pcm(44100, 48000, [-32768])
    yield "four_zeros", pcm(48000, 16000, [0, 0, 0, 0])
    yield "no_samples", pcm(48000, 16000, [])
    yield "odd_byte_only", pcm(48000, 16000, []) + b"\x7f"
    yield "odd_last_byte", pcm(44100, 48000, sound(20, 1)) + b"\x7f"
    yield "equal_none", pcm(48000, 48000, [])
    yield "equal_odd_only", pcm(48000, 48000, []) + b"\x80"
    yield "equal", pcm(48000, 48000, [0, 1, -1, 32767, -32768, 256, 255, -256])
    yield "equal_odd", pcm(4000, 4000, sound(1500, 2)) + b"\x01"
    yield "equal_highest", pcm(192000, 192000, sound(1025, 3))
    for count in (1023, 1024, 1025, 2047, 2048, 2049):
        yield f"block_{count}", pcm(48000, 16000, sound(count, count))
        yield f"block_{count}_odd", pcm(44100, 48000, sound(count, count + 1)) + b"\xff"


def sounds():
    for name, (source, target) in CASES.items():
        yield f"case_{name.lower()}", pcm(source, target, sound(400, source))
    yield "down_48", pcm(192000, 4000, sound(9000, 4))
    yield "up_48", pcm(4000, 192000, sound(70, 5))
    yield "up_48_one", pcm(4000, 192000, [32767])
    yield "just_down", pcm(192000, 191999, sound(700, 6))
    yield "just_up", pcm(191999, 192000, sound(700, 7))
    yield "drift", pcm(48000, 47952, sound(5000, 8))
    yield "many_blocks", pcm(48000, 44100, sound(9000, 9))
    yield "full_scale", pcm(44100, 48000, [32767] * 300 + [-32768] * 300)
    yield "clipped", pcm(44100, 48000, [32767 if i // 7 % 2 else -32768 for i in range(700)])
    yield "clipped_down", pcm(48000, 16000, [-32768 if i // 19 % 2 else 32767 for i in range(1500)])
    yield "one_step", pcm(44100, 48000, [1 if i % 50 == 0 else -1 if i % 50 == 25 else 0 for i in range(500)])
    yield "quiet", pcm(48000, 44100, sound(500, 10, loud=9))


def conform(folder):
    for part in (headers, lengths, sounds):
        for name, content in part():
            with open(os.path.join(folder, name + ".in"), "wb") as file:
                file.write(content)
            yield name


def main():
    what = sys.argv[1] if len(sys.argv) > 1 else ""
    plain = {"replay": replay, "driver": driver, "sixteen": sixteen, "sine": sine, "coefficients": coefficients}
    if what == "conform" and len(sys.argv) == 3:
        lines = conform(sys.argv[2])
    elif what in plain and len(sys.argv) == 2:
        lines = plain[what]()
    else:
        sys.exit(__doc__)
    sys.stdout.write("".join(line + "\n" for line in lines))


if __name__ == "__main__":
    main()
