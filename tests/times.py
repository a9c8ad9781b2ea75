#!/usr/bin/env python3
"""What the programs `reports` and `wearing` must print, from the plain model: digests of what reports of times leave, each followed by calls on kept numbers or
windows of which one thing was changed; and the same requests on a drive that stays young and on one that wears. crates/reports/stdout and
crates/wearing/stdout hold it. Standard library only.

  times.py reports        prints lines `reports N DIGEST`, and at the end how often each answer came
  times.py wearing        prints a line for each call: its answer, the target, and how many times of reads and of writes are kept then, with their sums
"""
import struct
import sys
import zlib
from array import array
from fractions import Fraction
from itertools import product

import model
from model import MOST_TIME, MOST_TIMES, UNIT, Kept, Pool, Refused, Window
from sweep import MOST, after

# ---- reports

NOTED = 0  # the kind of an answer that is no refusal
UNTOUCHED = 0xEEEE
CALLS = 'start', 'report_read', 'report_write'


def time_by(chance):
    """One in eight is 0, one the shortest, and one the longest."""
    return {0: 0, 1: 1, 2: MOST_TIME}.get(chance % 8, chance // 8 % (MOST_TIME + 1))


def numbers(kept):
    return [kept.n, *(number for _, window in kept.windows() for number in (window.fill, window.next, window.sum))]


def kept_of(n, *rest):
    return Kept(n, Window(*rest[:3]), Window(*rest[3:]))


def no_times():
    return kept_of(*[0] * 7)


def changed(old, n, chance):
    return (0, old + 1, old - 1, n - 1, n, n + 1, MOST, chance // 8 % 65536)[chance % 8] % (MOST + 1)


class Lent:
    """Kept numbers, both windows with a spare place each, and how many places of either are lent."""

    def __init__(self, n, kept, reads, writes):
        self.kept, self.reads, self.writes, self.lengths = kept, reads, writes, (n, n)

    def copied(self, n):
        """On copies of the windows, in which the spare place is 0."""
        return Lent(n, self.kept.copied(), *(window[:n] + array('H', [0]) for window in (self.reads, self.writes)))

    def parts(self):
        return self.reads[:self.lengths[0]], self.writes[:self.lengths[1]]

    def change(self, n, chance, then):
        """A kept number; a place of a window, with the sum that is right then or without; the lengths and n; or all, as a refused start leaves it."""
        kind, which = chance % 8, chance // 8
        if kind < 3:
            seven = numbers(self.kept)
            seven[which % 7] = changed(seven[which % 7], n, which // 7)
            self.kept = kept_of(*seven)
        elif kind < 5:
            window, times = ((self.kept.reads, self.reads), (self.kept.writes, self.writes))[which % 2]
            at, time = which // 2 % n, time_by(then // 64)
            if then // 32 % 2:
                window.sum = (window.sum - times[at] + time) % (MOST + 1)
            times[at] = time
        elif kind < 7:
            self.lengths = n - 1 + which % 3, n - 1 + which // 3 % 3
            self.kept.n = n - 1 + which // 9 % 3
        else:
            self.kept, self.lengths = no_times(), (0, 0)

    def make(self, call, time):
        """The kind of its answer."""
        reads, writes = self.parts()
        try:
            if call == 'start':
                n, self.kept = self.kept.n, no_times()
                self.kept = model.start(n, reads, writes)
            else:
                getattr(self.kept, call)(time, reads, writes)
        except Refused as no:
            return no.number
        self.reads[:len(reads)], self.writes[:len(writes)] = reads, writes
        return NOTED


# What must be met: in either report each condition of 13 by itself, also with a time of 0, and nothing wrong; in every call windows that are a place too short
# or too long, and n on both sides of its limits with windows that are just as long. A window of no times has no place that could be next, so in a report n = 0 is
# never wrong by itself.
CONDITIONS = 'lengths', *(what + name for what in ('fill of ', 'next place of ', '0 in a filled place of ', 'no 0 in an unfilled place of ', 'sum of ')
                          for name in ('reads', 'writes'))
WANTED = {(call, (one,), zero, 13) for call in CALLS[1:] for one in CONDITIONS for zero in (False, True)}
WANTED |= {(call, ('n',), False, 13) for call in CALLS[1:]}
WANTED |= {(call, (), zero, 12 if zero else NOTED) for call in CALLS[1:] for zero in (False, True)}
WANTED |= {(call, off, 13) for call in CALLS for off in product((-1, 0, 1), repeat=2) if off != (0, 0)}
WANTED |= {('start', n, kind) for n, kind in ((0, 13), (1, NOTED), (MOST_TIMES, NOTED), (MOST_TIMES + 1, 13))}


class Reports:
    """A digest of all that the calls leave, how often each answer came, and what the calls met."""

    def __init__(self):
        self.digest, self.counts, self.met = 0, {NOTED: 0, 12: 0, 13: 0}, set()

    def take(self, lent, n, call, time):
        """Makes the call, and absorbs its answer, the kept numbers and both windows with their spare places."""
        wrong, size, off = tuple(lent.kept.wrong_with(*lent.parts())), lent.kept.n, tuple(length - lent.kept.n for length in lent.lengths)
        kind = lent.make(call, time)
        self.counts[kind] += 1
        left = struct.pack('<8Q', kind, *numbers(lent.kept)) + lent.reads[:n + 1].tobytes() + lent.writes[:n + 1].tobytes()
        self.digest = zlib.crc32(left, self.digest)
        self.met |= {(call, wrong, time == 0, kind), (call, off, kind), (call, size, kind) if off == (0, 0) else None}
        return kind

    def run(self, n, filled, turns, reads, writes):
        """Windows of n times, of which the first so many are filled by hand with the longest. Each turn reports a time, and then makes every call on copies of
        which one thing was changed."""
        self.digest, lent, seed, noted = 0, Lent(n, kept_of(n, *[0] * 6), reads, writes), n, [filled, filled]
        self.take(lent, n, 'start', 0)
        lent.kept = kept_of(n, *[filled, filled % n, filled * MOST_TIME] * 2)
        reads[:filled] = writes[:filled] = array('H', [MOST_TIME]) * filled
        for _ in range(turns):
            first, second, third = (after(seed, k) for k in (1, 2, 3))
            noted[first % 2] += self.take(lent, n, CALLS[1 + first % 2], time_by(first // 2)) == NOTED
            for call in CALLS:
                other = lent.copied(n)
                other.change(n, second, third)
                self.take(other, n, call, time_by(third))
            seed = third
        assert filled or min(noted) >= 3 * n, 'both windows go round three times'
        print('reports', n, self.digest)


def reports():
    done, (reads, writes) = Reports(), (array('H', [UNTOUCHED]) * (MOST_TIMES + 2) for _ in range(2))
    for n in range(1, 41):
        done.run(n, 0, 8 * n + 20, reads, writes)
    for n, filled in ((1000, 995), (MOST_TIMES - 1, MOST_TIMES - 4), (MOST_TIMES, MOST_TIMES), (MOST_TIMES + 1, MOST_TIMES + 1)):
        done.run(n, filled, 8, reads, writes)
    assert WANTED <= done.met, WANTED - done.met
    print('reports noted %d refused %d %d' % tuple(done.counts.values()))


# ---- a drive that wears

WORDS = {'R': 'read', 'W': 'write', 'D': 'drop'}
# Three frames on the usual drive. Page 7 is in none: a drop of it is a physical write and leaves the lists. Until the second one, opened costs are in force.
SCRIPT = 'W0 W1 R2 D7 R2 D7 R2 D7 R2 R3 R2 W1'
# Each step by hand, as a part of a page: of a read hit r·|D| / (r + w)·|C|, of a write hit w·|C| / (r + w)·|D| is taken. First by the opened costs, 1 and 10, with
# one clean page and two dirty ones: 1·2 / 11·1. Then two reads took 200. Two writes of a young drive took 400: 200·2 / 600·1 twice; page 0 is written back for
# page 3, so 200·1 / 600·2 and 400·2 / 600·1. Two writes of the other took 200 + 1,000, then 1,000 + 1,800: 200·2 / 1,400·1, 200·2 / 3,000·1; page 2 leaves for
# page 3, and page 3 for page 2, so 2,800·1 / 3,000·2.
BY_HAND = {0: '2/11 2/3 2/3 1/6 -4/3', 800: '2/11 2/7 2/15 -7/15'}


def units(part):
    """To the nearest, a half upwards, whether it is added or taken."""
    size = int(abs(part) * UNIT + Fraction(1, 2))
    return size if part > 0 else -size


def play(name, slower):
    """A read takes 100, the first write 200, and each further one so much more than the one before. What a call did on the drive is reported behind it."""
    pool, frames, store, out, write_time = Pool(3, 16, 8, 0, 0), bytearray(48), bytearray(128), bytearray(16), 200
    windows = [0, 0], [0, 0]
    kept = model.start(2, *windows)
    print(name)
    for letter, page in SCRIPT.split():
        before, page = (pool.nR, pool.nW), int(page)
        if letter == 'R':
            result, victim, _ = pool.read(page, frames, store, out, kept)
        elif letter == 'W':
            result, victim, _ = pool.write(page, 0, b'\7', frames, store, kept)
        else:
            result, victim = 'dropped', pool.drop(page, frames, store)
        for _ in range(pool.nR - before[0]):
            kept.report_read(100, *windows)
        for _ in range(pool.nW - before[1]):
            kept.report_write(write_time, *windows)
            write_time += slower
        windows_now = (word for name, window in kept.windows() for word in (name, window.fill, window.sum))
        print(WORDS[letter], page, result, *victim or (), 'target', pool.target, *windows_now)
    assert pool.target == sum(units(Fraction(part)) for part in BY_HAND[slower].split())
    print('physical reads', pool.nR, 'writes', pool.nW, 'total', pool.total())


def wearing():
    play('a young drive', 0)
    play('a drive that wears', 800)


if __name__ == '__main__':
    if sys.argv[1:] == ['reports']:
        reports()
    elif sys.argv[1:] == ['wearing']:
        wearing()
    else:
        sys.exit(__doc__)
