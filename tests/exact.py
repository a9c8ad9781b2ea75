#!/usr/bin/env python3
"""The third demand on the plain model: beside each random run goes the exact target, in fractions and never rounded, by the costs in force at each adjustment.
These are the opened ones, those of kept numbers which change from call to call, or what a drive that wears has measured last. Each step of the pool's target
must be the exact one to the nearest unit, a half upwards. After k adjustments twice the gap between the two targets must be at most k units, and a victim must
come from the list that the exact one picks wherever twice the clean list's gap to it is more than that. What random runs have seldom or never comes first, by hand: steps of
exactly a half, and runs that reach the bound or nearly do. Prints how often each was tried; the first failure ends it. Standard library only."""
import sys
from fractions import Fraction

from model import MOST_TIME, MOST_TIMES, UNIT, Kept, Pool, Window, start
from sweep import FAULT, HIT, Memory, after, make, random_call, timed_call, world


def in_force(pool, kept):
    """The costs of a call that takes kept numbers, or none: the sums, unless a place of either window is unfilled."""
    if kept is None or min(kept.reads.fill, kept.writes.fill) < kept.n:
        return pool.r, pool.w
    return kept.reads.sum, kept.writes.sum


def adjustment(pool, page, writes, costs):
    """The exact step of a hit, in pages, by the sizes and lists before the call: up on a read of a clean page, down on a write to a dirty one, else None."""
    c, d, (r, w) = len(pool.C), len(pool.D), costs
    if page in [pool.page[f] for f in pool.C]:
        return None if writes else Fraction(r * d, (r + w) * c)
    return -Fraction(w * c, (r + w) * d) if writes else None


def rounded(step):
    """A step in whole units: its size to the nearest, a half upwards, whether that is added or taken."""
    whole, rest = divmod(abs(step) * UNIT, 1)
    size = whole + (rest >= Fraction(1, 2))
    return size if step > 0 else -size


def between(target, top):
    """The target brought between 0 and its top."""
    return max(0, min(target, top))


class Exact:
    """The exact target, held between 0 and b, and how many adjustments made it."""

    def __init__(self):
        self.target, self.adjustments = Fraction(0), 0

    def hit(self, pool, page, writes, costs):
        """Adjusts it, and gives the target that the pool must have then: the step is rounded first, and the outcome brought between 0 and the top."""
        step = adjustment(pool, page, writes, costs)
        if step is None:
            return pool.target
        self.target = between(self.target + step, pool.b)
        self.adjustments += 1
        return between(pool.target + rounded(step), pool.b * UNIT)

    def twice_the_gap(self, target):
        """In units, to a target in units: at most as many as there were adjustments."""
        return 2 * abs(target - UNIT * self.target)

    def used(self, target):
        """How much of the bound the gap to a target uses up: 1 is all of it."""
        return Fraction(self.twice_the_gap(target), max(1, self.adjustments))

    def picks(self, pool):
        """The list that gives the victim, or None where the clean list is too near to say."""
        if self.twice_the_gap(UNIT * len(pool.C)) <= self.adjustments:
            return None
        return 'clean' if len(pool.C) > self.target or not pool.D else 'dirty'


# ---- by hand

def reported(reads, writes):
    """What is kept of windows that these times have just filled."""
    windows = [0] * len(reads), [0] * len(writes)
    kept = start(len(reads), *windows)
    for time in reads:
        kept.report_read(time, *windows)
    for time in writes:
        kept.report_write(time, *windows)
    return kept


# No opened costs make a step of exactly a half: 131,072 would have to divide (r + w)·|C|, of a write hit (r + w)·|D|, and these are at most 2,000 × 63. With
# sums of times one page in either list is enough: by these, 3 and 131,069, a read hit adds 1.5 units and a write hit takes 65,534.5.
HALVES = reported((1, 2), (65535, 65534))
# By opened costs this is the nearest: 63 clean pages and a dirty one make it 515 and 60,197/120,393 units.
NEAREST, NEAREST_PARTS = (947, 964), 120393
TOP = 2 * UNIT
P8 = reported((1,), (2,))
# the largest windows, with the least and with the largest sum, 32,768 and 2,147,450,880: of a page they make 1/65,536 and 65,535/65,536
LEAST, MOST = (Window(MOST_TIMES, 0, MOST_TIMES * time) for time in (1, MOST_TIME))
FAST_READS, FAST_WRITES = Kept(MOST_TIMES, LEAST, MOST), Kept(MOST_TIMES, MOST, LEAST)
STEPS = [  # what is kept, whether the hit is a write, the target before and after it
    (P8, True, UNIT, UNIT - 43691), (P8, False, UNIT, UNIT + 21845),
    (HALVES, False, 0, 2), (HALVES, False, 1, 3), (HALVES, True, TOP, TOP - 65535),
    # the step is rounded, and not the new target: of half a unit that would make 1, and of one and a half 2
    (HALVES, True, 65535, 0), (HALVES, True, 65536, 1), (HALVES, True, 65534, 0), (HALVES, True, 0, 0),
    (HALVES, False, TOP - 3, TOP - 1), (HALVES, False, TOP - 2, TOP), (HALVES, False, TOP - 1, TOP), (HALVES, False, TOP, TOP),
    (FAST_READS, False, 0, 1), (FAST_READS, True, TOP, TOP - 65535), (FAST_WRITES, False, 0, 65535), (FAST_WRITES, True, TOP, TOP - 1),
    # one window is full and the other not: opened costs, 1 and 1
    (Kept(2, Window(2, 0, 3), Window(1, 1, 65535)), False, 0, 32768), (Kept(2, Window(1, 1, 1), Window(2, 0, 131069)), True, TOP, TOP - 32768),
    (start(1, [0], [0]), False, 0, 32768),
]


def nearer():
    """Whether opened costs make a step nearer to a half. A step in m-ths that is no half is at least 1/2m off it, so only m above NEAREST_PARTS need be tried.
    What a write hit takes, a read hit adds with costs and lists exchanged."""
    return any(abs(Fraction(UNIT * r * d, whole * c) % 1 - Fraction(1, 2)) < Fraction(1, 2 * NEAREST_PARTS)
               for c in range(1, 64) for whole in range(NEAREST_PARTS // c + 1, 2001) for r in range(whole - 1000, 1001) for d in range(1, 65 - c))


def ask(pool, page, writes, kept):
    """A read of the page, or a write to it."""
    frames, store, out = bytearray(pool.b * pool.P), bytearray(pool.N * pool.P), bytearray(pool.P)
    if writes:
        return pool.write(page, 0, b'\7', frames, store, kept)
    return pool.read(page, frames, store, out, kept)


def made(c, d, r, w):
    """A pool with pages 0 to c - 1 clean and d more dirty."""
    pool = Pool(c + d, 16, c + d, r, w)
    for page in range(c + d):
        ask(pool, page, page >= c, None)
    return pool


def stepped(kept, writes, target):
    """The target after a hit on the one clean page or on the one dirty page, and what it must be by fractions."""
    pool, page = made(1, 1, 1, 1), int(writes)
    pool.target = target
    wanted = Exact().hit(pool, page, writes, in_force(pool, kept))
    ask(pool, page, writes, kept)
    return pool.target, wanted


def used_up(pool, kept, hits):
    """How much of the bound so many read hits from opening use up."""
    exact = Exact()
    for _ in range(hits):
        exact.hit(pool, 0, False, in_force(pool, kept))
        ask(pool, 0, False, kept)
    return exact.used(pool.target)


def by_hand():
    for kept, writes, before, wanted in STEPS:
        found = stepped(kept, writes, before)
        if found != (wanted, wanted):
            sys.exit('sums %d and %d: target %d becomes %d, by fractions %d; wanted is %d' % (kept.reads.sum, kept.writes.sum, before, *found, wanted))
    if nearer():
        sys.exit('a step by opened costs is nearer to a half')
    for k in (1, 10, 100):
        if used_up(made(1, 1, 1, 1), HALVES, k) != 1 or used_up(made(63, 1, *NEAREST), None, k) != 1 - Fraction(1, NEAREST_PARTS):
            sys.exit('after %d adjustments the target is not as far from the exact one as it can be' % k)


# ---- random runs

def opened(pool, seed):
    """A plain call, and the costs in force."""
    return random_call(pool.b, pool.P, pool.N, seed), (pool.r, pool.w)


def kept_by_chance(pool, seed):
    """The same of a call with other kept numbers each time, or with none."""
    call = timed_call(pool.b, pool.P, pool.N, seed)
    return call, in_force(pool, call['kept'])


class Drive:
    """A drive whose writes grow slower. What it did is reported before the next call; in force are the sums of the last n times of either kind, once there are
    so many of both."""

    def __init__(self, n):
        self.n, self.windows, self.reads, self.writes = n, ([0] * n, [0] * n), [], []
        self.kept = start(n, *self.windows)

    def report(self, pool, chance):
        while len(self.reads) < pool.nR:
            self.reads.append(50 + chance % 51)
            self.kept.report_read(self.reads[-1], *self.windows)
        while len(self.writes) < pool.nW:
            self.writes.append(50 + chance % 101 + 5 * len(self.writes))
            self.kept.report_write(self.writes[-1], *self.windows)

    def measured(self, pool, seed):
        self.report(pool, seed)
        call = dict(random_call(pool.b, pool.P, pool.N, seed), kept=self.kept)
        if min(len(self.reads), len(self.writes)) < self.n:
            return call, (pool.r, pool.w)
        return call, (sum(self.reads[-self.n:]), sum(self.writes[-self.n:]))


def run(b, calls, next_call, tried):
    numbers = world(b)
    P, N = numbers[1:3]
    pool, memory, seed, exact = Pool(*numbers), Memory(b * P + 1, N * P + 1, P + 1), b, Exact()
    for _ in range(calls):
        call, costs = next_call(pool, seed)
        seed = after(seed, 5)
        before, picked, adjustments = pool.copied(), exact.picks(pool), exact.adjustments
        kind, _ = make(pool, call, memory)
        if kind == HIT:
            wanted = exact.hit(before, call['page'], call['letter'] == 'W', costs)
            if pool.target != wanted:
                sys.exit('b = %d: a hit makes of target %d not %d but %d' % (b, before.target, wanted, pool.target))
            tried['used'] = max(tried['used'], exact.used(pool.target))
            tried['measured'] += exact.adjustments > adjustments and costs != (pool.r, pool.w)
        elif picked and kind in (FAULT['clean'], FAULT['dirty']):
            if kind != FAULT[picked]:
                sys.exit('b = %d: the victim is not from the list that the exact target picks, %s' % (b, picked))
            tried[picked] += 1
        if exact.twice_the_gap(pool.target) > exact.adjustments:
            sys.exit('b = %d: after %d adjustments the target is too far from the exact one' % (b, exact.adjustments))
    tried['adjustments'] += exact.adjustments


def runs(what, calls, next_call):
    """A run for each number of frames; `next_call` is given that number."""
    tried = {'adjustments': 0, 'measured': 0, 'clean': 0, 'dirty': 0, 'used': Fraction(0)}
    for b in range(1, 65):
        run(b, calls, next_call(b), tried)
    print(what + (': %(adjustments)d adjustments, %(measured)d by measured costs, near the exact target, using %(used).6f of the bound; '
                  'it picked %(clean)d clean and %(dirty)d dirty victims' % tried))


if __name__ == '__main__':
    by_hand()
    print('by hand: of the bound 1 - 1/%d and, in steps of a half, all' % NEAREST_PARTS)
    runs('opened costs', 2000, lambda b: opened)
    runs('kept numbers', 500, lambda b: kept_by_chance)
    runs('a drive that wears', 500, lambda b: Drive(1 + b % 7).measured)
