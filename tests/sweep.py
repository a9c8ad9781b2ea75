#!/usr/bin/env python3
"""What the program `sweep` must print, from the plain model: digests of every short sequence of calls on a small pool, of random runs at every number of
frames, of calls on pools in which one thing was changed, and of calls that take kept numbers of time windows. crates/sweep/stdout holds it. Standard library
only.

  sweep.py            prints lines `small R W LENGTH DIGEST`, `drops R W LENGTH DIGEST`, `random B DIGEST`, `broken B DIGEST` and `timed B DIGEST`, and after
                      the runs how often each answer came
"""
import struct
import sys
import zlib

from model import MOST_SERVED, MOST_TIME, MOST_TIMES, UNIT, Kept, Pool, Refused, Window, allowed

LISTS = ('empty', 'clean', 'dirty')
NUMBERS = ('b', 'P', 'N', 'r', 'w', 'empty_len', 'clean_len', 'dirty_len', 'target', 'served', 'nR', 'nW')
MOST = 2 ** 64 - 1
PACKED = struct.Struct('<12Q64s64s64s64H64I')

# An answer's kind: a refusal's is the scope's number, 1 to 19.
HIT, FAULT, FLUSH, TOTAL, DROP = 20, {None: 21, 'clean': 22, 'dirty': 23}, 24, 25, 26


# ---- a pool as numbers and places, sound or not

class Raw:
    """Every number of a pool, 64 places of each list, 64 pages and 64 reference numbers."""

    def __init__(self, pool):
        self.b, self.P, self.N, self.r, self.w = pool.b, pool.P, pool.N, pool.r, pool.w
        self.target, self.served, self.nR, self.nW = pool.target, pool.served, pool.nR, pool.nW
        places = pool.E, pool.C, pool.D, pool.page, pool.reference
        self.empty, self.clean, self.dirty, self.page, self.reference = (some + [0] * (64 - len(some)) for some in places)
        self.empty_len, self.clean_len, self.dirty_len = len(pool.E), len(pool.C), len(pool.D)

    def packed(self):
        return PACKED.pack(self.b, self.P, self.N, self.r, self.w, self.empty_len, self.clean_len, self.dirty_len, self.target, self.served,
                           self.nR, self.nW, bytes(self.empty), bytes(self.clean), bytes(self.dirty), *self.page, *self.reference)

    def sound(self):
        """0 in each place without meaning; of the rest by the model's own test."""
        if not allowed(self.b, self.P, self.N, self.r, self.w) or max(self.empty_len, self.clean_len, self.dirty_len) > 64:
            return False
        behind = [self.empty[self.empty_len:], self.clean[self.clean_len:], self.dirty[self.dirty_len:], self.page[self.b:], self.reference[self.b:]]
        return not any(map(any, behind)) and self.pool().sound()

    def pool(self):
        """The same pool for the model, sound or not; its numbers must be allowed."""
        pool = Pool(self.b, self.P, self.N, self.r, self.w)
        pool.E, pool.C, pool.D = self.empty[:self.empty_len], self.clean[:self.clean_len], self.dirty[:self.dirty_len]
        pool.page, pool.reference = self.page[:self.b], self.reference[:self.b]
        pool.target, pool.served, pool.nR, pool.nW = self.target, self.served, self.nR, self.nW
        return pool


# ---- one call

def stretch(value, length):
    return bytes((value + 29 * i) % 256 for i in range(length))


class Memory:
    """The lent bytes. A call is lent the first bytes of each, as many as it says."""

    def __init__(self, frames, store, out):
        self.frames, self.store, self.out = bytearray(b'\xee' * frames), bytearray(filling(store)), bytearray(out)

    def copy(self):
        other = Memory.__new__(Memory)
        other.frames, other.store, other.out = self.frames[:], self.store[:], self.out[:]
        return other

    def packed(self):
        return bytes(self.frames + self.store + self.out)


def filling(n, done={}):
    """A store's first bytes."""
    if n not in done:
        seed, found = 1, bytearray()
        for _ in range(n):
            seed = after(seed)
            found.append(seed % 256)
        done[n] = bytes(found)
    return done[n]


def make(pool, call, memory):
    """Makes the call on the model's pool, a read or a write with the kept numbers that it has, if any. Gives its answer as (kind, value)."""
    frames, store, out = memory.frames[:call['frames']], memory.store[:call['store']], memory.out[:call['out']]
    try:
        if call['letter'] == 'R':
            answer = pool.read(call['page'], frames, store, out, call.get('kept'))
        elif call['letter'] == 'W':
            answer = pool.write(call['page'], call['start'], stretch(call['value'], call['length']), frames, store, call.get('kept'))
        elif call['letter'] == 'F':
            answer = pool.flush(frames, store)
        elif call['letter'] == 'D':
            answer = pool.drop(call['page'], frames, store)
        else:
            return TOTAL, pool.total()
    except Refused as no:
        return no.number, 0
    memory.frames[:len(frames)], memory.store[:len(store)], memory.out[:len(out)] = frames, store, out
    return said(answer)


def said(answer):
    """What the model answers, as (kind, value)."""
    if isinstance(answer, int):
        return FLUSH, answer
    if answer is None:
        return DROP, 0
    if answer[0] == 'hit':
        return HIT, 0
    kind, page = answer[1] or (None, 0)
    return FAULT[kind], page


class Tally:
    def __init__(self):
        self.digest, self.counts, self.met = 0, {}, set()

    def absorb(self, answer, raw, memory):
        self.digest = zlib.crc32(struct.pack('<QQ', *answer) + raw.packed() + memory.packed(), self.digest)
        self.counts[answer[0]] = self.counts.get(answer[0], 0) + 1

    def told(self):
        kinds = HIT, *FAULT.values(), FLUSH, TOTAL, DROP, *range(2, 7), 13
        return 'hits %d faults %d %d %d flushes %d totals %d drops %d refused %d %d %d %d %d windows %d' % tuple(self.counts.get(kind, 0) for kind in kinds)


# ---- every short sequence

def small_call(i, letter):
    page = letter % 3
    return dict(letter='RRRWWWFDDD'[letter], page=page, start=5 * i % 12, length=i % 4 + 1, value=16 * i + page, frames=32, store=48, out=16)


def sequences(name, letters, lengths, r, w):
    """Every sequence of the first so many letters, up to a length. Those that begin alike are served together: the model's pool is copied at each fork.
    Within one length they still come in order."""
    tallies = [Tally() for _ in range(lengths)]

    def go(i, pool, memory):
        for letter in range(letters):
            now, bytes_now = pool.copied(), memory.copy()
            answer = make(now, small_call(i, letter), bytes_now)
            tallies[i].absorb(answer, Raw(now), bytes_now)
            if i + 1 < lengths:
                go(i + 1, now, bytes_now)

    go(0, Pool(2, 16, 3, r, w), Memory(32, 48, 16))
    for i, tally in enumerate(tallies):
        print('%s %d %d %d %d' % (name, r, w, i + 1, tally.digest))


# ---- random calls

def after(seed, steps=1):
    for _ in range(steps):
        seed = seed * 48271 % 2147483647
    return seed


def world(b):
    P, N = 16 + b % 9, 2 * b + 3
    r, w = {0: (1, 1000), 1: (1000, 1), 2: (0, 0), 3: (1, 1)}.get(b % 8, (1 + b % 11, 1 + b % 13))
    return b, P, N, r, w


def right_call(b, P, N, letter, chance):
    page = chance // 2 % (N if chance % 2 else N // 3 + 1)
    start = chance // 512 % P
    return dict(letter=letter, page=page, start=start, length=chance // 16384 % (P - start) + 1, value=chance // 524288 % 256,
                frames=b * P, store=N * P, out=P)


def random_call(b, P, N, seed):
    first, second = after(seed), after(seed, 2)
    letter = ('F' + 'T' + 'R' * 24 + 'W' * 21 + 'D' * 3)[first % 50]
    call = right_call(b, P, N, letter, second)
    if first // 50 % 20 == 0:
        wrong = [('page', N), ('page', MOST), ('frames', b * P - 1), ('frames', b * P + 1), ('store', N * P - 1), ('store', N * P + 1),
                 ('out', P - 1), ('out', P + 1), ('length', 0), ('start', P), ('start', MOST)]
        name, value = wrong[first // 1000 % 11]
        call[name] = value
    return call


# ---- changed pools

def changed(old, chance, limit):
    new = [0, 1, old + 1, max(old - 1, 0), 63, 64, 65, 255, 1000, 1001, 65535, 65536, 1000000000, 1000000001, MOST, chance // 16][chance % 16]
    return new % limit


def change(raw, seed):
    """One number, one place of a list, of the pages or of the reference numbers is changed, or two places of a list trade their frames: of E a sound pool
    stays sound, of C or D it does not, unless the two are one."""
    first, second = after(seed), after(seed, 2)
    which = first // 3
    if first % 3 == 0:
        name = NUMBERS[which % 12]
        setattr(raw, name, changed(getattr(raw, name), second, MOST + 1))
        return
    where = which // 5
    at = where // 2 % (raw.b + 1 if raw.b < 64 and where % 2 == 0 else 64)
    if which % 5 == 3:
        raw.page[at] = changed(raw.page[at], second, 65536)
        return
    if which % 5 == 4:
        raw.reference[at] = changed(raw.reference[at], second, 2 ** 32)
        return
    places = getattr(raw, LISTS[which % 5])
    if second // 16 % 4:
        places[at] = changed(places[at], second, 256)
        return
    n = getattr(raw, LISTS[which % 5] + '_len')
    if n:
        one, two = second // 64 % n, second // 4096 % n
        places[one], places[two] = places[two], places[one]


def try_letters(tally, numbers, raw, chance, memory):
    """Each call on the changed pool as it is: a broken one is refused 2, and nothing changes."""
    for letter in 'RWFDT':
        if raw.sound():
            pool = raw.pool()
            answer = make(pool, right_call(*numbers, letter, chance), memory)
            tally.absorb(answer, Raw(pool), memory)
        else:
            tally.absorb((2, 0), raw, memory)


# ---- calls with kept numbers

def window_by(n, full, chance):
    """What is kept of a window that is full, or still filling: its times are all 1, or all 65,535, or add up to any sum between."""
    fill = n if full else chance // 8 % n
    least, most = fill, fill * MOST_TIME
    return Window(fill, fill % n, {0: least, 1: most}.get(chance % 8, least + chance % (most - least + 1)))


def change_kept(kept, which):
    """One thing becomes wrong that a serving call sees: n, a fill (with a sum that suits it, or without), a sum; or a next place, which none sees."""
    way = which // 3
    if which % 3 == 0:
        kept.n = (0, MOST_TIMES + 1, MOST)[way % 3]
        if kept.n == 0:
            kept.reads, kept.writes = Window(), Window()
        return
    window = (kept.reads, kept.writes)[which % 3 - 1]
    n, fill = kept.n, window.fill
    vars(window).update((dict(fill=n + 1, sum=n + 1), dict(fill=MOST), dict(sum=(fill - 1) % (MOST + 1)), dict(sum=fill * MOST_TIME + 1), dict(sum=MOST),
                         dict(fill=0, sum=1), dict(next=n), dict(next=MOST))[way])


def kept_by(how, of_reads, of_writes):
    """None for the plain call; else kept numbers, of which one thing may have been changed."""
    if how % 4 == 0:
        return None
    n = (1, 2, 3, 100, MOST_TIMES - 1, MOST_TIMES)[how // 64 % 6]
    kept = Kept(n, window_by(n, how // 4 % 4 > 0, of_reads), window_by(n, how // 16 % 4 > 0, of_writes))
    if how % 4 == 3:
        change_kept(kept, how // 384 % 24)
    return kept


def timed_call(b, P, N, seed):
    return dict(random_call(b, P, N, seed), kept=kept_by(*(after(seed, k) for k in (3, 4, 5))))


def strained(pool, chance):
    """A broken pool, one that has served all its calls, or mostly the pool itself."""
    other = pool.copied()
    if chance % 16 == 0:
        other.target = 65 * UNIT
    elif chance % 16 == 1:
        other.served = MOST_SERVED
    else:
        return pool
    return other


# What kept numbers must meet in reads and in writes: each condition of 13 by itself, just past its limit, where the plain call is served; something wrong in calls
# that are refused 2 to 6 without them; and nothing wrong, though a next place is off.
EDGES = [('n', n) for n in (0, MOST_TIMES + 1, MOST)] + [
    (what + ' of ' + name, past) for name in ('reads', 'writes')
    for what, past in (('fill', 1), ('sum', (-1, False)), ('sum', (1, False)), ('sum', (1, True)))]
WANTED = {(letter, *what) for letter in 'RW' for what in EDGES + [('any', number) for number in range(2, 7)] + [('next place', 'served')]}


def edge(kept, wrong):
    """The one thing that is wrong, and how far past its limit; of a sum also whether nothing is filled."""
    if wrong == 'n':
        return wrong, kept.n
    what, name = wrong.split(' of ')
    window = dict(kept.windows())[name]
    if what == 'fill':
        return wrong, window.fill - kept.n
    limit = window.fill * (1 if window.sum < window.fill else MOST_TIME)
    return wrong, (window.sum - limit, window.fill == 0)


def meet(met, call, plain, kind):
    """`plain` is the kind of answer that the call gives without kept numbers: only 2 comes before 13."""
    letter, kept = call['letter'], call['kept']
    if letter not in 'RW' or kept is None:
        return
    wrong = tuple(kept.wrong())
    assert kind == (13 if wrong and plain != 2 else plain)
    if wrong:
        met.add((letter, 'any', plain))
        if len(wrong) == 1 and plain >= HIT:
            met.add((letter, *edge(kept, *wrong)))
    elif plain >= HIT and any(window.next >= kept.n for _, window in kept.windows()):
        met.add((letter, 'next place', 'served'))


# ---- runs

def random_turn(tally, pool, seed, memory):
    answer = make(pool, random_call(pool.b, pool.P, pool.N, seed), memory)
    tally.absorb(answer, Raw(pool), memory)


def broken_turn(tally, pool, seed, memory):
    make(pool, random_call(pool.b, pool.P, pool.N, seed), memory)
    raw = Raw(pool)
    change(raw, after(seed, 2))
    try_letters(tally, (pool.b, pool.P, pool.N), raw, after(seed, 5), memory)


def timed_turn(tally, pool, seed, memory):
    """What a call does to a pool that was strained for it does not stay."""
    call, on = timed_call(pool.b, pool.P, pool.N, seed), strained(pool, after(seed, 3) // 9216)
    plain = make(on.copied(), dict(call, kept=None), memory.copy())
    answer = make(on, call, memory)
    meet(tally.met, call, plain[0], answer[0])
    tally.absorb(answer, Raw(on), memory)


def runs(name, turns, turn, wanted=frozenset()):
    """A run for each number of frames; at the end everything that is wanted was met."""
    total = Tally()
    for b in range(1, 65):
        b, P, N, r, w = world(b)
        pool, memory, seed = Pool(b, P, N, r, w), Memory(b * P + 1, N * P + 1, P + 1), b
        total.digest = 0
        for _ in range(turns):
            turn(total, pool, seed, memory)
            seed = after(seed, 5)
        print(name, b, total.digest)
    assert wanted <= total.met, wanted - total.met
    print(name, total.told())


if __name__ == '__main__':
    if sys.argv[1:]:
        sys.exit(__doc__)
    for costs in ((0, 0), (1, 1), (3, 2)):
        sequences('small', 7, 6, *costs)
    sequences('drops', 10, 5, 3, 2)
    runs('random', 2000, random_turn)
    runs('broken', 250, broken_turn)
    runs('timed', 1000, timed_turn, WANTED)
