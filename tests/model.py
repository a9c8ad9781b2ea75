#!/usr/bin/env python3
"""A plain model of the page buffer and of trace files, written from the scope and its requests alone.

It shares nothing with the proved code: lists are Python lists, pages are looked for one after the other, and the
expected outputs under tests/ come from here, never from the program that is tested. Standard library only.

  model.py run < TRACE        the listing of one trace
"""
import copy
import struct
import sys

UNIT = 65536
MOST_SERVED = 1000000000
MOST_TIMES, MOST_TIME = 32768, 65535  # so many in a window, and the longest
USUAL_DRIVE = 1, 10     # what both costs 0 mean to open
RECORDED_DRIVE = 1, 4   # what they mean to the trace reader: stored files were recorded on it


class Refused(Exception):
    """A refusal by its number; 8 also names a record."""

    def __init__(self, number, record=None):
        super().__init__(number)
        self.number, self.record = number, record


def costs(r, w, drive):
    """Both costs 0 mean a drive's; others mean themselves."""
    return drive if r == 0 and w == 0 else (r, w)


def allowed(b, P, N, r, w):
    """Refusal 1's limits."""
    return 1 <= b <= 64 and 16 <= P <= 4096 and 1 <= N <= 65536 and 1 <= r <= 1000 and 1 <= w <= 1000


def nearest(above, below):
    """above / below in whole units. Request 6: "Both steps now go to the nearest unit, a half upwards": what is taken as well as what is added."""
    return (2 * above + below) // (2 * below)


class Pool:
    """The pool by the scope's words: E, C, D hold frames, in C and D the most recently used first, in E the one that is taken next last. A resident frame's
    reference is the number of the served call that last read or wrote its page."""

    def __init__(self, b, P, N, r, w):
        r, w = costs(r, w, USUAL_DRIVE)
        if not allowed(b, P, N, r, w):
            raise Refused(1)
        self.b, self.P, self.N, self.r, self.w = b, P, N, r, w
        self.E, self.C, self.D = list(range(b - 1, -1, -1)), [], []
        self.page, self.reference = [0] * b, [0] * b
        self.target = self.served = self.nR = self.nW = 0

    def copied(self):
        other = copy.copy(self)
        other.E, other.C, other.D, other.page, other.reference = self.E[:], self.C[:], self.D[:], self.page[:], self.reference[:]
        return other

    # ---- soundness

    def sound(self):
        if not allowed(self.b, self.P, self.N, self.r, self.w):
            return False
        if sorted(self.E + self.C + self.D) != list(range(self.b)):
            return False
        held = [self.page[f] for f in self.C + self.D]
        if any(q >= self.N for q in held) or len(set(held)) != len(held):
            return False
        if any(self.page[f] != 0 or self.reference[f] != 0 for f in self.E):
            return False
        clean, dirty = ([self.reference[f] for f in some] for some in (self.C, self.D))
        if clean != sorted(clean, reverse=True) or dirty != sorted(dirty, reverse=True):
            return False
        if any(not 1 <= k <= self.served for k in clean + dirty) or len(set(clean + dirty)) != len(clean + dirty):
            return False
        return (0 <= self.target <= self.b * UNIT and self.served <= MOST_SERVED
                and self.nR <= self.served and self.nW <= self.b * self.served)

    # ---- refusals of calls, in order

    def sizes(self, frames, store):
        if len(frames) != self.b * self.P or len(store) != self.N * self.P:
            raise Refused(3)

    def examine(self, frames, store, page, fit, kept=None):
        if not self.sound():
            raise Refused(2)
        if kept is not None and any(kept.wrong()):
            raise Refused(13)
        self.sizes(frames, store)
        if page >= self.N:
            raise Refused(4)
        if not fit:
            raise Refused(5)
        if self.served >= MOST_SERVED:
            raise Refused(6)

    # ---- one request

    def bring(self, page, writes, frames, store, costs):
        """Algorithm 1 with the costs in force: the frame that then has the page, and (result, victim page or None, pages written)."""
        P, (r, w) = self.P, costs
        c, d = len(self.C), len(self.D)
        for f in self.C:
            if self.page[f] == page:
                self.C.remove(f)
                if writes:
                    self.D.insert(0, f)
                else:
                    self.target = min(self.target + nearest(UNIT * r * d, (r + w) * c), self.b * UNIT)
                    self.C.insert(0, f)
                return f, ('hit', None, 0)
        for f in self.D:
            if self.page[f] == page:
                self.D.remove(f)
                if writes:
                    self.target = max(self.target - nearest(UNIT * w * c, (r + w) * d), 0)
                self.D.insert(0, f)
                return f, ('hit', None, 0)
        victim, written = None, 0
        if self.E:
            f = self.E.pop()
        elif c * UNIT > self.target or not self.D:
            f = self.C.pop()
            victim = ('clean', self.page[f])
        else:
            f = self.D.pop()
            victim = ('dirty', self.page[f])
            q = self.page[f]
            store[q * P:q * P + P] = frames[f * P:f * P + P]
            self.nW += 1
            written = 1
        frames[f * P:f * P + P] = store[page * P:page * P + P]
        self.nR += 1
        self.page[f] = page
        (self.D if writes else self.C).insert(0, f)
        return f, ('fault', victim, written)

    def serve(self, page, writes, frames, store, kept):
        """One served call more: its number is that of the frame which then has the page."""
        opened = self.r, self.w
        f, answer = self.bring(page, writes, frames, store, opened if kept is None else kept.in_force(opened))
        self.served += 1
        self.reference[f] = self.served
        return f, answer

    def read(self, page, frames, store, out, kept=None):
        self.examine(frames, store, page, len(out) == self.P, kept)
        f, answer = self.serve(page, False, frames, store, kept)
        out[:] = frames[f * self.P:f * self.P + self.P]
        return answer

    def write(self, page, start, data, frames, store, kept=None):
        self.examine(frames, store, page, len(data) > 0 and start + len(data) <= self.P, kept)
        f, answer = self.serve(page, True, frames, store, kept)
        at = f * self.P + start
        frames[at:at + len(data)] = data
        return answer

    def flush(self, frames, store):
        """The pages of D are written from last to first; then C has all frames of both lists, the latest reference first. No frame gets this call's number."""
        if not self.sound():
            raise Refused(2)
        self.sizes(frames, store)
        if self.served >= MOST_SERVED:
            raise Refused(6)
        P, n = self.P, len(self.D)
        for f in reversed(self.D):
            q = self.page[f]
            store[q * P:q * P + P] = frames[f * P:f * P + P]
            self.nW += 1
        self.C, self.D = sorted(self.C + self.D, key=lambda f: self.reference[f], reverse=True), []
        self.served += 1
        return n

    def drop(self, page, frames, store):
        """The page becomes zeros in the store, which is one physical write wherever it was. If a frame of C or D has it, that frame becomes the last of E: its
        bytes stay there and are not written. No frame gets this call's number, and there is no further answer."""
        self.examine(frames, store, page, True)
        P = self.P
        for f in self.C + self.D:
            if self.page[f] == page:
                (self.C if f in self.C else self.D).remove(f)
                self.E.append(f)
                self.page[f] = self.reference[f] = 0
        store[page * P:page * P + P] = bytes(P)
        self.nW += 1
        self.served += 1

    def total(self):
        """By the opened costs, whatever was measured."""
        if not self.sound():
            raise Refused(2)
        return self.nR * self.r + self.nW * self.w


# ---- times measured on the drive


class Window:
    """What is kept of a window of times: how many of its places are filled, which one is next, and the sum."""

    def __init__(self, fill=0, next=0, sum=0):
        self.fill, self.next, self.sum = fill, next, sum

    def put(self, time, times):
        """At the next place, in place of what stood there. "The next place equals the fill, and once the window is full goes round below n, from 0"."""
        self.sum += time - times[self.next]
        times[self.next] = time
        self.fill = min(self.fill + 1, len(times))
        self.next = (self.next + 1) % len(times)


class Kept:
    """What is kept of the two windows of n times, of physical reads and of physical writes. The windows themselves are lent to each report, as lists."""

    def __init__(self, n, reads, writes):
        self.n, self.reads, self.writes = n, reads, writes

    def copied(self):
        return Kept(self.n, copy.copy(self.reads), copy.copy(self.writes))

    def windows(self):
        return ('reads', self.reads), ('writes', self.writes)

    # ---- what is wrong, 13: each condition by itself

    def out_of_range(self):
        if not 1 <= self.n <= MOST_TIMES:
            yield 'n'
        for name, window in self.windows():
            if window.fill > self.n:
                yield 'fill of ' + name

    def wrong(self):
        """In a serving call, which "sees n, fills and sums alone"."""
        yield from self.out_of_range()
        for name, window in self.windows():
            if not window.fill <= window.sum <= window.fill * MOST_TIME:
                yield 'sum of ' + name

    def wrong_with(self, reads, writes):
        """In a report, with the windows."""
        if not len(reads) == len(writes) == self.n:
            yield 'lengths'
        yield from self.out_of_range()
        for (name, window), times in zip(self.windows(), (reads, writes)):
            if not (window.next == window.fill if window.fill < self.n else window.next < self.n):
                yield 'next place of ' + name
            if 0 in times[:window.fill]:
                yield '0 in a filled place of ' + name
            if any(times[window.fill:]):
                yield 'no 0 in an unfilled place of ' + name
            if window.sum != sum(times):
                yield 'sum of ' + name

    # ---- reports

    def examine(self, time, reads, writes):
        if any(self.wrong_with(reads, writes)):
            raise Refused(13)
        if time == 0:
            raise Refused(12)

    def report_read(self, time, reads, writes):
        self.examine(time, reads, writes)
        self.reads.put(time, reads)

    def report_write(self, time, reads, writes):
        self.examine(time, reads, writes)
        self.writes.put(time, writes)

    # ---- costs

    def in_force(self, opened):
        """The costs for the step: "once both windows are full .. the sum of the read window as r and that of the write window as w; until then, the opened"."""
        full = self.reads.fill == self.n and self.writes.fill == self.n
        return (self.reads.sum, self.writes.sum) if full else opened


def start(n, reads, writes):
    """What is kept of two windows in which nothing is filled yet; the places of both become 0."""
    if not 1 <= n <= MOST_TIMES or not len(reads) == len(writes) == n:
        raise Refused(13)
    for place in range(n):
        reads[place] = writes[place] = 0
    return Kept(n, Window(), Window())


# ---- trace files

def trailer(data):
    """Refusals 7 and 1; else the seven numbers, as the file has them."""
    if len(data) < 20:
        raise Refused(7)
    t = struct.unpack('<IIHHIHH', data[-20:])
    distance, records, b, P, N, r, w = t
    if distance != 20 + 4 * records or distance > len(data):
        raise Refused(7)
    if not allowed(b, P, N, *costs(r, w, RECORDED_DRIVE)):
        raise Refused(1)
    return t


def records(data):
    """The trailer's numbers and every record as (letter, value, page); refusals 7, 1, 8."""
    t = trailer(data)
    found = []
    for k in range(t[1]):
        at = len(data) - t[0] + 4 * k
        letter, value, page = struct.unpack('<cBH', data[at:at + 4])
        record = letter.decode('latin-1'), value, page
        if not right(record, t[4]):
            raise Refused(8, k + 1)
        found.append(record)
    return t, found


def right(record, N):
    """Refusal 8's rule."""
    letter, value, page = record
    return letter in 'RD' and value == 0 and page < N or letter == 'W' and page < N or letter == 'F' and value == 0 and page == 0


def packed(record):
    letter, value, page = record
    return struct.pack('<cBH', letter.encode(), value, page)


def closing(count, b, P, N, r, w):
    return struct.pack('<IIHHIHH', 20 + 4 * count, count, b, P, N, r, w)


def encode(notes, rs, *numbers):
    return notes + b''.join(map(packed, rs)) + closing(len(rs), *numbers)


# ---- the writer of trace files


class Recorder:
    """The writer of trace files: the numbers as given, where the records start, how many there are. Each call is lent the buffer."""

    def __init__(self, numbers, start, count):
        self.numbers, self.start, self.count = numbers, start, count

    def examine(self, buffer, count, record=None):
        """1 for the numbers, by the trailer's rule; 8 for a record the reader would refuse; 11 if all that and the trailer would not fit."""
        b, P, N, r, w = self.numbers
        if not allowed(b, P, N, *costs(r, w, RECORDED_DRIVE)):
            raise Refused(1)
        if record is not None and not right(record, N):
            raise Refused(8, self.count + 1)
        if self.start + 4 * count + 20 > len(buffer) or 20 + 4 * count >= 2 ** 32:
            raise Refused(11)

    def add(self, record, buffer):
        self.examine(buffer, self.count + 1, record)
        at = self.start + 4 * self.count
        buffer[at:at + 4] = packed(record)
        self.count += 1

    def close(self, buffer):
        """How many bytes the trace has."""
        self.examine(buffer, self.count)
        at = self.start + 4 * self.count
        buffer[at:at + 20] = closing(self.count, *self.numbers)
        return at + 20

    def add_read(self, pool, page, frames, store, out, buffer):
        """Serves and records: a refused call records nothing, and one that is served stays served if its record is refused."""
        answer = pool.read(page, frames, store, out)
        return answer, refusal(self.add, ('R', 0, page), buffer)

    def add_write(self, pool, page, start, data, frames, store, buffer):
        """The record's value is byte 0 of the page after the call."""
        answer = pool.write(page, start, data, frames, store)
        f = next(f for f in pool.C + pool.D if pool.page[f] == page)
        return answer, refusal(self.add, ('W', frames[f * pool.P], page), buffer)

    def add_flush(self, pool, frames, store, buffer):
        answer = pool.flush(frames, store)
        return answer, refusal(self.add, ('F', 0, 0), buffer)

    def add_drop(self, pool, page, frames, store, buffer):
        pool.drop(page, frames, store)
        return None, refusal(self.add, ('D', 0, page), buffer)


def begin(numbers, notes, buffer):
    """A recorder of no records, behind the notes at the front of the buffer."""
    begun = Recorder(numbers, len(notes), 0)
    begun.examine(buffer, 0)
    buffer[:len(notes)] = notes
    return begun


def refusal(call, *args):
    """How a call is refused: its number, of 8 with the record; or nothing."""
    try:
        call(*args)
    except Refused as no:
        return (no.number,) if no.record is None else (no.number, no.record)
    return ()


def listing(data):
    """What the trace program prints, whole."""
    try:
        if len(data) > 16384:
            raise Refused(9)
        (_, _, b, P, N, r, w), rs = records(data)
        if b * P > 8192 or N * P > 32768:
            raise Refused(10)
    except Refused as no:
        return 'refused %d%s\n' % (no.number, '' if no.record is None else ' at %d' % no.record)
    pool, frames, store, out = Pool(b, P, N, *costs(r, w, RECORDED_DRIVE)), bytearray(b * P), bytearray(N * P), bytearray(P)
    lines = ['request op page result victim writes clean dirty target byte']
    for k, (letter, value, page) in enumerate(rs, 1):
        if letter == 'F':
            n = pool.flush(frames, store)
            lines.append('%d F - - - %d %d %d %d -' % (k, n, len(pool.C), len(pool.D), pool.target))
            continue
        if letter == 'R':
            result, victim, written = pool.read(page, frames, store, out)
            byte = out[0]
        elif letter == 'W':
            result, victim, written = pool.write(page, 0, bytes([value]), frames, store)
            byte = value
        else:
            before = pool.nW
            pool.drop(page, frames, store)
            result, victim, written, byte = '-', None, pool.nW - before, store[page * P]
        lines.append('%d %s %d %s %s %d %d %d %d %d' % (k, letter, page, result, '-' if victim is None else victim[1], written,
                                                       len(pool.C), len(pool.D), pool.target, byte))
    lines.append('end %d %d %d' % (pool.nR, pool.nW, pool.total()))
    return '\n'.join(lines) + '\n'


if __name__ == '__main__':
    if sys.argv[1:] != ['run']:
        sys.exit(__doc__)
    sys.stdout.write(listing(sys.stdin.buffer.read()))
