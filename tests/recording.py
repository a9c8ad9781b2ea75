#!/usr/bin/env python3
"""What the programs `recording` and `by_hand` must print, from the plain model: traces recorded while calls by chance are served, each closed, read back and
run on other memory; and a digest of what recorders made by hand leave. crates/recording/stdout and crates/by_hand/stdout hold it. Standard library only.

  recording.py runs       prints a line for each recorded run, and the bytes of the last
  recording.py by-hand    prints the digest
"""
import struct
import sys
import zlib
from copy import copy

import model
from model import Pool, Recorder, Refused
from sweep import Memory, Raw, after, make, random_call, said, stretch, world

FAR = 2 ** 64 - 1
MOST_RECORDS = 2 ** 32 - 1
UNTOUCHED = b'\xaa'


# ---- runs

def shown(digest, answer, pool):
    """What a call says, and every field of the pool that it leaves."""
    return zlib.crc32(struct.pack('<QQ', *answer) + Raw(pool).packed(), digest)


def lent():
    """Frames of zero bytes, and a store that is filled by chance."""
    memory = Memory(256, 512, 32)
    memory.frames[:] = bytes(256)
    return memory


def record(recorder, pool, call, memory, buffer):
    """Serves and records a call: its answer as sweep tells it and how its record was refused; nothing where the call is refused, or is a total."""
    frames, store, out = memory.frames[:call['frames']], memory.store[:call['store']], memory.out[:call['out']]
    try:
        if call['letter'] == 'R':
            answer, refused = recorder.add_read(pool, call['page'], frames, store, out, buffer)
        elif call['letter'] == 'W':
            answer, refused = recorder.add_write(pool, call['page'], call['start'], stretch(call['value'], call['length']), frames, store, buffer)
        elif call['letter'] == 'F':
            answer, refused = recorder.add_flush(pool, frames, store, buffer)
        elif call['letter'] == 'D':
            answer, refused = recorder.add_drop(pool, call['page'], frames, store, buffer)
        else:
            return None
    except Refused:
        return None
    memory.frames[:len(frames)], memory.store[:len(store)], memory.out[:len(out)] = frames, store, out
    return said(answer), refused


def again(trace):
    """A digest of what the records of a trace show on a fresh pool, with zero bytes in frames and store."""
    (_, _, b, P, N, r, w), records = model.records(trace)
    pool, memory, digest = Pool(b, P, N, *model.costs(r, w, model.RECORDED_DRIVE)), lent(), 0
    memory.store[:] = bytes(512)
    for letter, value, page in records:
        call = dict(letter=letter, page=page, start=0, length=1, value=value, frames=b * P, store=N * P, out=P)
        digest = shown(digest, make(pool, call, memory), pool)
    return digest


def run(frames, room):
    b, P, N, r, w = world(frames)
    pool, memory, buffer, seed = Pool(b, P, N, r, w), lent(), bytearray(UNTOUCHED * room), b
    recorder = model.begin((b, P, N, pool.r, pool.w), b'by chance\n', buffer)
    digest, size = 0, dict(frames=b * P, store=N * P, out=P)
    for _ in range(100):
        done = record(recorder, pool, {**random_call(b, P, N, seed), **size}, memory, buffer)
        seed = after(seed, 2)
        if done is not None and done[1] == ():
            digest = shown(digest, done[0], pool)
        assert done is None or done[1] in ((), (11,))
    n = recorder.close(buffer)
    assert bytes(buffer[:n]) == model.encode(b'by chance\n', model.records(bytes(buffer[:n]))[1], b, P, N, pool.r, pool.w)
    assert again(bytes(buffer[:n])) == digest
    print('run %d records %d buffer %d shown %d closed %d again %d'
          % (b, recorder.count, zlib.crc32(buffer), digest, n, again(bytes(buffer[:n]))))
    return buffer


# ---- recorders made by hand: a right one, or one of which a number is changed

EDGES = (0, 1, 15, 16, 64, 65, 1000, 1001, 4096, 4097, 65535, 65536, 65537, MOST_RECORDS, FAR - 19, FAR)


def changed(chance):
    numbers, which, number = [2, 16, 8, 1, 3, 3, 2], chance % 10, EDGES[chance // 10 % 16]
    if which == 2:
        numbers[2] = 65535 + chance // 10 % 3
    elif which < 7:
        numbers[which] = number if which < 6 else number % 2 ** 32
    elif which == 7:
        numbers[3:5] = 0, 0
    return Recorder(tuple(numbers[:5]), *numbers[5:])


def record_by(chance):
    page = EDGES[chance // 5 % 16]
    return (('R', 0, page), ('W', chance // 80 % 256, page), ('F', 0, 0), ('R', 0, chance // 5 % 10), ('D', 0, page))[chance % 5]


def add_by(recorder, record, chance, buffer):
    """The record as it stands, or as that of a call: refused 6, a fault, a hit; of a flush: refused 3, or served; of a drop: refused 4, or served."""
    how = chance % 10
    if how in (0, 3, 5):
        raise Refused({0: 6, 3: 3, 5: 4}[how])
    recorder.add({4: ('F', 0, 0), 6: ('D', 0, EDGES[chance // 10 % 16])}.get(how, record), buffer)


def lend(call, buffer, room=40):
    """The call on the first bytes of the buffer: what it says as two numbers. A refused one leaves them."""
    part = buffer[:room]
    try:
        n = call(part)
    except Refused as no:
        return no.number, no.record or 0
    buffer[:len(part)] = part
    return 0, n or 0


def copied(trace, buffer):
    """Reads a trace and writes it once more."""
    (distance, _, *numbers), records = model.records(trace)
    recorder = model.begin(tuple(numbers), trace[:len(trace) - distance], buffer)
    for record in records:
        recorder.add(record, buffer)
    return recorder.close(buffer)


class ByHand:
    """A digest of all that the calls leave, and where each stood to its edges."""

    def __init__(self):
        self.digest, self.seen = 0, set()

    def absorb(self, answer, buffer, *recorder):
        packed = b''.join(struct.pack('<7Q', *r.numbers, r.start, r.count) for r in recorder)
        self.digest = zlib.crc32(struct.pack('<2Q', *answer) + packed + buffer, self.digest)

    def stood(self, what, answer, recorder, count, room):
        """By how many bytes what a call writes misses the end of what it is lent; its answer; whether the records start far off."""
        slack = min(room, 40) - (recorder.start + 4 * count + 20)
        self.seen |= {(what, answer[0], slack), (what, answer), (what, answer[0], 'far', recorder.start > FAR - 20)}

    def begun(self, recorder, chance):
        buffer, other, made = bytearray(UNTOUCHED * 40), bytearray(b'U' * 40), []
        answer = lend(lambda part: made.append(model.begin(recorder.numbers, b'notes', part)), buffer, 20 + chance // 128 % 24)
        first = made[0] if made else Recorder((0,) * 5, 0, 0)
        self.absorb(answer, buffer, first)
        self.stood('begin', answer, Recorder(recorder.numbers, 5, 0), 0, 20 + chance // 128 % 24)
        lend(lambda part: first.add(record_by(chance), part), buffer)
        answer = lend(first.close, buffer)
        self.absorb(answer, buffer)
        if answer[0] == 0:
            assert copied(bytes(buffer[:answer[1]]), other) == answer[1] and other[:answer[1]] == buffer[:answer[1]]
            self.seen.add(('copied', recorder.numbers[3:]))
        self.absorb(answer, other)

    def by_hand(self, recorder, chance):
        buffer, added, longer = bytearray(UNTOUCHED * 40), copy(recorder), copy(recorder)
        record, room = record_by(chance), 20 + chance // 65536 % 24
        answer = lend(lambda part: add_by(added, record, chance // 4096, part), buffer, room)
        self.absorb(answer, buffer, added)
        if chance // 4096 % 10 > 6:
            self.stood('add', answer, recorder, recorder.count + 1, room)
            self.seen |= {(recorder.numbers[2], record[0], record[2], answer[0]), ('most', recorder.count == MOST_RECORDS, answer[0])}
        answer = lend(recorder.close, buffer, 20 + chance // 1024 % 24)
        self.absorb(answer, buffer)
        self.stood('close', answer, recorder, recorder.count, 20 + chance // 1024 % 24)
        lend(lambda part: longer.add(('F', 0, 0), part), buffer)
        self.absorb(lend(longer.close, buffer), buffer)


def by_hand():
    hand, seed = ByHand(), 1
    for _ in range(40000):
        seed = after(seed, 2)
        hand.begun(changed(seed), after(seed))
        hand.by_hand(changed(seed), after(seed))
    # both sides of each edge were drawn: the buffer's end, the largest pages, the largest count and start, costs 0 and 0
    wanted = {(what, *side) for what in ('begin', 'add', 'close') for side in ((0, 0), (11, -1))}
    wanted |= {(65536, letter, *side) for letter in 'RWD' for side in ((65535, 0), (65536, 8))}
    wanted |= {('add', (8, 2 ** 32)), ('most', True, 11), ('add', 11, 'far', True), ('close', 11, 'far', True), ('copied', (0, 0)), ('copied', (1, 3))}
    assert wanted <= hand.seen, wanted - hand.seen
    print(hand.digest)


if __name__ == '__main__':
    if sys.argv[1:] == ['runs']:
        for frames in range(1, 9):
            run(frames, 512)
        print('bytes' + ''.join(' %d' % byte for byte in run(2, 72)))
    elif sys.argv[1:] == ['by-hand']:
        by_hand()
    else:
        sys.exit(__doc__)
