#!/usr/bin/env python3
"""Writes the trace cases under tests/traces: NAME.trace and, from the plain model alone, NAME.out. Seeded, so it always writes the same.

  cases.py            write them all
  cases.py --check    say whether the files there are those it would write
"""
import os
import random
import struct
import sys

import model

HERE = os.path.join(os.path.dirname(os.path.abspath(__file__)), 'traces')
DIRTY = [('W', page, page) for page in range(64)]
LISTING = [('R', 0, 0), ('W', 7, 1), ('R', 0, 0), ('R', 0, 2), ('W', 9, 1), ('W', 5, 2), ('R', 0, 3), ('F', 0, 0), ('R', 0, 1)]


def trace(rs, b=2, P=16, N=8, r=1, w=3, notes=b''):
    return model.encode(notes, rs, b, P, N, r, w)


def told(words):
    """Records by a letter and a page each; a write's value is where it stands."""
    return [(w[0], k % 256 if w[0] == 'W' else 0, int(w[1:] or 0)) for k, w in enumerate(words.split(), 1)]


def reads(first, end):
    return [('R', 0, page) for page in range(first, end)]


def moved_to_front(places, b=64):
    """The pages that stand at these places, one after the other, of a list of pages b - 1 to 0, each of them moved to its front."""
    pages = list(range(b))[::-1]
    for place in places:
        pages.insert(0, pages.pop(place))
        yield pages[0]


def moved(before, moves, op):
    """What was moved among 64 frames, seen in the victims of 64 faults behind it: all pages of the list, its last one first."""
    return trace(before + moves + [(op, 0, page) for page in range(64, 128)], b=64, N=128)


def tail(distance, records, b=2, P=16, N=8, r=1, w=3):
    return struct.pack('<IIHHIHH', distance, records, b, P, N, r, w)


def valid(rng, drops=0):
    """A random trace that the program serves: b, P, N, costs, a skew, writes, flushes and notes. Without drops no chance is spent on them."""
    P = rng.choice([16, 17, 31, 64, 100, 512, 4096])
    b = rng.randint(1, min(64, 8192 // P))
    N = rng.randint(1, min(65536, 32768 // P))
    r, w = rng.choice([(1, 4), (0, 0), (1, 1), (1000, 1), (1, 1000), (rng.randint(1, 1000), rng.randint(1, 1000))])
    notes = bytes(rng.randrange(256) for _ in range(rng.choice([0, 0, 1, 4, 20, 77])))
    hot = [rng.randrange(N) for _ in range(max(1, min(N, b + rng.randint(0, 3))))]
    writes, flushes, skew = rng.choice([0.05, 0.3, 0.7]), rng.choice([0, 0.02, 0.1]), rng.choice([0.5, 0.8, 0.95])
    rs = []
    for _ in range(rng.choice([3, 20, 100, 400])):
        if rng.random() < flushes:
            rs.append(('F', 0, 0))
            continue
        page = rng.choice(hot) if rng.random() < skew else rng.randrange(N)
        if drops and rng.random() < drops:
            rs.append(('D', 0, page))
            continue
        rs.append(('W', rng.randrange(256), page) if rng.random() < writes else ('R', 0, page))
    return trace(rs, b, P, N, r, w, notes)


def edges():
    """Both sides of each boundary, and refusals two at a time."""
    yield 'listing', trace(LISTING)
    yield 'listing-noted', trace(LISTING, notes=b'hall calls of a week\n')
    yield 'notes-like-records', trace(LISTING, notes=b'R\0\0\0W\7\1\0F\0\0\0')
    yield 'notes-like-a-trace', trace(LISTING, notes=trace(LISTING))
    yield 'climb', trace([('R', 0, 0), ('W', 7, 1)] + [('R', 0, 0)] * 3 + [('R', 0, 2), ('R', 0, 3)], r=3, w=1)
    yield 'one-frame', trace([('W', 1, 0), ('R', 0, 1)], b=1)
    yield 'flush-of-nothing', trace([('F', 0, 0), ('R', 0, 0), ('F', 0, 0)])
    # the order after a flush, seen in the victims behind it: the latest reference first, whichever list had the page
    four_more = reads(4, 8)
    yield 'flush-dirty-later', trace(told('R0 R1 W2 W3 F') + four_more, b=4)
    yield 'flush-clean-later', trace(told('W0 W1 R2 R3 F') + four_more, b=4)
    yield 'flush-interleaved', trace(told('R0 W1 R2 W3 F') + four_more, b=4)
    yield 'flush-empty-left', trace(told('R0 W1 R0 F') + four_more, b=4)
    yield 'flush-twice', trace(told('R0 W1 W2 R3 W1 R0 F F') + four_more, b=4)
    yield 'flush-then-hits', trace(told('R0 W1 R2 W3 R4 W5 R0 F W2 R1 W4 R3 F') + reads(6, 12), b=6, N=12)
    yield 'flush-one-frame', trace(told('W0 F R0 W0 F F R1 W0 R1 F W1 F R0'), b=1, N=2)
    yield 'flush-64-frames', trace(told(' '.join('RW'[k % 3 == 1] + str(k * 37 % 64) for k in range(100)) + ' F') + reads(64, 128), b=64, N=128)
    # hits at places of C and of D
    for place in (0, 1, 2, 63):
        yield 'hit-place-%d' % place, moved(reads(0, 64), [('R', 0, page) for page in moved_to_front([place])], 'R')
    yield 'hit-each-place-clean', moved(reads(0, 64), [('R', 0, page) for page in moved_to_front(range(64))], 'R')
    yield 'hit-each-place-dirty', moved(DIRTY, [('RW'[page % 2], page % 2, page) for page in moved_to_front(range(64))], 'W')
    yield 'hit-written', moved(reads(0, 64), [('W', page, page * 29 % 64) for page in range(64)], 'W')  # from 32 places of C, all of it to D
    yield 'no-records', trace([])
    yield 'usual-drive', trace(LISTING, r=0, w=0)  # named when 1 and 4 was what open made of it, too
    for n in (0, 1, 19):
        yield 'short-%d' % n, bytes(n)
    yield 'zeros-20', bytes(20)
    # 7: distance and records, whole numbers without wrapping
    yield 'distance-21', tail(21, 0)
    yield 'distance-24-one-record-short', tail(24, 1)
    yield 'distance-24-of-23', b'R\0\0' + tail(24, 1)
    yield 'distance-24-of-24', b'R\0\0\0' + tail(24, 1)
    yield 'distance-wraps', tail(20, 1 << 30)
    yield 'distance-wraps-16', tail(16, 0xFFFFFFFF)
    yield 'distance-most', tail(0xFFFFFFFF, 0xFFFFFFFF)
    # 1: each number on both sides
    for name, low, high in (('b', 1, 64), ('P', 16, 4096), ('N', 1, 65536), ('r', 1, 1000), ('w', 1, 1000)):
        for v in (low - 1, low, high, high + 1):
            fields = dict(b=1, P=16, N=1, r=1, w=1)
            fields[name] = v
            yield 'limit-%s-%d' % (name, v), trace([], **fields)
    yield 'costs-0-5', trace([], r=0, w=5)
    yield 'costs-5-0', trace([], r=5, w=0)
    yield 'numbers-most', tail(20, 0, 65535, 65535, 0xFFFFFFFF, 65535, 65535)
    # 8: letters, values, pages
    for k, bad in enumerate([(b'X', 0, 0), (b'r', 0, 0), (b'R', 1, 0), (b'R', 0, 8), (b'R', 0, 65535), (b'W', 0, 8), (b'F', 1, 0), (b'F', 0, 1), (b'\0', 0, 0),
                             (b'D', 1, 0), (b'D', 0, 8), (b'D', 0, 65535), (b'd', 0, 0), (b'E', 0, 0)]):
        body = struct.pack('<cBH', *bad)
        yield 'record-bad-%d' % k, body + tail(24, 1)
        yield 'record-bad-%d-third' % k, b'R\0\7\0' + b'W\xff\7\0' + body + body + tail(36, 4)
    yield 'record-last-page', trace([('R', 0, 7), ('W', 255, 7)])
    # 9 and 10
    filler = bytes(16384 - 56)
    yield 'file-16384', filler + trace(LISTING)
    yield 'file-16385', b'\0' + filler + trace(LISTING)
    yield 'file-most-records', trace([('R', 0, k % 8) for k in range(4091)])
    yield 'frames-8192', trace(LISTING, b=2, P=4096, N=8)
    yield 'frames-8256', trace(LISTING, b=3, P=2752, N=8)
    yield 'store-32768', trace(LISTING, b=2, P=16, N=2048)
    yield 'store-32784', trace(LISTING, b=2, P=16, N=2049)
    # two refusals at once: the earlier in 9, 7, 1, 8, 10 is given
    bad = struct.pack('<cBH', b'X', 0, 0)
    long = bytes(16385)
    yield 'two-9-7', long
    yield 'two-9-1', long + tail(20, 0, b=65)
    yield 'two-9-8', long + bad + tail(24, 1)
    yield 'two-9-10', long + tail(20, 0, b=64, P=4096)
    yield 'two-7-1', tail(21, 0, b=65)
    yield 'two-7-8', bad + tail(25, 1)
    yield 'two-7-10', tail(21, 0, b=64, P=4096)
    yield 'two-1-8', bad + tail(24, 1, b=65)
    yield 'two-1-10', tail(20, 0, b=65, P=4096)
    yield 'two-8-10', bad + tail(24, 1, b=64, P=4096)


def dropped():
    """Pages that are dropped, seen in the lengths, in the victims and bytes behind them, and in the counts. Which of two empty frames a fault takes is in no
    listing: sweep's digests have E place by place."""
    yield 'drop-clean', trace(told('R0 R1 D0 R2 R3'))
    yield 'drop-dirty', trace(told('W0 W1 D0 R0 R2'))
    yield 'drop-absent', trace(told('W5 F R0 R1 D5 R5'))
    yield 'drop-twice', trace(told('W0 R1 D0 D0 R2 R3'))
    yield 'drop-two', trace(told('R0 W1 R2 W3 D1 D2') + reads(4, 8), b=4)
    yield 'drop-all', moved(told(' '.join('RW'[k % 2] + str(k) for k in range(64))), [('D', 0, k * 29 % 64) for k in range(64)], 'R')
    for place in (0, 1, 62, 63):
        yield 'drop-place-%d' % place, moved(reads(0, 64), [('D', 0, 63 - place)], 'R')
    yield 'drop-each-second-dirty', moved(DIRTY, [('D', 0, page) for page in range(0, 64, 2)], 'W')
    # nothing of it comes back: not from its frame, which another page then has, not by a flush; and its neighbours in the store stay
    yield 'drop-frame-used-again', trace(told('W0 F W0 R1 D0 R2 R0 R2'))
    yield 'drop-then-flush', trace(told('W0 F W0 W1 D0 F R0 R1'))
    yield 'drop-neighbours', trace(told('W2 W3 W4 R0 D3 R2 R3 R4'), b=1)
    yield 'drop-last-page', trace(told('W2046 W2047 F D2047 R2047 R0 R1 R2046'), N=2048)
    yield 'drop-written-again', trace(told('W0 D0 W0 F R1 R2 R0'))
    # an empty frame has page number 0, and yet not page 0
    yield 'drop-page-0-absent', trace(told('D0 R1 D0 W2 D0 R0 R3 R4'), b=4)
    yield 'drop-page-0', trace(told('W0 R1 D0 R0 D0 R2 R3 R4 R5'), b=4)
    yield 'drop-one-frame', trace(told('W0 D0 R1 D0 W1 D1 D1 R0 W0 R1'), b=1, N=2)
    # the target stays, and decides on later victims; the order of the rest stays, also through a flush
    yield 'drop-target', trace(told('R0 W1 R0 D1 R0 D0 R2 W3 R2'))
    yield 'drop-target-at-its-top', trace(told('R0 W1 R0 R0 R0 D0 R2 R3'), r=3, w=1)
    yield 'drop-flush-order', trace(told('R0 W1 R2 W3 D1 F') + reads(4, 8), b=4)


def rounded():
    """Steps that go to the nearest unit, from just below a half and from just above it; no opened costs make exactly a half, which exact.py makes by other costs. With
    a page in either list 964/1,911 of a page are 33,059 and 955/1,911 units, and 947/1,911 are 32,476 and 956/1,911. The nearest that there are lie 1/218,746
    of a unit below a half and 1/240,786 above it. Read hits before a write hit raise the target, so that the whole step shows."""
    for side, r, w in (('below', 964, 947), ('above', 947, 964)):
        yield 'half-read-' + side, trace(told('R0 W1 R0'), r=r, w=w)
    yield 'half-write-below', trace(told('R0 W1 R0 R0 W1'), r=947, w=964)
    yield 'half-write-above', trace(told('R0 W1 R0 W1'), r=964, w=947)
    for side, many, less, more in (('below', 61, 872, 921), ('above', 63, 947, 964)):
        size = dict(b=many + 1, N=many + 1)
        yield 'half-read-%s-nearest' % side, trace(reads(0, many) + DIRTY[many:many + 1] + reads(0, 1), r=less, w=more, **size)
        yield 'half-write-%s-nearest' % side, trace(reads(0, 1) + DIRTY[1:many + 1] + reads(0, 1) + DIRTY[1:2], r=more, w=less, **size)
    # P8 from opening: 43,691 units for two dirty pages and 21,845 for one make the target 65,536, with a page in either list. Then a hit of each kind
    for what, hit in (('takes', 'W1'), ('adds', 'R0')):
        yield 'p8-' + what, trace(told('R0 W1 W2 R0 D2 R0 ' + hit), b=3, r=1, w=2)
    # rounded, then held: 43,690 and 2/3 units go as 43,691. Record 9 makes this step from just so far below the top, record 12 from a unit nearer to it
    yield 'step-near-the-top', trace(told('R0 W1 R0 R0 R0 W2 R0 R0 R0 W1 W1 R0'), b=3, r=1, w=2)
    # record 15 takes as much from 43,691 and record 18 from 43,690. Always rounded down, either trace would end 3 units off
    yield 'step-near-0', trace(told('R0 W1 W2 R0 R0 R0 R0 R0 W1 W2 W1 D2 W1 W1 W1 R0 R0 W1'), b=3, r=1, w=2)
    # on the usual drive 44 read hits of 1/22 of a page make the exact target 2, as many as are clean: page 3 takes the dirty page's frame, and pages 0 and 1
    # are hit once more. Always rounded down, the target would be 40 units short, and they would go one after the other
    yield 'long-read-night', trace(told('R0 R1 W2 ' + 'R0 R1 ' * 22 + 'R3 R0 R1 R2 R3'), b=3, r=1, w=10)


def cases():
    yield from edges()
    yield from dropped()
    yield from rounded()
    rng = random.Random(20101122)
    for k in range(150):
        yield 'random-%03d' % k, valid(rng)
    rng = random.Random(20101298)
    for k in range(30):
        yield 'random-drop-%03d' % k, valid(rng, (0.1, 0.3)[k % 2])


def main(words):
    files = {}
    for name, data in cases():
        files[name + '.trace'] = data
        files[name + '.out'] = model.listing(data).encode()
    if words == ['--check']:
        there = {f: open(os.path.join(HERE, f), 'rb').read() for f in os.listdir(HERE)}
        if there != files:
            sys.exit('tests/traces is not what cases.py writes')
        return
    if words:
        sys.exit(__doc__)
    os.makedirs(HERE, exist_ok=True)
    for f in os.listdir(HERE):
        os.remove(os.path.join(HERE, f))
    for f, data in files.items():
        with open(os.path.join(HERE, f), 'wb') as out:
            out.write(data)
    print(len(files) // 2, 'cases')


if __name__ == '__main__':
    main(sys.argv[1:])
