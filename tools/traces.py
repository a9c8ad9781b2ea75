#!/usr/bin/env python3
"""Text to a trace file and back: `traces.py make` and `traces.py show`, from standard input to standard output. Both judge as the trace program does: what it would refuse 7, 1 or 8
is refused here too, with exit status 1 and nothing on standard output; what it alone refuses, 9 or 10, is only told. Text that is none ends with exit status 2."""
import signal
import struct
import sys

TRAILER = '<IIHHIHH'
LIMITS = (('b', 1, 64), ('P', 16, 4096), ('N', 1, 65536), ('r', 1, 1000), ('w', 1, 1000))


class Refused(Exception):
    def __init__(self, number, why):
        super().__init__('refused %d: %s' % (number, why))


class NoText(Exception):
    pass


# ---- judgements


def judge_numbers(numbers):
    for value, (name, low, high) in zip(numbers, LIMITS):
        if name in 'rw' and numbers[3:] == [0, 0]:
            continue
        if not low <= value <= high:
            raise Refused(1, '%s is %d, and has to be %d to %d%s' % (name, value, low, high, ' (or both costs are 0, which mean 1 and 4)' if name in 'rw' else ''))


def judge_record(where, letter, value, page, pages):
    if letter not in b'RWFD':
        raise Refused(8, '%s has letter %d, which is none of R, W, F and D' % (where, letter))
    if letter in b'RFD' and value != 0:
        raise Refused(8, '%s: %c takes no value, and has %d' % (where, letter, value))
    if letter in b'F' and page != 0:
        raise Refused(8, '%s: F takes no page, and has %d' % (where, page))
    if letter in b'RWD' and pages <= page:
        raise Refused(8, '%s: there is no page %d among %d' % (where, page, pages))


def told(data, numbers):
    """What the trace program alone would refuse."""
    b, P, N = numbers[:3]
    if len(data) > 16384:
        return '`run` refuses it 9: the file is longer than 16,384 bytes'
    if b * P > 8192 or N * P > 32768:
        return '`run` refuses it 10: b x P is above 8,192, or N x P above 32,768'


# ---- text to a trace


def parsed(line):
    """A line of text: its word, and its values or bytes."""
    word, _, rest = line.partition(' ')
    if word == 'note':
        return word, rest.encode() + b'\n'
    if word == 'hex':
        return word, bytes.fromhex(rest)
    values = [int(w, 10) for w in rest.split()]
    struct.pack({'open': '<5I', 'R': '<I', 'W': '<IB', 'F': '<', 'D': '<I'}[word], *values)
    return word, values


def make(text):
    numbers, notes, records = None, b'', []
    for k, line in enumerate(text.splitlines(), 1):
        if not line.strip() or line.lstrip().startswith('#'):
            continue
        try:
            word, what = parsed(line.strip() if line.split()[0] not in ('note', 'hex') else line.lstrip())
        except (ValueError, KeyError, struct.error):
            raise NoText('line %d is none of "open b P N r w", "note text", "hex digits", "R page", "W page value", "F", "D page": %s' % (k, line.strip()))
        if word == 'open':
            if numbers is not None:
                raise NoText('line %d opens a second time: %s' % (k, line.strip()))
            numbers = what
        elif word in ('note', 'hex'):
            notes += what
        else:
            page, value = (what + [0, 0])[:2]
            records.append((k, ord(word), value, page))
    if numbers is None:
        raise NoText('no line "open b P N r w"')
    judge_numbers(numbers)
    for k, letter, value, page in records:
        judge_record('line %d' % k, letter, value, page, numbers[2])
    body = b''.join(struct.pack('<BBH', letter, value, page) for _, letter, value, page in records)
    data = notes + body + struct.pack(TRAILER, 20 + len(body), len(records), *numbers)
    return data, told(data, numbers)


# ---- a trace to text


def noted(notes):
    """Notes as lines: text where `make` reads the same bytes back, else digits."""
    lines = []
    for part in notes.splitlines(keepends=True):
        text = part[:-1].decode('ascii', 'replace')
        plain = part.endswith(b'\n') and text.isprintable() and text.encode('ascii', 'replace') == part[:-1]
        lines.append('note ' + text if plain else 'hex ' + part.hex())
    return lines


def show(data):
    if len(data) < 20:
        raise Refused(7, 'not a trace: shorter than 20 bytes')
    distance, count, *numbers = struct.unpack(TRAILER, data[-20:])
    if distance != 20 + 4 * count or distance > len(data):
        raise Refused(7, 'not a trace: the trailer does not point back at its records')
    judge_numbers(numbers)
    notes, body = data[:len(data) - distance], data[len(data) - distance:-20]
    lines = ['# %d bytes of notes, %d records' % (len(notes), count)] + noted(notes) + ['open %d %d %d %d %d' % tuple(numbers)]
    for k in range(count):
        letter, value, page = struct.unpack('<BBH', body[4 * k:4 * k + 4])
        judge_record('record %d' % (k + 1), letter, value, page, numbers[2])
        lines.append({'R': 'R %d' % page, 'W': 'W %d %d' % (page, value), 'F': 'F', 'D': 'D %d' % page}[chr(letter)])
    return ('\n'.join(lines) + '\n').encode(), told(data, numbers)


def main():
    signal.signal(signal.SIGPIPE, signal.SIG_DFL)
    if sys.argv[1:] not in (['make'], ['show']):
        sys.exit(__doc__)
    data = sys.stdin.buffer.read()
    try:
        out, warning = make(data.decode()) if sys.argv[1] == 'make' else show(data)
    except (NoText, UnicodeDecodeError) as why:
        print('saraphuk: %s' % why, file=sys.stderr)
        sys.exit(2)
    except Refused as why:
        print('saraphuk: %s' % why, file=sys.stderr)
        sys.exit(1)
    sys.stdout.buffer.write(out)
    if warning:
        print('saraphuk: ' + warning, file=sys.stderr)


if __name__ == '__main__':
    main()
