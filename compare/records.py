"""Records for the program `records`, and what it should print of them.

A model of the box that shares no text with it: Python's floats are f64, and
every operation rounds once, as the box's do. Writes the two files

    records.py words   > crates/records/stdin
    records.py answers > crates/records/stdout
"""

import random
import struct
import sys

THIRTYTWO_OVER_PI = [struct.unpack('>d', bytes.fromhex(h))[0] for h in (
    '40245f306e000000', 'be3b1bbeae000000', '3c63f84eb0000000', 'ba87056592000000',
    '38bc0db62a000000', 'b6e4cd8778000000', 'b51bef806c000000', '33363abdebbc561b')]
LOWEST = [-24, -55, -81, -114]
QUARTER = ['0000000000000000', '3fb917a6bc29b42c', '3fc8f8b83c69a60b', '3fd294062ed59f06', '3fd87de2a6aea963',
           '3fde2b5d3806f63b', '3fe1c73b39ae68c8', '3fe44cf325091dd6', '3fe6a09e667f3bcd', '3fe8bc806b151741',
           '3fea9b66290ea1a3', '3fec38b2f180bdb1', '3fed906bcf328d46', '3fee9f4156c62dda', '3fef6297cff75cb0',
           '3fefd88da3d12526', '3ff0000000000000']
MINUTE = 'b69f77598338bfdf'


def f64(h):
    return struct.unpack('>d', bytes.fromhex(h))[0]


SINES = [f64(h) for h in QUARTER] + [f64(h) for h in QUARTER[15:0:-1]]
SINES = SINES + [f64(MINUTE)] + [-s for s in SINES[1:]]
assert len(SINES) == 64


def away(x):
    """The nearest whole number, halves away from zero."""
    n = int(abs(x))
    if abs(x) - n >= 0.5:
        n += 1
    return float(-n if x < 0 else n)


def float_of(word):
    return struct.unpack('>f', struct.pack('>I', word))[0]


def radians(word):
    if word >> 23 & 255 == 255:
        return None
    x = float_of(word)
    size = word & 0x7fffffff
    c = THIRTYTWO_OVER_PI
    if size < 0x4a800000:
        p = x * c[0]
        k = away(p)
        y = (p - k)
        y = x * c[1] + y
        y = x * c[2] + y
        return int(k) % 64, y
    e = (size >> 23) - 127
    i = 0
    while e - 23 + LOWEST[i] > 5:
        i += 1
    high = x * c[i]
    k_high = away(high)
    low = x * c[i + 1] + (high - k_high)
    k_low = away(low)
    y = low - k_low
    y = x * c[i + 2] + y
    y = x * c[i + 3] + y
    return (int(k_high) + int(k_low)) % 64, y


def half_turns(word):
    if word >> 23 & 255 == 255:
        return None
    if word & 0x7fffffff >= 0x4b800000:
        return 0, 0.0
    x = float_of(word)
    k = away(x * 32.0)
    return int(k) % 64, x * 32.0 - k


def mounted(read, quarters, mirror):
    def under(word):
        a = read(word)
        if a is None:
            return None
        k, y = a
        if mirror:
            k, y = -k % 64, -y
        return (k + 16 * quarters) % 64, y
    return under


def share(x):
    return int(away(struct.unpack('>f', struct.pack('>f', x))[0] * 1073741824.0))


def shares(k, y):
    z = y * y
    p = f64('bdb32c3a619d4a7e')
    for h in ('3e7466bc624f2776', 'bf24abbce625abb1', '3fb921fb54442d18'):
        p = z * p + f64(h)
    sin_y = y * p
    q = f64('be155cc84bd94200')
    for h in ('3ed03c1f070c2e27', 'bf73bd3cc9be430b'):
        q = z * q + f64(h)
    cosm1_y = z * q
    s, c = SINES[k], SINES[(k + 16) % 64]
    return share(sin_y * c + (cosm1_y * s + s)), share(sin_y * -s + (cosm1_y * c + c))


LENGTHS = {1: 1, 2: 2, 3: 8, 4: 2, 5: 8}


class Refused(Exception):
    pass


def put(rows, read, tag, body):
    sample = int.from_bytes(body[0:2], 'big')
    if tag == 4:
        if sample not in rows:
            raise Refused(9)
        del rows[sample]
        return
    speed, word = struct.unpack('>HI', body[2:8])
    a = read(word)
    if a is None:
        raise Refused(7)
    if tag == 3:
        if sample in rows:
            raise Refused(8)
        if len(rows) >= 256:
            raise Refused(10)
    elif sample not in rows:
        raise Refused(9)
    rows[sample] = (speed,) + shares(*a)


def outcome(record):
    if len(record) > 65536:
        return 'refused 2 at 0\n'
    if not record:
        return 'refused 4 at 0\n'
    at, field, rows, read, edition = 0, 0, {}, None, None
    while at < len(record):
        try:
            if len(record) < at + 3:
                raise Refused(3)
            tag, length = record[at], int.from_bytes(record[at + 1:at + 3], 'big')
            body = record[at + 3:at + 3 + length]
            if len(body) < length:
                raise Refused(3)
            stands = tag == 1 if field == 0 else tag in (3, 4, 5) or (tag == 2 and field == 1)
            if not stands:
                raise Refused(4)
            if length != LENGTHS[tag]:
                raise Refused(5)
            if tag == 1:
                if body[0] not in (5, 6):
                    raise Refused(6)
                edition, read = body[0], radians if body[0] == 5 else half_turns
            elif tag == 2:
                if body[0] > 3 or body[1] > 1:
                    raise Refused(6)
                read = mounted(read, body[0], body[1])
            else:
                put(rows, read, tag, body)
        except Refused as e:
            return 'refused %d at %d\n' % (e.args[0], at)
        at += 3 + length
        field += 1
    speed = sum(r[0] for r in rows.values())
    across = sum(r[0] * r[1] for r in rows.values())
    along = sum(r[0] * r[2] for r in rows.values())
    return 'edition %d\nrows %d\nspeed %d\nalong %d\nacross %d\n' % (edition, len(rows), speed, along, across)


def field(tag, body, length=None):
    return bytes([tag]) + struct.pack('>H', len(body) if length is None else length) + body


def enter(sample, speed, word, tag=3):
    return field(tag, struct.pack('>HHI', sample, speed, word))


def withdraw(sample):
    return field(4, struct.pack('>H', sample))


def word(x):
    return struct.unpack('>I', struct.pack('>f', x))[0]


E5, E6 = field(1, bytes([5])), field(1, bytes([6]))


def mount(q, m):
    return field(2, bytes([q, m]))


def records():
    two = enter(1, 1000, 0) + enter(2, 500, word(0.5))
    # the examples of the documents, in both editions
    yield E6 + two
    yield E6 + mount(1, 0) + two
    yield E5 + enter(1, 1000, 0) + enter(2, 500, word(1.5707964))
    yield E5 + mount(2, 1) + enter(7, 2777, word(0.7853982)) + enter(8, 2650, word(-300.25))
    # an edition 6 word in an edition 5 record
    yield E5 + two
    # the same calls under every mount
    for e in (E5, E6):
        for q in range(4):
            for m in range(2):
                yield e + mount(q, m) + enter(3, 65535, word(0.3)) + enter(4, 1, word(-12345.678)) + enter(5, 40000, word(7e30))
    # no rows
    yield E5
    yield E6
    yield E6 + mount(3, 1)
    # empty, cut at each byte, and with a byte more
    whole = E6 + mount(1, 1) + enter(1, 1000, word(0.125)) + enter(1, 7, word(3.5), 5) + withdraw(1) + enter(9, 3, word(1e9))
    for n in range(len(whole) + 1):
        yield whole[:n]
    for b in (0, 3, 255):
        yield whole + bytes([b])
    # every tag at every state, with the length of its kind or of none
    for before in (b'', E5, E6, E6 + mount(0, 0), E6 + enter(1, 1, 0)):
        for tag in list(range(8)) + [255]:
            yield before + field(tag, bytes(LENGTHS.get(tag, 1)))
    yield E5 + field(1, bytes([6]))
    yield E5 + mount(0, 0) + mount(0, 0)
    # wrong lengths: one short, one long, none, and a length that passes the end
    for before, tag in ((b'', 1), (E6, 2), (E6, 3), (E6, 4), (E6, 5)):
        for n in (0, LENGTHS[tag] - 1, LENGTHS[tag] + 1, 300):
            yield before + field(tag, bytes(n))
        yield before + field(tag, bytes(LENGTHS[tag]), 65535)
    # values that are not allowed
    for b in (0, 4, 7, 255):
        yield field(1, bytes([b]))
    for q, m in ((4, 0), (255, 0), (0, 2), (3, 255), (4, 2)):
        yield E5 + mount(q, m)
    # words without an angle, at entering and at correcting, and the largest with one
    for w in (0x7f800000, 0xff800000, 0x7fc00000, 0x7f800001, 0xffffffff):
        yield E5 + enter(1, 2, w)
        yield E6 + enter(1, 2, 0) + enter(1, 2, w, 5)
    for e in (E5, E6):
        for w in (0x7f7fffff, 0xff7fffff, 0, 0x80000000, 1, 0x80000001):
            yield e + enter(1, 65535, w)
    # the question of the angle comes before that of the sample
    yield E6 + enter(1, 2, 0) + enter(1, 2, 0x7f800000)
    yield E6 + enter(2, 2, 0x7f800000, 5)
    # a sample twice, a sample that is not there, a sample that comes again
    yield E6 + enter(1, 2, 0) + enter(1, 3, 0)
    yield E6 + enter(2, 3, 0, 5)
    yield E6 + withdraw(2)
    yield E6 + enter(1, 2, 0) + withdraw(1) + withdraw(1)
    yield E6 + enter(1, 2, 0) + withdraw(1) + enter(1, 5, word(0.25))
    yield E6 + enter(1, 2, 0) + enter(2, 9, word(1.75)) + enter(3, 4, word(0.1)) + withdraw(1) + enter(2, 8, word(0.5), 5) + enter(1, 1, word(1.0))
    # 256 rows, 257, and 257 after one was withdrawn
    full = E5 + b''.join(enter(i, 60000 + i, word(i * 0.37 - 40)) for i in range(256))
    yield full
    yield full + enter(256, 1, 0)
    yield full + withdraw(100) + enter(256, 1, word(2.5))
    yield full + withdraw(0) + enter(256, 1, 0) + enter(257, 1, 0)
    yield E6 + b''.join(enter(65535 - i, 65535, word(1.0)) for i in range(256))
    # 65,536 bytes and 65,537
    longest = E6 + (enter(1, 9, 0) + withdraw(1)) * 12 + enter(1, 1, 0) + enter(1, 77, word(0.3), 5) * 5939
    assert len(longest) == 65536
    yield longest
    yield longest + bytes(1)
    yield longest[:-1]
    yield bytes(65537)
    # the reducers' boundaries and hard words
    hard = [0x4a7fffff, 0x4a800000, 0x3e490fdb, 0x3e490fdc, 0x4b7fffff, 0x4b800000, 0x46199998, 0x5922aa80, 0x697dfe21, 0x697ff812,
            0x6f79be45, 0x59800001, 0x697fffff, 0x76ffffff, 0x50a3e87f, 0x437ce5f1]
    for e in (E5, E6):
        for m in (b'', mount(1, 0), mount(2, 1)):
            yield e + m + b''.join(enter(i, 1000 + i, w) for i, w in enumerate(hard + [w | 0x80000000 for w in hard]))
    # random calls, most of them allowed
    rng = random.Random(20261118)
    for _ in range(120):
        r = rng.choice((E5, E6)) + (mount(rng.randrange(4), rng.randrange(2)) if rng.random() < 0.6 else b'')
        there = []
        for _ in range(rng.randrange(1, 40)):
            w = word(rng.uniform(-20, 20)) if rng.random() < 0.5 else rng.getrandbits(32)
            if w >> 23 & 255 == 255 and rng.random() < 0.95:
                w &= 0xff7fffff
            p = rng.random()
            if p < 0.55 or not there:
                s = rng.randrange(65536)
                r += enter(s, rng.randrange(65536), w)
                there.append(s)
            elif p < 0.8:
                r += enter(rng.choice(there), rng.randrange(65536), w, 5)
            else:
                s = rng.choice(there) if rng.random() < 0.97 else rng.randrange(65536)
                r += withdraw(s)
                if s in there:
                    there.remove(s)
        yield r


def main():
    bad = ['0', '01000g', 'zz', '0x01', ' ']
    if sys.argv[1:] == ['words']:
        sys.stdout.write(''.join(r.hex() + '\n' for r in records()) + '\n'.join(bad) + '\n')
    elif sys.argv[1:] == ['answers']:
        message = 'bad line: want the bytes of a record, two hex digits each\n'
        sys.stdout.write(''.join(outcome(r) for r in records()) + message * len(bad))
    else:
        sys.exit('records.py words | answers')


main()
