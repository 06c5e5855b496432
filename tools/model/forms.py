#!/usr/bin/env python3
"""The byte forms of docs/FORMATS.md, read once more in Python, and held against the library at random: the edge at an offset (`rilvostam_edge_at`), and the check of a
table (`rilvostam_check_table`).

usage: forms.py LIBRARY COUNT SEED       LIBRARY is librilvostam as a shared object; tools/compare/forms makes it and runs this

COUNT listings and COUNT tables, about half of them damaged. It proves nothing.
"""
import ctypes
import random
import struct
import sys

TOP = 2**53 - 1


class Cut(Exception):
    pass


class Reader:
    def __init__(self, data, at):
        self.data, self.at = data, at

    def take(self, size):
        if self.at + size > len(self.data):
            raise Cut
        self.at += size
        return self.data[self.at - size:self.at]

    def number(self, size):
        return int.from_bytes(self.take(size), 'little')


# ---- a listing
def edge_at(listing, at):
    """The numbers of the edge at an offset and the offset behind it, or None where it is not whole."""
    r = Reader(listing, at)

    def text():
        size = r.number(2)
        return [r.at, len(r.take(size))]

    try:
        head = [r.number(2) for _ in range(3)]
        bits = head[0] if head[0] & 1 else 0
        numbers = head + text() + text() + (text() if bits & 1 else [0, 0])
        for bit, count in ((2, 1), (4, 2), (8, 1), (16, 1)):
            numbers += [r.number(8) if bits & bit else 0 for _ in range(count)]
        for bit in (32, 256):
            numbers += text() if bits & bit else [0, 0]
        numbers.append(r.number(1) if bits & 512 else 0)
    except Cut:
        return None
    return numbers, r.at


# ---- a table
def string(r, empty=True):
    """A string: its layout first, then whether it may stand."""
    size = r.number(1)
    if size > 60:
        raise Cut
    text = r.take(size)
    try:
        text.decode()
    except UnicodeDecodeError:
        return text, False
    return text, empty or size > 0


def record(r, least):
    """The code point of a record, and whether it may stand."""
    code, bits = r.number(4), r.number(1)
    if bits & 128:
        raise Cut
    kind, good = string(r)
    rom = None
    if bits & 1:
        rom, fine = string(r)
        good = good and fine
    value = r.number(8) if bits & 2 else None
    fraction = (r.number(8), r.number(8)) if bits & 4 else (0, 1)
    base = r.number(8) if bits & 8 else 1
    mult = r.number(8) if bits & 16 else 0
    if bits & 32:
        good = string(r)[1] and good
    good = good and code >= least and (code < 0xD800 or 0xE000 <= code < 0x110000)
    good = good and max(value or 0, *fraction, base, mult) <= TOP and base > 0 and fraction[1] > 0
    if kind == b'digit' and value is not None and value <= 9:
        good = good and rom == b'%d' % value
    return code, good


def check_table(table):
    """0 and the count of records; or 4 or 5 and the offset of the first faulty item."""
    r, at = Reader(table, 0), 0
    try:
        count = r.number(2)
        for _ in range(4):
            at = r.at
            for _ in range(r.number(1)):
                at = r.at
                if not string(r, empty=False)[1]:
                    return 5, at
        least = 0
        for _ in range(count):
            at = r.at
            code, good = record(r, least)
            if not good:
                return 5, at
            least = code + 1
    except Cut:
        return 4, at
    return (0, count) if r.at == len(table) else (4, r.at)


# ---- at random
def some_bytes(rnd, sizes):
    return bytes(rnd.getrandbits(8) for _ in range(rnd.choice(sizes)))


def random_edge(rnd):
    bits = rnd.choice([0, 1 | rnd.getrandbits(10), rnd.getrandbits(10), rnd.getrandbits(16)])

    def text():
        t = some_bytes(rnd, [0, 1, 3, 7])
        return struct.pack('<H', len(t)) + t

    out = struct.pack('<HHH', bits, rnd.randrange(300), rnd.randrange(300)) + text() + text()
    if bits & 1:
        out += text() + b''.join(some_bytes(rnd, [8 * count]) for bit, count in ((2, 1), (4, 2), (8, 1), (16, 1)) if bits & bit)
        out += b''.join(text() for bit in (32, 256) if bits & bit) + some_bytes(rnd, [bits >> 9 & 1])
    return out


def random_string(rnd, sizes):
    text = ''.join(rnd.choice('a5五é\U00020000') for _ in range(rnd.choice(sizes))).encode()
    if rnd.random() < 0.02:
        text += b'\xff'
    return bytes([len(text) % 256]) + text


def random_number(rnd):
    return struct.pack('<Q', rnd.choice([0, 1, 5, 9, 10, 1000, TOP, TOP, rnd.randrange(TOP), rnd.choice([TOP + 1, 2**64 - 1, 3])]))


def random_record(rnd, code):
    bits, value = rnd.getrandbits(7), random_number(rnd)
    kind = rnd.choice([b'\x05digit', b'\x05digit', b'\x04base', random_string(rnd, [0, 1, 15, 20])])
    rom = b'\x01' + b'%d' % (value[0] % 10) if rnd.random() < 0.8 else random_string(rnd, [0, 1, 2, 15])
    out = struct.pack('<IB', code, bits) + kind + (rom if bits & 1 else b'') + (value if bits & 2 else b'')
    out += b''.join(random_number(rnd) for bit in (4, 4, 8, 16) if bits & bit)
    return out + (random_string(rnd, [0, 1, 3]) if bits & 32 else b'')


def random_table(rnd):
    count = rnd.choice([0, 1, 2, 3, 8])
    codes = [rnd.choice([rnd.randrange(0x110000), 0x4E00 + rnd.randrange(64), 0xD7FF, 0xE000]) for _ in range(count)]
    out = struct.pack('<H', count)
    for _ in range(4):
        marks = rnd.choice([0, 0, 1, 2])
        out += bytes([marks]) + b''.join(random_string(rnd, [1, 1, 2, 3, 12] + [0] * (rnd.random() < 0.05)) for _ in range(marks))
    return out + b''.join(random_record(rnd, c) for c in (sorted(set(codes)) if rnd.random() < 0.9 else codes))


def damaged(rnd, data):
    way = rnd.random()
    if way < 0.25:
        return data[:rnd.randrange(len(data) + 1)]
    if way < 0.3:
        return data + some_bytes(rnd, [1, 2])
    if way < 0.5:
        data = bytearray(data)
        for _ in range(rnd.randrange(1, 3)):
            data[rnd.randrange(len(data))] = rnd.getrandbits(8)
    return bytes(data)


def main():
    library, count, rnd = ctypes.CDLL(sys.argv[1]), int(sys.argv[2]), random.Random(int(sys.argv[3]))
    numbers, at = (ctypes.c_uint64 * 19)(), ctypes.c_uint64()
    edges = {0: 0, 6: 0}
    for _ in range(count):
        listing = damaged(rnd, b'\x02\x00' + b''.join(random_edge(rnd) for _ in range(rnd.randrange(4))))
        offsets = [2, rnd.randrange(len(listing) + 3), rnd.choice([len(listing), 2**16, 2**32, 2**63, 2**64 - 1])]
        while edge := edge_at(listing, offsets[-1] if len(offsets) > 3 else 2):
            offsets.append(edge[1])
        for offset in offsets:
            numbers[:] = [7] * 19
            answer = library.rilvostam_edge_at(listing, ctypes.c_size_t(len(listing)), ctypes.c_uint64(offset), numbers, ctypes.byref(at))
            edge = edge_at(listing, offset)
            expected = (0, *edge) if edge else (6, [7] * 19, offset)
            if (answer, list(numbers), at.value) != expected:
                sys.exit(f'edge at {offset} of {listing.hex()}: {answer} {list(numbers)} {at.value}, and not {expected}')
            edges[answer] += 1
    tables = {0: 0, 4: 0, 5: 0}
    for _ in range(count):
        table = damaged(rnd, random_table(rnd))
        answer = library.rilvostam_check_table(table, ctypes.c_size_t(len(table)), ctypes.byref(at))
        if (answer, at.value) != check_table(table):
            sys.exit(f'table {table.hex()}: {answer} {at.value}, and not {check_table(table)}')
        tables[answer] += 1
    print(f'{count} listings: {edges[0]} edges read, {edges[6]} refused 6; {count} tables: {tables[0]} accepted, {tables[4]} refused 4, {tables[5]} refused 5; no difference')


main()
