#!/usr/bin/env python3
"""The calls that read a finished listing, written once more in Python, and held against the library on listings made at random.

usage: reading.py LIBRARY COUNT SEED       LIBRARY is librilvostam as a shared object; tools/compare/reading makes it and runs this

Names are those of crates/paths and nearest_number, specs/: a reader can hold each function against its definition. The listings have many edges
of one span and class, and equal edges, so that 02's S-5 shows: which of them is given. Some one in ten are damaged. It proves nothing.
"""
import ctypes
import random
import struct
import sys

TOP = 2**53 - 1
NONE = 2**64 - 1
NUMBERS = {1: 1, 2: 2, 3: 1, 4: 1}  # u64 or f64 numbers that go with a bit of the map


class Refused(Exception):
    pass


# ---- crates/text, crates/edge: the checks 2, 3 and 6
def check_line(line):
    try:
        text = line.decode()
    except UnicodeDecodeError as e:
        raise Refused(2, e.start) from None
    if len(text) > 256:
        raise Refused(3, len(text[:256].encode()))
    return text


class Cut(Exception):
    """An edge that the listing ends within, or that may not stand."""


def read_edge(data, at, chars):
    """The edge at an offset, with the offset behind it."""
    def number(width):
        nonlocal at
        if at + width > len(data):
            raise Cut
        at += width
        return int.from_bytes(data[at - width : at], "little")

    def string():
        nonlocal at
        size = number(2)
        if at + size > len(data):
            raise Cut
        at += size
        return data[at - size : at]

    edge = {"at": at}
    bits, edge["start"], edge["end"] = number(2), number(2), number(2)
    texts = [string(), string()]
    edge["type"], edge["txt"] = texts
    numbers = []
    if bits & 1:
        texts.append(string())
        for bit in range(1, 5):
            numbers += [(bit, number(8)) for _ in range(NUMBERS[bit]) if bits >> bit & 1]
        texts += [string() for bit in (5, 8) if bits >> bit & 1]
        numbers += [(9, number(1))] if bits >> 9 & 1 else []
    edge["numeric"], edge["active"], edge["next"] = bool(bits & 1), bool(bits >> 7 & 1), at
    if bits >> 10 or (bits and not bits & 1) or not edge["start"] < edge["end"] <= chars:
        raise Cut
    if any(n > TOP for bit, n in numbers if bit in (2, 3)) or [n for bit, n in numbers if bit == 2][1:] == [0]:
        raise Cut
    if any(not 1 <= n <= 15 for bit, n in numbers if bit == 9):
        raise Cut
    try:
        for text in texts:
            text.decode()
    except UnicodeDecodeError:
        raise Cut from None
    return edge


def check_listing(data, chars):
    if len(data) < 2:
        raise Refused(6, 0)
    edges, at = [], 2
    for _ in range(int.from_bytes(data[:2], "little")):
        try:
            edges.append(read_edge(data, at, chars))
        except Cut:
            raise Refused(6, at) from None
        at = edges[-1]["next"]
    if at < len(data):
        raise Refused(6, at)
    return edges


# ---- crates/paths/specs/Best
def class_of(skip, e):
    if e["numeric"]:
        return 0 if skip else 5 if e["active"] else 1
    if e["type"].startswith(b"rom decomp"):
        return 3
    return 4 if e["type"].startswith((b"rom", b"num")) else 2


def score(skip, asked, e):
    rank = class_of(skip, e)
    return (e["end"] - e["start"]) * 8 + rank if rank and asked(e) else 0


def best(skip, asked, edges):
    """The first of its class in listing order, or None."""
    highest = max((score(skip, asked, e) for e in edges), default=0)
    return next(e for e in edges if score(skip, asked, e) == highest) if highest else None


def right_of(skip, edges, p):
    return best(skip, lambda e: e["start"] == p, edges)


def left_of(skip, edges, p):
    return best(skip, lambda e: e["end"] == p, edges)


# ---- crates/paths/specs/Reading, Path, Shown: the calls; check 9 comes last
def inside(text, *places):
    if any(p > len(text) for p in places) or list(places) != sorted(places):
        raise Refused(9, 0)


def offset(e):
    return e["at"] if e else NONE


def best_edge(text, edges, listing, start, end, skip):
    inside(text, start, end)
    return offset(best(skip, lambda e: (e["start"], e["end"]) == (start, end), edges))


def right_neighbor(text, edges, listing, p, skip):
    inside(text, p)
    return offset(right_of(skip, edges, p))


def left_neighbor(text, edges, listing, p, skip):
    inside(text, p)
    return offset(left_of(skip, edges, p))


def path(text, edges, listing, start, end, skip, room):
    inside(text, start, end)
    taken, p = [], start
    while p < end:
        e = right_of(skip, edges, p)
        taken += [e] if e else []
        p = e["end"] if e else p + 1
    written = struct.pack("<H", len(taken)) + b"".join(listing[e["at"] : e["next"]] for e in taken)
    if len(written) > room:
        raise Refused(8, 0)
    return written


def shown_text(text, edges, listing, p):
    if p >= len(text):
        raise Refused(9, 0)
    e = right_of(False, edges, p)
    if e:
        return e["at"] + 8 + len(e["type"]) + 2, len(e["txt"]), 1
    return len(text[:p].encode()), len(text[p].encode()), 0


# ---- crates/nearest_number/specs/Nearest: 02's S-14
def is_number(e):
    return e["numeric"] and e["active"]


def between(p, start, end):
    return 0 if start <= p <= end else min(abs(p - start), abs(p - end))


def nearest_number(text, edges, listing, p):
    """At equal distance the earlier start, then the longer edge; min gives the first of the listing where all are equal."""
    inside(text, p)
    order = lambda e: (between(p, e["start"], e["end"]), e["start"], e["start"] - e["end"])
    return offset(min(filter(is_number, edges), key=order, default=None))


# ---- cases
TYPES = (b"rom", b"rom decomp", b"rom deco", b"num", b"numeral", b"x", b"", b"D1", b"G4", b"Rom")


def string(text):
    return struct.pack("<H", len(text)) + text


def random_edge(rng, chars):
    start = rng.randrange(chars)
    end = min(chars, start + rng.choice((1, 1, 1, 2, 2, 3, chars)))
    numeric = rng.random() < 0.5
    bits = 1 | rng.choice((0, 128)) | (rng.getrandbits(10) & 0x37E if rng.random() < 0.3 else 0) if numeric else 0
    data = struct.pack("<HHH", bits, start, end) + string(rng.choice(TYPES)) + string(rng.choice((b"", b"1", b"a", "五".encode())))
    if numeric:
        data += string(rng.choice((b"", b"o")))
        data += b"".join(struct.pack("<Q", rng.choice((1, 2, 10, TOP))) for bit in range(1, 5) for _ in range(NUMBERS[bit]) if bits >> bit & 1)
        data += b"".join(string(b"s") for bit in (5, 8) if bits >> bit & 1)
        data += bytes([rng.choice((1, 2, 14, 15) if rng.random() < 0.98 else (0, 16, 255))]) if bits >> 9 & 1 else b""
    return data


def random_case(rng):
    size = rng.choice((0, 1, 2, 3, 4, 5, 6, 8, 12, 256 if rng.random() < 0.1 else 9))
    line = "".join(rng.choice("abcé五万😀") for _ in range(size)).encode()
    edges = [random_edge(rng, size) for _ in range(rng.choice((0, 1, 2, 4, 8, 16)))] if size else []
    edges += [rng.choice(edges) for _ in range(rng.choice((0, 0, 1, 3)))] if edges else []
    listing = struct.pack("<H", len(edges)) + b"".join(edges)
    damage = rng.randrange(48)
    if damage == 0 and listing:
        listing = listing[: rng.randrange(len(listing))]
    elif damage == 1:
        listing += bytes([rng.randrange(256)])
    elif damage in (2, 3, 4):
        at = rng.randrange(len(listing))
        listing = listing[:at] + bytes([listing[at] ^ 1 << rng.randrange(8)]) + listing[at + 1 :]
    elif damage == 5:
        line = line[: rng.randrange(len(line) + 1)] + bytes([rng.choice((0x80, 0xC0, 0xE4, 0xFF))]) + line[rng.randrange(len(line) + 1) :]
    elif damage == 6 and rng.random() < 0.2:
        line = "é".encode() * 257
    return line, listing


# ---- the library
class Library:
    def __init__(self, name):
        self.c = ctypes.CDLL(name)
        self.at, self.len, self.within = ctypes.c_uint64(), ctypes.c_uint64(), ctypes.c_uint8()

    def call(self, name, line, listing, *rest):
        status = getattr(self.c, "rilvostam_" + name)(
            line, ctypes.c_size_t(len(line)), listing, ctypes.c_size_t(len(listing)), *rest)
        if status:
            raise Refused(status, self.at.value)
        return self.at.value

    def edge(self, name, line, listing, *places, skip=None):
        skips = [] if skip is None else [ctypes.c_uint8(skip)]
        return self.call(name, line, listing, *map(ctypes.c_uint64, places), *skips, ctypes.byref(self.at))

    def path(self, line, listing, start, end, skip, room):
        out = ctypes.create_string_buffer(b"\xa5" * room, room)
        try:
            size = self.call("path", line, listing, ctypes.c_uint64(start), ctypes.c_uint64(end), ctypes.c_uint8(skip),
                             out, ctypes.c_size_t(room), ctypes.byref(self.at))
        except Refused:
            assert out.raw == b"\xa5" * room, "output of a refused path"
            raise
        assert out.raw[size:] == b"\xa5" * (room - size), "output behind the path"
        return out.raw[:size]

    def shown_text(self, line, listing, p):
        at = self.call("shown_text", line, listing, ctypes.c_uint64(p),
                       ctypes.byref(self.at), ctypes.byref(self.len), ctypes.byref(self.within))
        return at, self.len.value, self.within.value


def told(answer):
    try:
        return "found", answer()
    except Refused as e:
        return "refused", e.args


def questions(rng, library, line, listing, chars, edges):
    """Name, the library's answer, the model's function and its arguments."""
    places = [*range(chars + 2), 2**16, 2**32, NONE]
    for skip in (False, True):
        for p in places:
            for name, model in (("right_neighbor", right_neighbor), ("left_neighbor", left_neighbor)):
                yield name, lambda: library.edge(name, line, listing, p, skip=skip), model, (p, skip)
        spans = [(e["start"], e["end"]) for e in edges] + [(rng.choice(places), rng.choice(places)) for _ in range(4)]
        for start, end in spans:
            yield "best_edge", lambda: library.edge("best_edge", line, listing, start, end, skip=skip), best_edge, (start, end, skip)
        for start, end in ((rng.randrange(chars + 2), rng.randrange(chars + 2)) for _ in range(4)):
            room = rng.randrange(len(listing) + 3)
            yield "path", lambda: library.path(line, listing, start, end, skip, room), path, (start, end, skip, room)
    for p in places:
        yield "nearest_number", lambda: library.edge("nearest_number", line, listing, p), nearest_number, (p,)
        yield "shown_text", lambda: library.shown_text(line, listing, p), shown_text, (p,)


def main():
    library, count, rng, counts = Library(sys.argv[1]), int(sys.argv[2]), random.Random(int(sys.argv[3])), {}
    for case in range(count):
        line, listing = random_case(rng)
        try:
            text = check_line(line)
            edges, fault = check_listing(listing, len(text)), None
        except Refused as e:
            text, edges, fault = "", [], e.args
        for name, ours, model, arguments in questions(rng, library, line, listing, len(text), edges):
            want = ("refused", fault) if fault else told(lambda: model(text, edges, listing, *arguments))
            got = told(ours)
            if got != want:
                sys.exit(f"case {case}, {name} {arguments}: {got}, not {want}: {line.hex()} {listing.hex()}")
            kind = name, f"refused {want[1][0]}" if want[0] == "refused" else "none" if want[1] == NONE else "found"
            counts[kind] = counts.get(kind, 0) + 1
    for (name, kind), n in sorted(counts.items()):
        print(name, kind, n, sep="\t")
    print(f"{count} listings, {sum(counts.values())} calls: no difference")


if __name__ == "__main__":
    main()
