#!/usr/bin/env python3
"""Shares in a family grave (document 02, S-6), written once more in Python with its own fractions, and held against the library on listings made at random.

usage: shares.py run LIBRARY COUNT SEED    LIBRARY is librilvostam as a shared object; tools/compare/shares makes it and runs this
       shares.py vectors SEED              the rows of crates/shares_vectors: writes its stdin and stdout

Some one in ten listings are damaged. It proves nothing: it looks for a definition that says something else than 02 does.
"""
import collections
import ctypes
import fractions
import pathlib
import random
import sys

TOP = 2**53 - 1
ALL_BITS = 0x3FF


class Refused(Exception):
    pass


# ---- the checks 2, 3 and 6
def characters(line):
    try:
        text = line.decode()
    except UnicodeDecodeError as e:
        raise Refused(2, e.start) from None
    if len(text) > 256:
        raise Refused(3, len(text[:256].encode()))
    return len(text)


def edge_share(data, at, length):
    """Where the edge at an offset ends, and its share or None; None for an edge that may not stand."""
    def take(size):
        nonlocal at
        if at + size > len(data):
            raise IndexError
        at += size
        return data[at - size : at]

    def number(width):
        return int.from_bytes(take(width), "little")

    try:
        bits, start, end = number(2), number(2), number(2)
        texts, fraction, base, decimals = [take(number(2)), take(number(2))], None, None, 1
        if bits & 1:
            texts.append(take(number(2)))
            if bits >> 1 & 1:
                take(8)
            if bits >> 2 & 1:
                fraction = number(8), number(8)
            if bits >> 3 & 1:
                base = number(8)
            if bits >> 4 & 1:
                take(8)
            texts += [take(number(2)) for bit in (5, 8) if bits >> bit & 1]
            if bits >> 9 & 1:
                decimals = number(1)
        for text in texts:
            text.decode()
    except (IndexError, UnicodeDecodeError):
        return None
    if bits > ALL_BITS or not 1 <= decimals <= 15 or (bits and not bits & 1) or not start < end <= length:
        return None
    if fraction and (max(fraction) > TOP or fraction[1] == 0) or base is not None and base > TOP:
        return None
    return at, fraction if bits >> 7 & 1 else None


def listed_shares(listing, length):
    if len(listing) < 2:
        raise Refused(6, 0)
    shares, at = [], 2
    for _ in range(int.from_bytes(listing[:2], "little")):
        edge = edge_share(listing, at, length)
        if edge is None:
            raise Refused(6, at)
        at, share = edge
        shares.append(share)
    if at < len(listing):
        raise Refused(6, at)
    return shares


# ---- S-6
def pool_shares(line, listing):
    """What C is told: status, numerator, denominator, at."""
    try:
        total = fractions.Fraction(0)
        for index, share in enumerate(listed_shares(listing, characters(line))):
            if share:
                total += fractions.Fraction(*share)
                if max(total.numerator, total.denominator) > TOP:
                    raise Refused(11, index)
        return 0, total.numerator, total.denominator, 0
    except Refused as e:
        return e.args[0], 0, 0, e.args[1]


# ---- listings
def string(text):
    return len(text).to_bytes(2, "little") + text


def edge(bits, fraction=(1, 1), end=1, decimals=15):
    data = bits.to_bytes(2, "little") + bytes(2) + end.to_bytes(2, "little") + string(b"") + string(b"")
    if bits & 1:
        data += string(b"x")
        data += bytes(8) if bits >> 1 & 1 else b""
        data += b"".join(n.to_bytes(8, "little") for n in fraction) if bits >> 2 & 1 else b""
        data += (10).to_bytes(8, "little") if bits >> 3 & 1 else b""
        data += bytes(8) if bits >> 4 & 1 else b""
        data += b"".join(string(b"y") for bit in (5, 8) if bits >> bit & 1)
        data += bytes([decimals]) if bits >> 9 & 1 else b""
    return data


def listing_of(edges):
    return len(edges).to_bytes(2, "little") + b"".join(edges)


def active(*shares):
    return listing_of([edge(0x85, share) for share in shares])


def any_fraction(r, scale):
    """Small or large, reduced or not, perhaps 0, over denominators that have much in common, so that sums above 64 bits reduce."""
    d = r.choice([1, 2, 3, 6, 12, TOP, TOP - 1, scale, scale * r.randint(1, TOP // scale), r.randint(1, 100), r.randint(1, TOP)])
    n = r.choice([0, 1, d, TOP, d - 1, r.randint(0, 100), r.randint(0, d), r.randint(0, TOP)])
    k = r.choice([1, 1, 1, r.randint(1, TOP // max(n, d, 1))])
    return n * k, d * k


def any_edge(r, scale):
    bits = r.choice([0x85, 0x85, 0x85, 0x85, 0x05, 0x81, 0, 1 | r.randint(0, ALL_BITS), 0x85 | r.randint(0, ALL_BITS)])
    return edge(bits, any_fraction(r, scale), decimals=r.randint(1, 15))


def damaged(r, listing):
    at = r.randrange(len(listing))
    return r.choice([
        listing[:at],
        listing + b"\0",
        listing[:at] + bytes([r.randrange(256)]) + listing[at + 1 :],
        listing[:at] + bytes([listing[at] ^ 1 << r.randrange(8)]) + listing[at + 1 :],
    ])


def any_case(r):
    scale = r.choice([1, 2**20, r.randint(1, 1000), r.randint(1, 2**40)])
    listing = listing_of([any_edge(r, scale) for _ in range(r.choice([0, 1, 2, 2, 3, 3, 4, 8, 20]))])
    if r.random() < 0.1:
        listing = damaged(r, listing)
    line = r.choice(["五".encode()] * 30 + [b"\xff", b"", b"a" * 256, b"a" * 257])
    return line, listing


# ---- the library
def run(library, count, seed):
    call = ctypes.CDLL(library).rilvostam_pool_shares
    r, counts = random.Random(seed), collections.Counter()
    for _ in range(count):
        line, listing = any_case(r)
        told = [ctypes.c_uint64(7) for _ in range(3)]
        status = call(line, ctypes.c_size_t(len(line)), listing, ctypes.c_size_t(len(listing)), *map(ctypes.byref, told))
        got, want = (status, *(t.value for t in told)), pool_shares(line, listing)
        if got != want:
            sys.exit(f"differs: {line.hex()} {listing.hex()}: {got} and not {want}")
        counts[status] += 1
    print(f"{count} listings, no difference:", ", ".join(f"{n} times {status}" for status, n in sorted(counts.items())))


# ---- the program in the gate
def examples():
    half, fault = (1, 2), (1, 0)
    yield "no edge", listing_of([])
    yield "no active edge with a fraction", listing_of([edge(0), edge(0x81), edge(0x05, half)])
    yield "a third and a sixth", active((1, 3), (1, 6))
    yield "a sixth and a third", active((1, 6), (1, 3))
    yield "alone and unreduced", active((2, 4))
    yield "alone and 0", active((0, 7))
    yield "equal edges each count", active((1, 3), (1, 3))
    yield "only active edges with a fraction count", listing_of(
        [edge(0), edge(0x05, half), edge(0x81), edge(0x85, (1, 3)), edge(0x87, (0, 4)), edge(ALL_BITS, (5, 12))])
    yield "TOP", active((TOP - 1, 1), (1, 1))
    yield "TOP, nothing, and one", active((TOP, 1), (0, 3), (1, 1))
    yield "above TOP on the way to TOP", active((TOP - 1, 1), half, half)
    yield "the same shares in another order", active(half, half, (TOP - 1, 1))
    yield "denominator TOP", active((1, TOP), (1, TOP))
    yield "denominator above TOP", active((1, TOP), half)
    yield "TOP over TOP twice", active((TOP, TOP), (TOP, TOP))
    yield "TOP over TOP in two", active((TOP - 1, TOP), (1, TOP))
    yield "TOP and one over TOP", active((TOP - 1, TOP), (2, TOP))
    yield "the index counts all edges", listing_of([edge(0), edge(0x85, (TOP, 1)), edge(0), edge(0x05, half), edge(0x85, (1, 1)), edge(0x85, (1, 1))])
    yield "a later fault 6 comes first", active((TOP, 1), (1, 1), fault)
    yield "denominator 0 of an inactive edge", listing_of([edge(0x05, fault)])
    yield "numerator above TOP", active((TOP + 1, 1))
    yield "a share of an edge with decimals", listing_of([edge(0x285, half, decimals=1), edge(0x85, (1, 3))])
    yield "no decimals", listing_of([edge(0x85, half), edge(0x285, half, decimals=0)])
    yield "16 decimals", listing_of([edge(0x85, half), edge(0x285, half, decimals=16)])
    yield "end past the line", listing_of([edge(0x85, half, 2)])
    yield "no count", b""
    yield "a byte left over", active((1, 3)) + b"\0"


def wide_sums(r):
    """Sums that need over 64 bits before they are reduced, on either side of TOP."""
    found = 0
    while found < 6:
        scale = r.randint(2**36, 2**40)
        (a, b), (c, d) = [(r.randint(1, TOP if found % 2 else scale), scale * r.randint(1, 2**6)) for _ in range(2)]
        total = fractions.Fraction(a, b) + fractions.Fraction(c, d)
        if a * d + c * b > 2**64 and (max(total.numerator, total.denominator) > TOP) == (found % 2 == 1):
            found += 1
            yield f"by way of a numerator of {(a * d + c * b).bit_length()} bits", active((a, b), (c, d))


def vectors(seed):
    r, line = random.Random(seed), "五".encode()
    rows = [(line, listing, words) for words, listing in [*examples(), *wide_sums(r)]]
    rows += [(line, listing_of([any_edge(r, 12) for _ in range(r.randint(2, 6))]), "at random") for _ in range(8)]
    third = active((1, 3))
    rows += [(b"\xff", third, "the line is not UTF-8"), (b"a" * 256, third, "256 characters"), (b"a" * 257, third, "257 characters"),
             (b"\xff", b"", "2 before 6"), (b"", third, "a line without characters")]
    folder = pathlib.Path(__file__).parents[2] / "crates" / "shares_vectors"
    (folder / "stdin").write_text("".join(f"{line.hex()} {listing.hex()} {words}\n" for line, listing, words in rows))
    with open(folder / "stdout", "w") as out:
        for line, listing, words in rows:
            status, n, d, at = pool_shares(line, listing)
            out.write(f"refused {status} {at} {words}\n" if status else f"sum {n}/{d} {words}\n")


if __name__ == "__main__":
    if sys.argv[1] == "run":
        run(sys.argv[2], int(sys.argv[3]), int(sys.argv[4]))
    else:
        vectors(int(sys.argv[2]))
