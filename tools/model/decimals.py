#!/usr/bin/env python3
"""Measured depths (02, S-13): the call with decimals, by the definitions in tools/model/model.py.

usage: decimals.py check COUNT SEED           the model itself: 02's examples and their readings; then, on COUNT random cases, D1's edges against a regular expression, txt against
                                              value and decimals, and the first call where the line has no point or the point has a record
       decimals.py run LIBRARY COUNT SEED     rilvostam_add_numbers_with_decimals of a shared library against the model on COUNT random cases, every byte of the answer; and against
                                              rilvostam_add_numbers where the line has no point or the point has a record
       decimals.py vectors DIRECTORY          writes stdin and stdout of crates/decimals_vectors
"""
import ctypes
import random
import re
import struct
import sys

import model
from singles import OUT, call, given, record, table
from wide import plain_records

TOP = model.TOP
LISTS = (("%", "％"), ("分之", "/"), ("+",), ("-", "負"))
PLAIN = list(plain_records().items())
MARKED = table(PLAIN, LISTS)


# ---- what the passes leave, and the lattice, in words
def number(e):
    digits = "none" if e["value"] is None else str(e["value"]).zfill(e["decimals"] + 1)
    return digits[: -e["decimals"]] + "." + digits[-e["decimals"] :] if e["decimals"] else digits


def fifth(line, bytes_=MARKED):
    w, (_, records) = model.chars(line.encode()), model.read_table(bytes_)
    lists, added = model.five_lists(records, w, model.point_places(records, w))
    above = model.above_at(added)
    return f"7 at {above}" if above is not None else ", ".join(f"{e['start']}-{e['end']} {number(e)}" for e in lists[-1])


def edges_of(answer):
    """Start, end, mark, txt, decimals and the value's bits of each edge of an answer: + is active, . inactive, = regular."""
    r = model.Reader(answer)
    for _ in range(r.number(2)):
        bits, start, end = r.number(2), r.number(2), r.number(2)
        _, txt = r.string(2), r.string(2)
        value = decimals = 0
        if bits & 1:
            r.string(2)
            value = r.number(8) if bits & 2 else 0
            r.at += sum(size for bit, size in ((2, 16), (3, 8), (4, 8)) if bits >> bit & 1)
            for bit in (5, 8):
                if bits >> bit & 1:
                    r.string(2)
            decimals = r.number(1) if bits >> 9 & 1 else 0
        yield start, end, "=" if not bits & 1 else "+" if bits & 128 else ".", txt, decimals, value


def lattice(line):
    answer = model.add_numbers(line.encode(), MARKED, given(), True, with_decimals=True)
    return ", ".join(f"{a}-{z}{mark}{txt.decode()}" + f"/{k}" * (k > 0) for a, z, mark, txt, k, _ in edges_of(answer))


# ---- 02's words and their readings
BASE_ALONE = table(PLAIN + [record("甲", b"base", None, None, 100)])
ODD_BASE = table(PLAIN + [record("甲", b"base", None, 33, 33)])
POINT_RECORD = table(PLAIN + [record(".", b"x", b".", None, None)], LISTS)
ASCII_DIGITS = table(PLAIN + [record(c, b"digit", c.encode(), int(c), 1) for c in "0123456789"], LISTS)
NINES = "九零零七一九九二五四七四零九九"
PASSES = [
    ("一.五", "0-3 1.5"), ("一.", "0-1 1"), (".五", "1-2 5"), ("一..五", "0-1 1, 3-4 5"), ("一.x五", "0-1 1, 3-4 5"), ("一．五", "0-1 1, 2-3 5"),
    ("零一.五零", "0-5 1.50"), ("一二三.四五六", "0-7 123.456"), ("一.二.三", "0-3 1.2, 4-5 3"), ("一.二.三.四", "0-3 1.2, 4-7 3.4"),
    # "A sixteenth decimal stays outside."
    ("零." + "一" * 15, "0-17 0." + "1" * 15), ("零." + "一" * 16, "0-17 0." + "1" * 15 + ", 17-18 1"), ("零." + "一" * 16 + ".五", "0-17 0." + "1" * 15 + ", 17-20 1.5"),
    # "7 covers the digits too"
    ("九." + NINES[1:] + "一", "0-17 9.007199254740991"), ("九." + NINES[1:] + "一一", "0-17 9.007199254740991, 17-18 1"), ("九." + NINES[1:] + "二", "7 at 0"),
    ("x" + NINES + "一.五", "7 at 1"), (NINES + ".一", "0-17 900719925474099.1"), (NINES + ".二", "7 at 0"),
    # G1 asks a value of at least 1, G3 does not; the product is whole or there is no join
    ("二.五千", "0-4 2500"), ("一.零百", "0-4 100"), ("零.五百", "0-3 0.5, 3-4 100"), ("零.五万", "0-4 5000"), ("零.零万", "0-4 0"), ("一.二三十", "0-4 1.23, 4-5 10"),
    ("一.二三百", "0-5 123"), ("一.五万五", "0-5 20000"), ("一.五百二十", "0-6 170"), ("一.五百万", "0-5 1500000"), (NINES + ".一億", "7 at 0"),
    # no rule takes it on the right, and G2 and G4 not at all
    ("一百一.五", "0-2 100, 2-5 1.5"), ("一万一.五", "0-2 10000, 2-5 1.5"), ("万一.五", "0-1 10000, 1-4 1.5"), ("一.五零", "0-4 1.50"), ("一.五一", "0-4 1.51"),
]
ODD = [
    (BASE_ALONE, "一.五甲", "0-4 0"), (ODD_BASE, NINES + ".一甲", "0-17 900719925474099.1, 17-18 33"), (ODD_BASE, NINES + ".零甲", "7 at 0"),
    (POINT_RECORD, "一.五", "0-1 1, 1-2 none, 2-3 5"), (ASCII_DIGITS, "1.5", "0-3 1.5"), (ASCII_DIGITS, "一.5", "0-3 1.5"),
]
STAGES = [
    ("百%一.五", "0-1+100, 2-3+1, 4-5+5, 2-5.1.5/1, 1-5=1.5%"), ("一分之二.五", "0-1+1, 3-4+2, 5-6+5, 3-6+2.5/1"), ("-一.五", "1-2+1, 3-4+5, 1-4+1.5/1, 0-4=-1.5"),
    ("一零零.零分之三", "0-1+1, 1-2.0, 2-3.0, 4-5+0, 7-8+3, 0-5+100.0/1, 1-2+·0, 2-3+·0"), ("百一.五", "0-1+100, 1-2.1, 3-4+5, 1-4.1.5/1, 1-2+·1, 1-4+·1.5/1"),
    ("二.五分之一", "0-1+2, 2-3+5, 5-6+1, 0-3+2.5/1"),
]


def examples():
    told = [(line, fifth(line), words) for line, words in PASSES] + [(line, fifth(line, t), words) for t, line, words in ODD] + [(line, lattice(line), words) for line, words in STAGES]
    for line, got, words in told:
        if got != words:
            sys.exit(f"{line}: {got}, and not {words}")
    return len(told)


# ---- cases
def random_records(rng):
    records = [r for r in PLAIN if rng.random() < 0.95]
    if rng.random() < 0.4:
        records += [record(c, b"digit", c.encode(), int(c), rng.choice((1, 1, None))) for c in "0123456789" if rng.random() < 0.9]
    for c in "甲乙丙":
        if rng.random() < 0.5:
            value = rng.choice((None, 0, 1, 5, 12, 33, 100, 625, 2**20, 5**20, 10**15, TOP))
            rom = None if value is None or rng.random() < 0.3 else b"%d" % value
            base = rng.choice((None, 1, 2, 10, 100, 1000, 10000, TOP))
            records.append(record(c, rng.choice((b"digits", b"base", b"large", b"x")), rom, value, base, None, rng.random() < 0.4))
    if rng.random() < 0.15:
        digit = rng.random() < 0.5
        records.append(record(".", b"digit" if digit else rng.choice((b"base", b"x")), b"7" if digit else b".", 7 if digit else rng.choice((None, 5, 100)), rng.choice((None, 1, 100))))
    return records


def random_line(rng, records):
    characters = [chr(c) for c, _ in records] or ["一"]
    digits = [c for c in characters if c in "零一二三四五六七八九0123456789"] or ["一"]
    many = lambda most: "".join(rng.choice(digits) for _ in range(rng.randint(1, most)))
    pieces = (
        [lambda: many(3)] * 4 + [lambda: rng.choice(("", many(2))) + "." + many(rng.choice((1, 1, 2, 3, 14, 17)))] * 4 + [lambda: rng.choice("十百千万億兆甲乙丙")] * 5
        + [lambda: rng.choice(characters)] * 2 + [lambda: rng.choice(("%", "％", "分之", "/", "+", "-", "－", "負", "百%", "百分之"))] * 2 + [lambda: rng.choice((".", "..", "．", "x", "é", "7"))]
        + [lambda: rng.choice((NINES, NINES[:1] + "." + NINES[1:])) + rng.choice(("一", "二", ".一", ".二", "零"))] * (rng.random() < 0.2)
    )
    return "".join(rng.choice(pieces)() for _ in range(rng.choice((1, 2, 3, 3, 4, 4, 6, 10, 40))))[:256]


def random_case(rng):
    records = random_records(rng)
    line = random_line(rng, records)
    edges = []
    for _ in range(rng.choice((0, 0, 0, 1, 3)) if line else 0):
        a = rng.randrange(len(line))
        z = rng.randint(a + 1, min(len(line), a + 5))
        edges.append((a, z, rng.choice((b"D1", b"G1", b"G3", b"D1 -", b"digit", b"rom", b"q")), rng.choice((b"1.5", b"1", b"5", b"-1.5", b"1.5%", "·1.5".encode(), line[a:z].encode()))))
    return line.encode(), table(records, LISTS if rng.random() < 0.8 else ((), (), (), ())), given(*edges)


def without_point(case):
    return b"." not in case[0] or model.POINT in model.read_table(case[1])[1]


# ---- the model itself
def digit_rows(w, records, points):
    """Start, end, digits and decimals of D1's edges, by a regular expression."""
    digit = lambda c: c in records and records[c]["type"] == b"digit" and records[c]["value"] is not None and records[c]["value"] <= 9
    kinds = "".join("d" if digit(c) else "." if p in points else "x" for p, c in enumerate(w))
    for row in re.finditer(r"d+(?:\.d{1,15})?", kinds):
        if row.end() - row.start() > 1:
            said = [records[c]["value"] for p, c in enumerate(w) if row.start() <= p < row.end() and p not in points]
            point = row.group().find(".")
            yield row.start(), row.end(), int("".join(map(str, said))), 0 if point < 0 else len(row.group()) - point - 1


def check(count, seed):
    rng, decimals, agreed, refused, told = random.Random(seed), 0, 0, 0, examples()
    for _ in range(count):
        case = random_case(rng)
        w, (_, records) = model.chars(case[0]), model.read_table(case[1])
        points = model.point_places(records, w)
        _, added = model.five_lists(records, w, points)
        digits = [e for e in added if e["type"] == b"D1"]
        answer = model.add_numbers(*case, True, with_decimals=True)
        same = [(e["start"], e["end"], e["value"], e["decimals"]) for e in digits] == list(digit_rows(w, records, points))
        for e in digits:
            listed = model.listed_edge(e)["num"]["value"]
            same = same and e["txt"] == e["value_s"] and e["orig"].decode() == case[0].decode()[e["start"] : e["end"]]
            same = same and (e["value"] > TOP or listed == float(e["txt"]) and len(e["txt"].partition(b".")[2]) == e["decimals"])
        if without_point(case):
            same = same and answer == model.add_numbers(*case, True)
            agreed += 1
        if not same:
            sys.exit("differs: " + " ".join(s.hex() for s in case))
        decimals, refused = decimals + sum(e["decimals"] > 0 for e in digits), refused + (len(answer) == 5)
    print(f"{told} examples; {count} cases, {refused} refused, {decimals} edges with decimals; {agreed} without a point agree with the first call; no difference")
    return count == 0


# ---- the library
def run(path, count, seed):
    library, rng, out = ctypes.CDLL(path), random.Random(seed), ctypes.create_string_buffer(OUT)
    listings = decimals = agreed = refused = 0
    for i in range(count):
        case = random_case(rng)
        first, answer = (call(f, case, out) for f in (library.rilvostam_add_numbers, library.rilvostam_add_numbers_with_decimals))
        alone = without_point(case)
        if answer != model.add_numbers(*case, True, with_decimals=True) or first != model.add_numbers(*case, True) or alone and answer != first:
            print("case", i, "differs:", *(s.hex() for s in case))
            return 1
        counts = [] if len(answer) == 5 else [k for *_, k, _ in edges_of(answer) if k]
        listings, decimals, agreed, refused = listings + (counts != []), decimals + len(counts), agreed + alone, refused + (len(answer) == 5)
    print(f"{count} cases, {refused} refused; {decimals} edges with decimals in {listings} listings; {agreed} without a point agree with the first call; no difference")
    return count == 0


# ---- the vectors
FULL, LEAST = 32768, 65536
SHARES = PLAIN + [record(c, b"digit", c.encode(), int(c), 1) for c in "0123456789"], (("百分之", "%"), ("分之",), ("+",), ("-",))
SURROGATE = bytes.fromhex("0100 00000000 00d80000 00 00")


def needed(line, records=PLAIN, lists=LISTS):
    """The table with the records that the line asks for, so that a row is short."""
    return table([r for r in records if chr(r[0]) in line], lists)


def cases():
    """Line, table, given edges, bytes of output and work space, words, and the refusal where a check of 1 to 6 finds one."""
    for line, _ in PASSES + STAGES:
        yield line.encode(), needed(line), given(), FULL, LEAST, line, None
    for bytes_, line, words in ODD:
        yield line.encode(), bytes_, given(), FULL, LEAST, f"{line}: {words}", None
    accepted = (
        ("", given(), "the empty line"), ("一五", given(), "no point: as the first call"), ("一万五", given(), "no point: as the first call"), ("." * 256, given(), "256 points"),
        ("一.五", given((0, 3, b"D1", b"1.5")), "a given edge in its stead stays"), ("一.五", given((0, 3, b"q", b"1.5")), "a given edge of another type stays beside it"),
        ("-一.五", given((1, 4, b"q", b"z")), "a given edge of its span: the sign's edge all the same"), ("百%一.五", given((0, 2, b"q", b"z")), "a longer given edge hides 百"),
        ("1.5", given(), "no records: the fallback's digits"), ("百-一.五%二.五", given(), "signs and markers"), ("九" * 17, given(), "7 as from the first call"),
        ("一.五百" * 64, given(), "64 numbers with decimals"), ("一.五" + "億一零百一兆一十" * 31, given(), "8: over 1,024 edges"),
    )
    for line, edges, words in accepted:
        yield line.encode(), needed(line), edges, FULL, LEAST, words, None
    shares = (
        ("百分之1.5", "a percentage marker's own rule has the txt"), ("百分之100.0", "100.0 is no right value either"), ("100.0分之3", "100.0 is not left 100"), ("100分之3", "100 is"),
    )
    for line, words in shares:
        yield line.encode(), needed(line, *SHARES), given(), FULL, LEAST, words, None
    half, few = "一.五".encode(), needed("一.五")
    size = len(model.add_numbers(half, few, given(), True, with_decimals=True))
    yield half, few, given(), size, LEAST, "an output as long as the listing", None
    yield half, few, given(), size - 1, LEAST, "8: a byte less", None
    yield ("九." + NINES[1:] + "二").encode(), needed(NINES + "二"), given(), 0, LEAST, "7 before 8", None
    yield b"\xff", b"", b"", 0, LEAST - 1, "1 before all others", (1, 0)
    yield half + b"\xe4\xb8", b"", b"", 0, LEAST, "2", (2, 7)
    yield b"." * 257, b"", b"", 0, LEAST, "3", (3, 256)
    yield half, b"", b"", 0, LEAST, "4", (4, 0)
    yield half, SURROGATE, b"", 0, LEAST, "5", (5, 6)
    yield half, few, b"", 0, LEAST, "6", (6, 0)
    yield half, few, given((0, 4, b"q", b"1")), 0, LEAST, "6: an edge past the line", (6, 2)
    yield half, few, b"\x01\0\0\x02" + given((0, 3, b"q", b"1"))[4:] + b"\x01", FULL, LEAST, "6: decimals of a given edge", (6, 2)


def shown(answer):
    if len(answer) == 5:
        return " refused %d %d" % struct.unpack("<BI", answer)
    return "".join(f" {a}-{z}{mark}{txt.decode()}" + (f"/{k}:{value}" if k else "") for a, z, mark, txt, k, value in edges_of(answer))


def vectors(directory):
    with open(directory + "/stdin", "w", encoding="utf-8") as rows, open(directory + "/stdout", "w", encoding="utf-8") as answers:
        for *case, out, work, words, refused in cases():
            both = [struct.pack("<BI", *refused)] * 2 if refused else [model.add_numbers(*case, True, with_decimals=d) for d in (False, True)]
            both = [struct.pack("<BI", 8, 0) if len(a) != 5 and len(a) > out else a for a in both]
            print(*(s.hex() for s in case), struct.pack("<H", out).hex(), struct.pack("<H", work - 1).hex(), words, file=rows)
            print("first:" + shown(both[0]) + ", with decimals:" + shown(both[1]), words, file=answers)


if __name__ == "__main__":
    if len(sys.argv) == 4 and sys.argv[1] == "check":
        sys.exit(check(int(sys.argv[2]), int(sys.argv[3])))
    if len(sys.argv) == 5 and sys.argv[1] == "run":
        sys.exit(run(sys.argv[2], int(sys.argv[3]), int(sys.argv[4])))
    if len(sys.argv) == 3 and sys.argv[1] == "vectors":
        sys.exit(vectors(sys.argv[2]))
    sys.exit(__doc__)
