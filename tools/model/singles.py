#!/usr/bin/env python3
"""Singles that may not stand (02, S-12): the call without them, by the definitions in tools/model/model.py.

usage: singles.py run LIBRARY COUNT SEED    rilvostam_add_numbers_without_singles of a shared library against the model on COUNT random cases, every byte of the answer; and
                                            against rilvostam_add_numbers: the same refusals, and the same bytes but for active bits
       singles.py vectors DIRECTORY         writes stdin and stdout of crates/singles_vectors
"""
import ctypes
import random
import struct
import sys
from pathlib import Path

import model
from lists import table_bytes

SEVEN = "兩参參伍陆陸什"
WORK, OUT = 65536, 32768
PLAIN_TEXT = Path(__file__).resolve().parents[2] / "data" / "plain.table"


# ---- cases
def record(c, kind, rom=None, value=None, base=None, mult=None, large=False):
    bits, rest = large << 6, b""
    for bit, field, put in ((0, rom, lambda t: bytes([len(t)]) + t), (1, value, lambda v: struct.pack("<Q", v)), (3, base, lambda v: struct.pack("<Q", v)), (4, mult, lambda v: struct.pack("<Q", v))):
        if field is not None:
            bits |= 1 << bit
            rest += put(field)
    return ord(c), struct.pack("<IB", ord(c), bits) + bytes([len(kind)]) + kind + rest


def table(records, lists=((), (), (), ())):
    records = [r for _, r in sorted(dict(records).items())]
    marks = b"".join(bytes([len(l)]) + b"".join(bytes([len(m.encode())]) + m.encode() for m in l) for l in lists)
    return struct.pack("<H", len(records)) + marks + b"".join(records)


def given(*edges):
    return struct.pack("<H", len(edges)) + b"".join(struct.pack("<HHH", 0, a, z) + model.string(kind) + model.string(txt) for a, z, kind, txt in edges)


MARKS = ((), ("分之",), ("+",), ("-",))
DIGITS = [record(c, b"digit", b"%d" % i, i, 1) for i, c in enumerate("零一二三四五六七八九")]
PLAIN = DIGITS + [record("十", b"base", b"10", 10, 10), record("百", b"base", b"100", 100, 100), record("千", b"base", b"1000", 1000, 1000), record("万", b"large", b"10000", 10000, 10000, large=True)]


def random_case(rng):
    records = [r for r in PLAIN if rng.random() < 0.9]
    for c in SEVEN + "甲乙":
        value = rng.choice((None, 0, 5, 999, 1000, 1001, 10000, 2**53 - 1))
        if rng.random() < 0.8:
            rom = None if value is None or rng.random() < 0.3 else b"%d" % value
            base = rng.choice((None, 1, 10, 10000))
            records.append(record(c, rng.choice((b"digits", b"base", b"large", b"x")), rom, value, base, rng.choice((None, 1)), rng.random() < 0.3))
    line = "".join(rng.choice("一五十千万" + SEVEN + "甲乙7x-分之") for _ in range(rng.randrange(9)))
    edges = []
    for _ in range(rng.randrange(3) if line else 0):
        a = rng.randrange(len(line))
        z = rng.randrange(a + 1, min(len(line), a + 2) + 1)
        edges.append((a, z, rng.choice((b"large", b"base", b"q", b"digits")), rng.choice((b"1", b"10000", b"1001", line[a:z].encode(), "·10000".encode()))))
    return line.encode(), table(records, MARKS), given(*edges)


# ---- the library
def call(function, case, out):
    at = ctypes.c_uint64()
    work = ctypes.create_string_buffer(WORK)
    pairs = [x for s in case for x in (ctypes.c_char_p(s), ctypes.c_size_t(len(s)))]
    status = function(*pairs, work, ctypes.c_size_t(WORK), out, ctypes.c_size_t(OUT), ctypes.byref(at))
    return struct.pack("<BI", status, at.value) if status else out.raw[: at.value]


def active_bits(before, after):
    """How many edges lost their active bit; None where another byte differs."""
    if len(before) == 5 or len(before) != len(after):
        return 0 if before == after else None
    turned = [(a, b) for a, b in zip(before, after) if a != b]
    return len(turned) if all(a & 1 and a ^ b == 128 and a & 128 for a, b in turned) else None


def run(path, count, seed):
    library, rng, out = ctypes.CDLL(path), random.Random(seed), ctypes.create_string_buffer(OUT)
    lines = bits = refused = 0
    for i in range(count):
        case = random_case(rng)
        first, second = (call(f, case, out) for f in (library.rilvostam_add_numbers, library.rilvostam_add_numbers_without_singles))
        turned = active_bits(first, second)
        if turned is None or first != model.add_numbers(*case, True) or second != model.add_numbers(*case, True, True):
            print("case", i, "differs:", *(s.hex() for s in case))
            return 1
        lines, bits, refused = lines + (turned > 0), bits + turned, refused + (len(first) == 5)
    print(f"{count} cases, {refused} refused; {bits} bits turned on {lines} lines; no difference")
    return count == 0


# ---- the vectors
def cases():
    for value in (5, None):
        for c in SEVEN:
            yield c, table([record(c, b"base", None, value, 1)]), given(), f"{c} with " + ("value 5" if value else "no value")
    plain = table(PLAIN, MARKS)
    one = lambda value: table([record("甲", b"x", None, value, 1)])
    yield from (
        ("五", plain, given(), "五 stays"), ("千", plain, given(), "千 is 1000 and stays"), ("万", plain, given(), "万 may not stand"), ("", plain, given(), "the empty line"),
        ("甲", one(1000), given(), "1000"), ("甲", one(1001), given(), "1001"), ("甲", one(2**53 - 1), given(), "TOP"), ("甲", one(None), given(), "no value, and none of the seven"),
        ("五万", plain, given(), "a joined edge of two places stays, and so does the copy of a 万 that was joined"),
        ("万分之一", plain, given(), "the fraction stays"), ("-万", plain, given(), "the sign's edge stays"), ("万万", plain, given(), "both 万, and F1's copy of the second"),
        ("x万", plain, given((0, 1, b"q", b"1")), "F1's copy behind a given edge"), ("伍伍", table([record("伍", b"base", b"5", 5, 1)]), given(), "伍 and F1's copy"),
        ("万", plain, given((0, 1, b"large", b"10000")), "a given edge in its stead stays"), ("万", plain, given((0, 1, b"q", b"10000")), "a given edge of another type stays beside it"),
        ("7", plain, given(), "the fallback's digit"), ("7", table([record("7", b"x", b"7", 7000, 1)]), given(), "an ASCII digit above 1000: no fallback's edge"),
        ("京兆", table([record("京", b"base", None, 1, 1), record("兆", b"base", None, 1, 1)]), given(), "京兆 never applies"),
        ("九九九九九九九九九九九九九九九九九", plain, given(), "refused 7 alike"), ("一百" * 128, table_bytes(PLAIN_TEXT.read_text(encoding="utf-8")), given(), "refused 8 alike"),
    )


def refused():
    """What the checks refuse, which the model does not make: the number and place that 01 has for each."""
    plain = table(PLAIN, MARKS)
    yield b"\xff", plain, given(), (2, 0)
    yield b"x" * 257, plain, given(), (3, 256)
    yield b"x", b"\0\0", given(), (4, 2)
    yield b"x", table((), (("",), (), (), ())), given(), (5, 3)
    yield b"x", plain, given((0, 2, b"q", b"1")), (6, 2)


def shown(answer):
    if len(answer) == 5:
        return " refused %d %d" % struct.unpack("<BI", answer)
    r, words = model.Reader(answer), []
    for _ in range(r.number(2)):
        bits, start, end = r.number(2), r.number(2), r.number(2)
        words.append(f" {start}-{end}" + ("=" if not bits & 1 else "+" if bits & 128 else "."))
        r.string(2), r.string(2)
        if bits & 1:
            r.string(2)
        r.at += sum(size for bit, size in ((1, 8), (2, 16), (3, 8), (4, 8)) if bits >> bit & 1)
        for bit in (5, 8):
            if bits >> bit & 1:
                r.string(2)
    return "".join(words)


def vectors(directory):
    with open(directory + "/stdin", "w", encoding="utf-8") as rows, open(directory + "/stdout", "w", encoding="utf-8") as answers:
        def row(case, first, second, words):
            print(*(s.hex() for s in case), words, file=rows)
            print("first:" + shown(first) + ", second:" + shown(second), words, file=answers)

        for line, *lent, words in cases():
            case = line.encode(), *lent
            row(case, model.add_numbers(*case, True), model.add_numbers(*case, True, True), words)
        for *case, (number, place) in refused():
            row(case, *[struct.pack("<BI", number, place)] * 2, f"refused {number} alike")
        print("first: refused 1 0, second: refused 1 0 refused 1 alike", file=answers)  # no row: a work space that is a byte short


if __name__ == "__main__":
    if len(sys.argv) == 5 and sys.argv[1] == "run":
        sys.exit(run(sys.argv[2], int(sys.argv[3]), int(sys.argv[4])))
    if len(sys.argv) == 3 and sys.argv[1] == "vectors":
        sys.exit(vectors(sys.argv[2]))
    sys.exit(__doc__)
