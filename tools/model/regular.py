#!/usr/bin/env python3
"""Regular tables, and numerals by the grammar of any table, written once more in Python, and held against the library on tables and lines made at random.

usage: regular.py run LIBRARY COUNT SEED     LIBRARY is librilvostam as a shared object; tools/compare/regular makes it and runs this
       regular.py lists COUNT SEED           the same against the lists of tools/model/model.py, without the library
       regular.py vectors [answers]          the tables that the program regular_vectors reads; what it must write

It shares nothing with the definitions in crates/ but the documents. It proves nothing: it looks for a definition that says something else than they do.
"""
import ctypes
import random
import sys

import model
import reading

NONE = 2**64 - 1
TOP = 2**53 - 1
GAPS = (0x96F6, 0x3007)


# ---- regular tables
def kind(c, r):
    """The kind of the record r of the code point c, or None where it is of none of the four."""
    value, base, large = r["value"], r["base"], r["large"]
    if r["type"] == b"digit" and value is not None and value <= 9 and base == 1 and not large:
        return "digit"
    if value is not None and value >= 10 and base is not None and base >= 2:
        if large:
            return "large"
        if base <= value and c not in GAPS:
            return "unit"
    if value is None and (base is None or base <= 1 or large) and c not in GAPS:
        return "other"
    return None


# ---- the grammar
def atoms(stretch):
    """The atoms of a stretch of digits and units: (value, base, is a lone 零 or 〇, the digit where it is a single one, script). Which they are is never in doubt."""
    found, i = [], 0
    while i < len(stretch):
        run = []
        while i < len(stretch) and kind(*stretch[i]) == "digit":
            run.append(stretch[i])
            i += 1
        value = int("".join(str(r["value"]) for _, r in run)) if run else None
        unit = stretch[i][1] if i < len(stretch) else None
        if run and unit and value >= 1:
            found.append((value * unit["value"], unit["base"], False, 0, unit["script"]))
            i += 1
        elif run:
            lone = len(run) == 1
            found.append((value, 1, lone and run[0][0] in GAPS, value if lone else 0, run[-1][1]["script"]))
        else:
            found.append((unit["value"], unit["base"], False, 0, unit["script"]))
            i += 1
    return found


def small(stretch):
    """(value, base, the digit where it is a single one, script), or None."""
    parts = atoms(stretch)
    for k in range(1, len(parts)):
        earlier = [p[1] for p in parts[:k] if not p[2]]
        if not earlier or parts[k][0] >= earlier[-1] or parts[k][1] >= earlier[-1]:
            return None
    return sum(p[0] for p in parts), parts[-1][1], parts[0][3] if len(parts) == 1 else 0, parts[-1][4]


def is_high(base, script):
    return script == b"CJK" and base >= 1000 and str(base).strip("0") == "1"


def numeral(records, w):
    """The value of the numeral that the code points w are by the records' grammar, or None."""
    if not w or any(c not in records or kind(c, records[c]) in (None, "other") for c in w):
        return None
    total, before, stretch = 0, None, []
    for c in [*w, None]:
        if c is not None and kind(c, records[c]) != "large":
            stretch.append((c, records[c]))
            continue
        if c is None and not stretch:
            return total
        found = small(stretch) if stretch else None
        if stretch and found is None:
            return None
        if c is None:
            value, base, single, script = found
            if before and single and is_high(*before):
                value, base = single * (before[0] // 10), before[0] // 10
        else:
            r = records[c]
            value, base, script = found[0] * r["value"] if found else r["value"], r["base"], r["script"]
        if before and (value >= before[0] or base >= before[0]):
            return None
        total, before, stretch = total + value, (base, script), []
    return total


# ---- tables
def short(text):
    return bytes([len(text)]) + text


def record_bytes(c, r):
    out = c.to_bytes(4, "little")
    out += bytes([sum((r[f] is not None) << i for i, f in enumerate(("rom", "value", "fraction", "base", "mult", "script"))) | r["large"] << 6])
    out += short(r["type"]) + (short(r["rom"]) if r["rom"] is not None else b"")
    for n in (r["value"], *(r["fraction"] or ()), r["base"], r["mult"]):
        out += n.to_bytes(8, "little") if n is not None else b""
    return out + (short(r["script"]) if r["script"] is not None else b"")


def table_bytes(records):
    return len(records).to_bytes(2, "little") + bytes(4) + b"".join(record_bytes(c, records[c]) for c in sorted(records))


def first_irregular(records):
    """The offset of the first record of none of the four kinds, or NONE."""
    at = 6
    for c in sorted(records):
        if kind(c, records[c]) is None:
            return at
        at += len(record_bytes(c, records[c]))
    return NONE


def record(type, value, base, large=False, script=b"CJK", fraction=None):
    rom = str(value).encode() if type == b"digit" and value is not None and value <= 9 else None
    return {"type": type, "rom": rom, "value": value, "fraction": fraction, "base": base, "mult": None, "script": script, "large": large}


NUMBERS = (2, 3, 9, 10, 11, 12, 20, 50, 99, 100, 101, 999, 1000, 1001, 5000, 10000, 100000, 10**6, 10**8, 10**12)


def random_record(rng, c):
    """A record of one of the four kinds; where 零 or 〇 may not be of it, a digit."""
    script = rng.choice((b"CJK", b"CJK", b"CJK", b"Latn", None))
    which = rng.choice(("digit", "digit", "unit", "unit", "large", "other"))
    if which == "digit" or c in GAPS and which != "large":
        return record(b"digit", rng.choice((0, 0, 1, rng.randrange(10))), 1, script=script)
    value = rng.choice([n for n in NUMBERS if n >= 10])
    type = rng.choice((b"base", b"digit", b""))
    if which == "unit":
        return record(type, value, rng.choice([n for n in NUMBERS if n <= value] + [value] * 8), script=script)
    if which == "large":
        return record(type, value, rng.choice((*NUMBERS, *[value] * 20)), True, script)
    large = rng.random() < 0.3
    return record(type, None, rng.choice((*NUMBERS, None) if large else (1, None)), large, script, rng.choice((None, (1, 2))))


def random_table(rng):
    """The records of a regular table."""
    codes = rng.sample((*GAPS, *range(0x30, 0x34), *range(0x4E00, 0x4E10)), rng.randrange(1, 9))
    return {c: random_record(rng, c) for c in codes}


def changed(rng, records):
    """The same with one field of one record changed: mostly no regular table."""
    c = rng.choice(list(records))
    field, other = rng.choice((("value", rng.choice((None, 0, 5, 9, 10, 11))), ("base", rng.choice((None, 1, 2, 10, 11, 10**6))), ("large", rng.random() < 0.5), ("type", rng.choice((b"digit", b"base")))))
    r = {**records[c], field: other}
    return {**records, c: {**r, "rom": record(r["type"], r["value"], 1)["rom"]}}


def random_line(rng, records):
    codes = list(records)
    w = [rng.choice(codes) for _ in range(rng.choice((1, 2, 2, 3, 3, 4, 5, 6, 8, 12)))]
    if rng.random() < 0.1:
        w.insert(rng.randrange(len(w) + 1), 0x78)
    return w


# ---- runs
def whole(edges, w):
    """The value of the one valued edge over all places, where the list is that."""
    one = edges[0] if len(edges) == 1 else None
    return one["value"] if one and (one["start"], one["end"]) == (0, len(w)) else None


class Library:
    def __init__(self, name):
        self.c, self.at = ctypes.CDLL(name), ctypes.c_uint64()
        self.work, self.out = ctypes.create_string_buffer(65536), ctypes.create_string_buffer(32768)

    def slice(self, data):
        return data, ctypes.c_size_t(len(data))

    def regular(self, table):
        return self.c.rilvostam_regular_table(*self.slice(table), ctypes.byref(self.at)), self.at.value

    def listing(self, line, table):
        status = self.c.rilvostam_add_numbers(
            *self.slice(line), *self.slice(table), *self.slice(bytes(2)), self.work, ctypes.c_size_t(65536), self.out, ctypes.c_size_t(32768), ctypes.byref(self.at))
        return status, self.out.raw[: self.at.value] if status == 0 else self.at.value


def listed_value(listing, n):
    """The value of the edge over all places, from its f64: the last one listed that has one."""
    import struct

    value = None
    for e in reading.check_listing(listing, n):
        if e["numeric"] and (e["start"], e["end"]) == (0, n):
            data = listing[e["at"] : e["next"]]
            if int.from_bytes(data[:2], "little") >> 1 & 1:
                at = 6
                for _ in range(3):
                    at += 2 + int.from_bytes(data[at : at + 2], "little")
                value = struct.unpack_from("<d", data, at)[0]
    return value


def compare(count, seed, library):
    rng, numerals, above, irregular = random.Random(seed), 0, 0, 0
    for case in range(count):
        records = random_table(rng)
        w, table = random_line(rng, records), table_bytes(records)
        want = numeral(records, w)
        lists, added = model.five_lists(records, w)
        if whole(lists[-1], w) != want:
            sys.exit(f"case {case}: {whole(lists[-1], w)}, not {want}: {table.hex()} {w}")
        numerals += want is not None
        refused = model.above_at(added)
        above += refused is not None
        if library:
            other = changed(rng, records)
            for t, rs in ((table, records), (table_bytes(other), other)):
                if library.regular(t) != (0, first_irregular(rs)):
                    sys.exit(f"case {case}: {library.regular(t)}, not {first_irregular(rs)}: {t.hex()}")
            irregular += first_irregular(other) != NONE
            status, listing = library.listing("".join(map(chr, w)).encode(), table)
            if (status, listing) != (7, refused) if refused is not None else status or listed_value(listing, len(w)) != want:
                sys.exit(f"case {case}: the call answers {status} {listing}, not {want}: {table.hex()} {w}")
    print(f"{count} regular tables and lines, {numerals} of them numerals, {above} above TOP; {irregular} other tables not regular: no difference")


# ---- the program regular_vectors
def tables():
    digit, unit, large = (lambda v: record(b"digit", v, 1)), (lambda v, b: record(b"base", v, b)), (lambda v, b: record(b"large", v, b, True))
    x, zero, circle = 0x78, *GAPS
    other = lambda base=None, big=False: record(b"", None, base, big, fraction=(1, 2))
    plain = model_table("data/plain.table")
    yield plain, "the plain table"
    yield model_table("data/formal.table"), "the formal table"
    yield bytes(6), "the empty table"
    for r, name in (
        (digit(0), "digit 0"), (digit(9), "digit 9"), (record(b"digit", 10, 1), "digit 10"), (record(b"base", 5, 1), "a digit of another type"),
        (record(b"digit", 5, 2), "a digit of base 2"), (record(b"digit", 5, None), "a digit without base"), (record(b"digit", 5, 1, True), "a digit that is a large power"),
        (unit(9, 9), "a unit of value 9"), (unit(5, 5), "a unit of value 5"), (unit(10, 10), "a unit of value 10"), (unit(10, 1), "a unit of base 1"), (unit(10, 2), "a unit of base 2"),
        (unit(20, 10), "a unit of value 20 and base 10"), (unit(10, 11), "a unit whose base is above its value"), (record(b"base", 10, None), "a unit without base"),
        (record(b"digit", 10, 10), "a unit of type digit"), (unit(TOP, TOP), "a unit of value and base TOP"),
        (large(9, 9), "a large power of value 9"), (large(10, 10), "a large power of value 10"), (large(10, 1), "a large power of base 1"), (large(10, 2), "a large power of base 2"),
        (large(10, 11), "a large power whose base is above its value"), (record(b"large", 10, None, True), "a large power without base"),
        (other(), "no value"), (other(1), "no value, base 1"), (other(2), "no value, base 2"), (other(2, True), "no value, base 2, a large power"),
        (record(b"digit", None, None), "type digit without value"), (record(b"", 5, None), "a value alone"), (record(b"", 0, None), "the value 0 alone"),
    ):
        yield table_bytes({x: r}), name
    for c, name in ((zero, "零"), (circle, "〇")):
        for r, of in ((digit(0), "digit 0"), (digit(5), "digit 5"), (unit(10, 10), "unit"), (large(10000, 10000), "large power"), (other(), "record without value")):
            yield table_bytes({c: r}), f"{name} as a {of}"
    yield table_bytes({0x61: digit(1), 0x62: unit(5, 5), 0x63: other(2)}), "the second and the third of three"
    yield table_bytes({0x61: digit(1), 0x62: unit(10, 10), 0x63: other(2)}), "the third of three"
    yield plain + b"\0", "a byte behind the plain table"
    yield plain[:-1], "the plain table cut off"
    yield table_bytes({x: unit(5, 5)})[:-1], "a cut record comes before its kind"
    yield table_bytes({0x61: unit(5, 5), 0x62: record(b"", 5, 0)}), "a base of 0 behind a unit of value 5"
    yield b"", "no bytes"


def model_table(name):
    import lists

    with open(name, encoding="utf-8") as f:
        return lists.table_bytes(f.read())


def told(table):
    """The answer for a table of the vectors; the faults of the last few are 01's."""
    if table == b"":
        return "refused 4 0"
    records, at, count = {}, 2, int.from_bytes(table[:2], "little")
    for _ in range(4):
        strings, at = table[at], at + 1
        for _ in range(strings):
            at += 1 + table[at]
    first = None
    for _ in range(count):
        c, bits, end = int.from_bytes(table[at : at + 4], "little"), table[at + 4], at + 5
        r, end = {"type": table[end + 1 : end + 1 + table[end]], "large": bool(bits >> 6)}, end + 1 + table[end]
        for i, f in enumerate(("rom", "value", "fraction", "base", "mult", "script")):
            r[f] = None
            if bits >> i & 1:
                size = 1 + table[end] if f in ("rom", "script") and end < len(table) else 16 if f == "fraction" else 8
                r[f], end = int.from_bytes(table[end : end + size], "little") if size == 8 else b"", end + size
        if end > len(table):
            return f"refused 4 {at}"
        if r["base"] == 0:
            return f"refused 5 {at}"
        if kind(c, r) is None and first is None:
            first = at
        at = end
    if at < len(table):
        return f"refused 4 {at}"
    return "regular" if first is None else f"not regular {first}"


def vectors(answers):
    for table, name in tables():
        print(told(table) if answers else table.hex(), name)


def main():
    if sys.argv[1] == "vectors":
        vectors(sys.argv[2:] == ["answers"])
    elif sys.argv[1] == "lists":
        compare(int(sys.argv[2]), int(sys.argv[3]), None)
    else:
        compare(int(sys.argv[3]), int(sys.argv[4]), Library(sys.argv[2]))


if __name__ == "__main__":
    main()
