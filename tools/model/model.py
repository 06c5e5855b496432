#!/usr/bin/env python3
"""The definitions of the call, written once more in Python and held against the old program's answers.

usage: model.py CASES ANSWERS             the files that `oracle gen` and `oracle answer` write (tools/oracle/README.md)
       model.py --ordered CASES OURS      the answers that tools/compare/numbers writes: in 01's order, not sorted

Names are those of crates/passes, paths, lattice and numbers, specs/: a reader can hold each function against its definition.
It answers what `oracle answer` answers: the listing sorted by start, end, type and txt, or 5 bytes for refusal 7 or 8. Cases that the oracle refuses
2 to 6 are passed over. It proves nothing: it looks for a definition that says something else than the Rust does. Wide characters are folded as 02's S-3 says, and the Rust
doesn't: `wide.py --without` leaves cases with them out.
"""
import struct
import sys
import unicodedata
from bisect import bisect_right
from functools import cache
from math import gcd

TOP = 2**53 - 1
FIVE = ("D1", "G1", "G2", "G3", "G4")
POINT = ord(".")
GAPS = ("零".encode(), "〇".encode())
BARRED = [c.encode() for c in "兩参參伍陆陸什"]


# ---- what is lent
class Reader:
    def __init__(self, data):
        self.data, self.at = data, 0

    def number(self, width):
        self.at += width
        return int.from_bytes(self.data[self.at - width : self.at], "little")

    def string(self, width):
        size = self.number(width)
        self.at += size
        return self.data[self.at - size : self.at]


def read_table(data):
    r = Reader(data)
    count = r.number(2)
    lists = [[r.string(1) for _ in range(r.number(1))] for _ in range(4)]
    records = {}
    for _ in range(count):
        code_point, bits = r.number(4), r.number(1)
        record = {"type": r.string(1), "large": bool(bits >> 6 & 1)}
        record["rom"] = r.string(1) if bits & 1 else None
        record["value"] = r.number(8) if bits >> 1 & 1 else None
        record["fraction"] = (r.number(8), r.number(8)) if bits >> 2 & 1 else None
        record["base"] = r.number(8) if bits >> 3 & 1 else None
        record["mult"] = r.number(8) if bits >> 4 & 1 else None
        record["script"] = r.string(1) if bits >> 5 & 1 else None
        records[code_point] = record
    return lists, records


def read_given(data):
    r = Reader(data)
    edges = []
    for _ in range(r.number(2)):
        r.number(2)
        start, end = r.number(2), r.number(2)
        edges.append(regular(start, end, r.string(2), r.string(2)))
    return edges


def chars(text):
    return [ord(c) for c in text.decode()]


# ---- crates/passes/specs
def lowest(fraction):
    divisor = gcd(*fraction)
    return fraction[0] // divisor, fraction[1] // divisor


def or_zero(number):
    return 0 if number is None else number


def char_edge(place, c, r):
    own = chr(c).encode()
    return {
        "start": place, "end": place + 1, "type": r["type"], "txt": own if r["rom"] is None else r["rom"], "orig": own,
        "value": r["value"], "fraction": lowest(r["fraction"]) if r["fraction"] else None, "base": r["base"], "mult": r["mult"],
        "script": r["script"], "large": r["large"], "active": True, "value_s": None, "decimals": 0,
    }


def gap(e):
    return e["orig"] in GAPS


def one_place(e):
    return e["end"] == e["start"] + 1


def digit_edge(e):
    return e["type"] == b"digit" and one_place(e) and e["value"] is not None and e["value"] <= 9


def power_of_ten(n):
    while n and n % 10 == 0:
        n //= 10
    return n == 1


def retags(l, e):
    base = or_zero(l["base"])
    return l["script"] == b"CJK" and base >= 1000 and power_of_ten(base) and one_place(e) and 1 <= or_zero(e["value"]) <= 9


def counted(l, e):
    if retags(l, e):
        tenth = or_zero(l["base"]) // 10
        return e["value"] * tenth, tenth
    return e["value"], e["base"]


def d1_rule(c, e):
    return (c["more"] or digit_edge(c["edge"])) and digit_edge(e)


def g1_rule(c, e):
    l = c["edge"]
    return not c["more"] and or_zero(l["base"]) == 1 and or_zero(l["value"]) >= 1 and or_zero(e["base"]) > 1 and not e["large"]


def g2_rule(c, e):
    l = c["edge"]
    if l["value"] is None or l["large"] or e["large"]:
        return False
    if c["near"] is None or e["value"] is None or e["base"] is None:
        return gap(e)
    return e["value"] < c["near"] and e["base"] < c["near"]


def g3_rule(c, e):
    l = c["edge"]
    return not c["more"] and l["value"] is not None and not l["large"] and e["value"] is not None and e["large"]


def g4_rule(c, e):
    l = c["edge"]
    value, base = counted(l, e)
    if l["value"] is None or value is None or base is None:
        return False
    return value < or_zero(l["base"]) and base < or_zero(l["base"])


RULES = {"D1": d1_rule, "G1": g1_rule, "G2": g2_rule, "G3": g3_rule, "G4": g4_rule}


def over(name, l, r, value, base, large):
    return {
        "start": l["start"], "end": r["end"], "type": name.encode(), "txt": str(value).encode(), "orig": l["orig"] + r["orig"],
        "value": value, "fraction": None, "base": base, "mult": None, "script": r["script"], "large": large, "active": True, "value_s": None, "decimals": 0,
    }


def joined(name, l, r):
    left, right = or_zero(l["value"]), or_zero(r["value"])
    if name == "D1":
        digits = l["txt"] + r["txt"]
        return over(name, l, r, 10 * left + right, 1, False) | {"txt": digits, "value_s": digits}
    if name == "G1":
        return over(name, l, r, left * right, r["base"], False)
    if name == "G2":
        return over(name, l, r, left + right, r["base"], False)
    if name == "G3":
        return over(name, l, r, left * right, r["base"], True)
    value, base = counted(l, r)
    return over(name, l, r, left + or_zero(value), base, False)


def nearest(e, near):
    return near if gap(e) else or_zero(e["base"])


# ---- crates/passes/specs/DecimalPasses (02, S-13): an edge's value is what its digits say, with the point left out; 0 decimals where there is no point
def point_places(records, w):
    """The places of a point, where that has no record."""
    return set() if POINT in records else {p for p, c in enumerate(w) if c == POINT}


def next_digit(c, e, points):
    l = c["edge"]
    if not d1_rule(c, e):
        return None
    if l["end"] == e["start"] and l["decimals"] < 15:
        return joined("D1", l, e) | {"decimals": l["decimals"] + 1 if l["decimals"] else 0}
    if l["end"] in points and l["end"] + 1 == e["start"] and not l["decimals"]:
        return joined("D1", l | {"txt": l["txt"] + b".", "orig": l["orig"] + b"."}, e) | {"decimals": 1}
    return None


def takes_decimal(name, c, e):
    """Whether G1 or G3 takes the chain's edge, which has decimals, on the left: by the exact product of the written decimal."""
    l, power = c["edge"], 10 ** c["edge"]["decimals"]
    if e["decimals"] or name not in ("G1", "G3") or name == "G1" and or_zero(l["value"]) < power:
        return False
    return RULES[name](c, e) and or_zero(l["value"]) * or_zero(e["value"]) % power == 0


def next_later(name, c, e):
    l = c["edge"]
    if l["end"] != e["start"]:
        return None
    if not l["decimals"] and not e["decimals"]:
        return joined(name, l, e) if RULES[name](c, e) else None
    if not takes_decimal(name, c, e):
        return None
    return over(name, l, e, or_zero(l["value"]) * or_zero(e["value"]) // 10 ** l["decimals"], e["base"], name == "G3")


def chains(name, edges, points):
    made = []
    for e in edges:
        c = made[-1] if made else None
        longer = None if c is None else next_digit(c, e, points) if name == "D1" else next_later(name, c, e)
        if longer:
            made[-1] = {"edge": longer, "more": True, "near": nearest(e, c["near"])}
        else:
            made.append({"edge": e, "more": False, "near": nearest(e, None)})
    return made


# ---- crates/lattice/specs
def regular(start, end, kind, txt):
    return {"start": start, "end": end, "type": kind, "txt": txt, "num": None}


def listed_edge(e):
    fields = ("orig", "value", "fraction", "base", "mult", "script", "large", "active", "value_s")
    num = {f: e[f] for f in fields} | {"decimals": e["decimals"] or None}
    if e["decimals"]:
        num["value"] = float(e["value"]) / float(10 ** e["decimals"])
    return regular(e["start"], e["end"], e["type"], e["txt"]) | {"num": num}


def key(e):
    return e["start"], e["end"], e["txt"], e["type"]


def add_all(edges, more):
    there = {key(e) for e in edges}
    edges = list(edges)
    for e in more:
        if key(e) not in there:
            there.add(key(e))
            edges.append(e)
    return edges


def inactive(e):
    return e | {"num": e["num"] | {"active": False}} if e["num"] else e


# ---- crates/paths/specs
def class_of(e):
    if e["num"]:
        return 5 if e["num"]["active"] else 1
    if e["type"].startswith(b"rom decomp"):
        return 3
    return 4 if e["type"].startswith((b"rom", b"num")) else 2


def best(edges, asked):
    """The index of the first edge of the highest score, or None."""
    scores = [(e["end"] - e["start"]) * 8 + class_of(e) if asked(e) else 0 for e in edges]
    return scores.index(max(scores)) if max(scores, default=0) else None


# ---- crates/numbers/specs
def fold(c):
    """02, S-3: what a character counts as where a marker or sign is compared with the line."""
    return c - 0xFEE0 if 0xFF01 <= c <= 0xFF5E else c


def stands_at(w, place, mark):
    mark = [fold(c) for c in chars(mark)]
    return [fold(c) for c in w[place : place + len(mark)]] == mark


def longest(w, place, marks):
    return max((len(chars(m)) for m in marks if stands_at(w, place, m)), default=0)


def made_at(lists, w, edges, place):
    """What the marker at a place leads to: a new edge and the indices of the edges that it uses, or None."""
    p, c = longest(w, place, lists[0]), longest(w, place, lists[1])
    if p == c == 0:
        return None
    percentage, size = (True, p) if c <= p else (False, c)
    i, j = best(edges, lambda e: e["end"] == place), best(edges, lambda e: e["start"] == place + size)
    l, r = (None if k is None else edges[k] for k in (i, j))
    value = lambda e: e["num"]["value"] if e and e["num"] and not e["num"]["decimals"] else None
    left, right = value(l), value(r)
    if left is not None and right is not None:
        if left == 100:
            return regular(l["start"], r["end"], b"percentage", b"%d%%" % right), [i, j]
        if not percentage and left != 0:
            txt = b"%d/%d" % (right, left)
            num = dict.fromkeys(("value", "base", "mult", "value_s", "decimals")) | {
                "orig": txt, "fraction": lowest((right, left)), "script": r["num"]["script"], "large": False, "active": True,
            }
            return regular(l["start"], r["end"], b"fraction", txt) | {"num": num}, [i, j]
    if percentage and r and r["num"]:
        return regular(place, r["end"], b"percentage", r["txt"] + b"%"), [j]
    return None


def fractions(lists, w, edges):
    made = [m for m in (made_at(lists, w, edges, p) for p in range(len(w))) if m]
    used = {i for _, indices in made for i in indices}
    return add_all([inactive(e) if i in used else e for i, e in enumerate(edges)], [e for e, _ in made])


def signs(lists, w, edges):
    for e in edges:
        for sign, marks in ((b"-", lists[3]), (b"+", lists[2])):
            for mark in marks if e["value"] is not None else ():
                start = e["start"] - len(chars(mark))
                if start >= 0 and stands_at(w, start, mark):
                    yield regular(start, e["end"], e["type"] + b" " + sign, sign + e["txt"])


@cache
def starts():
    """The first of each run of ten decimal digits, in rising order. Python's own Unicode may be older than 15.0, which added two runs."""
    zeros = {c for c in range(0x110000) if unicodedata.category(chr(c)) == "Nd" and unicodedata.digit(chr(c)) == 0}
    return sorted(zeros | {0x11F50, 0x1E4F0})


def digit_test(c):
    """Whether c is a decimal digit, and the count of starts compared: those not above c, and one more where one is above it (02, S-2)."""
    not_above = bisect_right(starts(), c)
    return not_above > 0 and c - starts()[not_above - 1] < 10, not_above + (not_above < len(starts()))


def is_digit(c):
    return digit_test(c)[0]


def apart(edges, some):
    """Which of some edges are apart in the lattice."""
    ends = {e["end"] for e in edges if e["txt"] and is_digit(chars(e["txt"])[-1])}
    return [e["num"] and e["txt"] and is_digit(chars(e["txt"])[0]) and e["start"] in ends for e in some]


def copies(edges, some):
    return [e | {"txt": (b" " if e["num"]["fraction"] else "·".encode()) + e["txt"]} for e, a in zip(some, apart(edges, some)) if a]


def separate(edges):
    return add_all([inactive(e) if a else e for e, a in zip(edges, apart(edges, edges))], copies(edges, edges))


def barred(e):
    return one_place(e) and (e["orig"] in BARRED or or_zero(e["value"]) > 1000)


def s12_singles(edges, fifth):
    """The lattice after F1 and the stage of 02, S-12; edges is the lattice before F1."""
    singles = [listed_edge(e) for e in fifth if barred(e)]
    silenced = {key(e) for e in singles + copies(edges, singles)}
    return [inactive(e) if key(e) in silenced else e for e in separate(edges)]


def fallback(edges, w):
    covered = {e["start"] for e in edges if e["num"] and one_place(e)}
    return [regular(p, p + 1, b"num", bytes([c])) for p, c in enumerate(w) if 48 <= c <= 57 and p not in covered]


# ---- crates/edge/specs
def string(text):
    return struct.pack("<H", len(text)) + text


def edge_bytes(e):
    bits, rest = 0, b""
    if n := e["num"]:
        bits, rest = 1 | n["large"] << 6 | n["active"] << 7, string(n["orig"])
        fields = (
            (1, "value", lambda v: struct.pack("<d", v)), (2, "fraction", lambda v: struct.pack("<QQ", *v)), (3, "base", lambda v: struct.pack("<Q", v)),
            (4, "mult", lambda v: struct.pack("<d", v)), (5, "script", string), (8, "value_s", string), (9, "decimals", lambda v: bytes([v])),
        )
        for bit, field, put in fields:
            if n[field] is not None:
                bits |= 1 << bit
                rest += put(n[field])
    return struct.pack("<HHH", bits, e["start"], e["end"]) + string(e["type"]) + string(e["txt"]) + rest


def five_lists(records, w, points=()):
    """D1's list and the lists after the five passes, and the joined edges in order; points are the places that D1 joins across (02, S-13)."""
    lists, added = [[char_edge(p, c, records[c]) for p, c in enumerate(w) if c in records]], []
    for name in FIVE:
        made = chains(name, lists[-1], points)
        added += [c["edge"] for c in made if c["more"]]
        lists.append([c["edge"] for c in made])
    return lists, added


def above_at(added):
    """Where the call is refused 7, or None."""
    return next((e["start"] for e in added if e["value"] > TOP), None)


def add_numbers(line, table, given, ordered, without_singles=False, with_decimals=False):
    w, (lists, records) = chars(line), read_table(table)
    passed, added = five_lists(records, w, point_places(records, w) if with_decimals else ())
    first, edges = passed[0], passed[-1]
    if (above := above_at(added)) is not None:
        return struct.pack("<BI", 7, above)
    lattice = add_all(add_all([], read_given(given)), map(listed_edge, first + added))
    lattice = add_all(fractions(lists, w, lattice), signs(lists, w, edges))
    lattice = s12_singles(lattice, edges) if without_singles else separate(lattice)
    lattice = add_all(lattice, fallback(lattice, w))
    if not ordered:
        lattice = sorted(lattice, key=lambda e: (e["start"], e["end"], e["type"], e["txt"]))
    listing = [edge_bytes(e) for e in lattice]
    if len(listing) > 1024 or 2 + sum(map(len, listing)) > 32768:
        return struct.pack("<BI", 8, 0)
    return struct.pack("<H", len(listing)) + b"".join(listing)


def frames(path):
    with open(path, "rb") as f:
        while head := f.read(4):
            yield f.read(int.from_bytes(head, "little"))


def main():
    ordered = sys.argv[1] == "--ordered"
    cases, answers = map(frames, sys.argv[1 + ordered : 3 + ordered])
    count = differences = 0
    for line, table, given, answer in zip(cases, cases, cases, answers):
        if len(answer) == 5 and answer[0] < 7:
            continue
        if add_numbers(line, table, given, ordered) != answer:
            differences += 1
            print("case", count, "differs:", line.decode())
        count += 1
    print(count, "cases,", differences, "differences")
    return differences != 0 or count == 0


if __name__ == "__main__":
    sys.exit(main())
