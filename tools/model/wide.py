#!/usr/bin/env python3
"""Cases with wide characters, U+FF01 to U+FF5E, which 02's S-3 counts as ASCII where a marker or sign is compared with the line. The old program knows no folding: such cases
are held against tools/model/model.py, and the comparisons with the old program leave them out.

usage: wide.py COUNT SEED CASES ANSWERS    writes 02's own cases and COUNT random ones, and the model's answers, in the form of `oracle gen` and `oracle answer`
       wide.py --without CASES             writes those of the cases (tools/oracle/README.md) whose line holds no wide character, nor a marker or sign of the table
"""
import pathlib
import random
import re
import struct
import sys

import model

PLAIN = pathlib.Path(__file__).resolve().parent.parent.parent / "data/plain.table"
WIDE = re.compile(rb"\xef(\xbc[\x81-\xbf]|\xbd[\x80-\x9e])")
NONE = b"\0\0"
# ASCII that may stand in either width, both ends of the range, what stands beside it in Unicode, and usual markers
MARKS = "% % - - + / . ! ~ 5 x -- %% %%% -+ 百分之 分之 分 五 百% 之- − ＀ ｟ % ｠".split()
OTHERS = "＀ ｟ ｠ x é ½ 〇 𠀀 ! ~ 5 １ ％ － ＋ ／ ～ ！ 分 之".split()

# 02's words and their readings: line; percentage markers, connectors, plus signs, minus signs
OWN = [
    ("－五", "", "", "+", "-"), ("＋五", "", "", "+", "-"), ("％五", "%", "", "", ""), ("百％五", "%", "", "", ""), ("三／二", "", "/", "", ""),
    ("-五", "", "", "", "－"), ("%五", "％", "", "", ""), ("三/二", "", "／", "", ""), ("－五", "", "", "", "－"), ("％五", "％", "", "", ""),
    # a sign in both widths: one edge
    ("－五", "", "", "", "- －"), ("-五", "", "", "", "－ -"), ("+五", "", "", "+ ＋ -", "－ +"),
    # the longest marker is the one of most characters; percentages first at equal length
    ("%%%五", "％％", "%%%", "", ""), ("二%%%五", "％％", "%%%", "", ""), ("二％％％五", "％％", "%%%", "", ""), ("二%%%五", "%%%", "％％", "", ""),
    ("二%五", "％", "%", "", ""), ("二％五", "%", "％", "", ""), ("二%五", "%", "％", "", ""),
    # in a longer marker, at both ends of the line
    ("二百％分五", "", "百%分", "", ""), ("一－＋五", "", "", "", "-+"), ("五％", "%", "", "", ""), ("五－", "", "", "", "-"), ("－－五", "", "", "", "-"), ("－－五", "", "", "", "--"),
    # both ends of the range, and what stands beside it
    ("！五", "", "", "", "!"), ("～五", "", "", "", "~"), ("!五", "", "", "", "！"), ("~五", "", "", "", "～"), ("｟五", "", "", "", "\x7f"), ("\x7f五", "", "", "", "｟"),
    ("＀五", "", "", "", " "), (" 五", "", "", "", "＀"), ("｟五", "", "", "", "｟"),
    # digits are markers or signs where the table lists them, and nothing else: １ is no digit of the fallback
    ("１五", "", "", "1", ""), ("1五", "", "", "１", ""), ("１", "", "", "", ""), ("1", "", "", "", ""), ("五１", "", "", "", ""),
]


def plain_records():
    """The bytes of the plain table's records, by code point: rom, value, base, script, and whether it is a large power."""
    records = {}
    for words in (line.split() for line in PLAIN.read_text().splitlines() if line.startswith("record ")):
        fields = dict(word.split("=") for word in words[2:] if "=" in word)
        text = lambda name: bytes([len(fields[name])]) + fields[name].encode()
        number = lambda name: struct.pack("<Q", int(fields[name]))
        bits = 1 | 2 | 8 | 32 | ("large" in words) << 6
        records[ord(words[1])] = struct.pack("<IB", ord(words[1]), bits) + text("type") + text("rom") + number("value") + number("base") + text("script")
    return records


def digit_record(code_point, value):
    return struct.pack("<IB", code_point, 3) + b"\5digit\1%d" % value + struct.pack("<Q", value)


def table_of(lists, records):
    text = lambda m: bytes([len(m.encode())]) + m.encode()
    return struct.pack("<H", len(records)) + b"".join(bytes([len(l)]) + b"".join(map(text, l)) for l in lists) + b"".join(records[c] for c in sorted(records))


def any_width(rng, text):
    """The same text, each character in either width."""
    other = lambda c: chr(ord(c) + 0xFEE0) if "!" <= c <= "~" else chr(ord(c) - 0xFEE0) if "！" <= c <= "～" else c
    return "".join(other(c) if rng.random() < 0.5 else c for c in text)


def any_case(rng, plain):
    records = dict(plain)
    # records are not folded: some wide characters, or ASCII, have one of their own
    for c in rng.sample("５5％%－１", rng.choice([0, 0, 0, 1, 2])):
        records[ord(c)] = digit_record(ord(c), rng.randrange(10))
    lists = [[any_width(rng, rng.choice(MARKS)) for _ in range(rng.choice([0, 1, 2, 3, 5]))] for _ in range(4)]
    marks, characters = sum(lists, []) or ["%"], [chr(c) for c in records]
    pieces = [lambda: rng.choice(characters)] * 5 + [lambda: any_width(rng, rng.choice(marks))] * 4 + [lambda: rng.choice(OTHERS)]
    line = "".join(rng.choice(pieces)() for _ in range(rng.choice([3, 6, 12, 12, 60])))[:256]
    edges = []
    for _ in range(rng.choice([0, 0, 1, 4]) if line else 0):
        start = rng.randrange(len(line))
        end, kind, txt = rng.randint(start + 1, len(line)), rng.choice([b"rom", b"num", b"q"]), any_width(rng, rng.choice(MARKS)).encode()
        edges.append(struct.pack("<HHH", 0, start, end) + b"".join(struct.pack("<H", len(t)) + t for t in (kind, txt)))
    return line.encode(), table_of(lists, records), struct.pack("<H", len(edges)) + b"".join(edges)


def cases(count, seed):
    """02's own cases, then random ones: line, table, given edges."""
    rng, plain = random.Random(seed), plain_records()
    for line, *lists in OWN:
        yield line.encode(), table_of([l.split(" ") if l.strip() else [l] if l else [] for l in lists], plain), NONE
    for _ in range(count):
        yield any_case(rng, plain)


def lists_of(table):
    """The bytes of a table's four lists, as far as they go: its records may hold wide characters, which nothing folds."""
    at = 2
    for _ in range(4):
        count, at = table[at] if at < len(table) else 0, at + 1
        for _ in range(count):
            at += 1 + table[at] if at < len(table) else 0
    return table[2:at]


def holds_wide(line, table):
    return bool(WIDE.search(line) or WIDE.search(lists_of(table)))


def put(f, *parts):
    for part in parts:
        f.write(struct.pack("<I", len(part)) + part)


def main():
    if sys.argv[1] == "--without":
        parts = model.frames(sys.argv[2])
        for line, table, edges in zip(parts, parts, parts):
            if not holds_wide(line, table):
                put(sys.stdout.buffer, line, table, edges)
        return
    count, seed = map(int, sys.argv[1:3])
    with open(sys.argv[3], "wb") as to, open(sys.argv[4], "wb") as answers:
        for line, table, edges in cases(count, seed):
            put(to, line, table, edges)
            put(answers, model.add_numbers(line, table, edges, False))


if __name__ == "__main__":
    main()
