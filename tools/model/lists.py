#!/usr/bin/env python3
"""What 02 says of the five lists, tried on the definitions of tools/model at random cases: S-7, a line in two parts; S-11, a line and its twin.

usage: lists.py SEED CASES     the file that `oracle gen` writes (tools/oracle/README.md); its lines and tables are used, its given edges not

The five lists and refusal 7 of the model are the old program's (model.py); a difference here is a fault in the statement.
"""
import random
import sys

import model


def gap_between(rng, records, w):
    """The line w cut in two at a character without a record: one of its own, or one put in."""
    gaps = [p for p, c in enumerate(w) if c not in records]
    if gaps and rng.random() < 0.7:
        p = rng.choice(gaps)
        return w[:p], w[p], w[p + 1 :]
    p = rng.randint(0, len(w))
    return w[:p], next(c for c in (0x20, 0x3000, 0x25A1, 0xE000) if c not in records), w[p:]


def moved(n, e):
    return {**e, "start": e["start"] + n, "end": e["end"] + n}


def in_parts(records, a, c, b):
    """S-7: each list of the whole is the first part's, then the second's moved; where the first part is not refused 7, the whole is where the second is."""
    n = len(a) + 1
    (whole, added), (first, added_a), (second, added_b) = (model.five_lists(records, w) for w in (a + [c] + b, a, b))
    lists = all(l == f + [moved(n, e) for e in s] for l, f, s in zip(whole, first, second))
    at, at_a, at_b = map(model.above_at, (added, added_a, added_b))
    seven = at == (None if at_b is None else n + at_b) if at_a is None else at_b is not None or at == at_a
    return lists and seven


def renaming(rng, records):
    """A one-to-one renaming of the table's characters, gap characters to gap characters and no others, and the other table's records: every record has a rom."""
    gaps = [0x96F6, 0x3007]
    rng.shuffle(gaps)
    old = [c for c in records if c not in gaps]
    new = rng.sample([c for c in (*range(0x4E00, 0x9FFF), *range(0x20, 0x7F)) if c not in gaps], len(old))
    names = dict(zip(old, new)) | {c: g for c, g in zip((0x96F6, 0x3007), gaps) if c in records}
    with_rom = {c: r if r["rom"] is not None else {**r, "rom": b"rom"} for c, r in records.items()}
    return names, with_rom, {names[c]: r for c, r in with_rom.items()}


def twins(names, records, others, w):
    """S-11: the five lists of a line and of its twin are the same but for orig_txt, and refusal 7 falls at the same place."""
    w = [c for c in w if c in records or c not in others]
    (lists, added), (lists_, added_) = model.five_lists(records, w), model.five_lists(others, [names.get(c, c) for c in w])
    but_text = [[{k: v for k, v in e.items() if k != "orig"} for e in l] for l in lists]
    return but_text == [[{k: v for k, v in e.items() if k != "orig"} for e in l] for l in lists_] and model.above_at(added) == model.above_at(added_)


def table_bytes(text):
    """The bytes of a table written as text in the form of tools/table, without its quotes and escapes."""
    lists, records = {"percentage": [], "connector": [], "plus": [], "minus": []}, []
    for line in text.splitlines():
        word, *rest = line.split("#")[0].split() or [""]
        if word in lists:
            lists[word].append(rest[0].encode())
        elif word == "record":
            records.append((ord(rest[0]), dict(f.partition("=")[::2] for f in rest[1:])))
    short = lambda b: bytes([len(b)]) + b
    out = len(records).to_bytes(2, "little") + b"".join(bytes([len(l)]) + b"".join(map(short, l)) for l in lists.values())
    for c, r in sorted(records, key=lambda r: r[0]):
        bits = 1 << 0 | 1 << 1 | 1 << 3 | 1 << 5 | ("large" in r) << 6
        out += c.to_bytes(4, "little") + bytes([bits]) + short(r["type"].encode()) + short(r["rom"].encode())
        out += int(r["value"]).to_bytes(8, "little") + int(r["base"]).to_bytes(8, "little") + short(r["script"].encode())
    return out


def main():
    rng, cases = random.Random(int(sys.argv[1])), model.frames(sys.argv[2])
    count = differences = refused = 0
    for line, table, _ in zip(cases, cases, cases):
        try:
            w, (_, records) = list(model.chars(line)), model.read_table(table)
        except (UnicodeDecodeError, IndexError):
            continue
        a, c, b = gap_between(rng, records, w)
        if not in_parts(records, a, c, b):
            differences += 1
            print("S-7, case", count, "differs:", line.decode())
        if not twins(*renaming(rng, records), w):
            differences += 1
            print("S-11, case", count, "differs:", line.decode())
        refused += model.above_at(model.five_lists(records, w)[1]) is not None
        count += 1
    print(f"S-7 and S-11: {count} cases, {refused} of them refused 7, {differences} differences")
    return differences != 0 or count == 0


if __name__ == "__main__":
    sys.exit(main())
