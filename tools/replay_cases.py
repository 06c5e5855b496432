#!/usr/bin/env python3
"""Writes the cases that the program `replay` of the gate runs, and their answers: crates/replay/stdin and crates/replay/stdout. First the old program's, for lines and tables
without wide characters (02, S-3), then tools/model's for cases with them: 02's own and WIDE_COUNT random ones.

usage: tools/replay_cases.py [COUNT of cases a family, default 500] [SEED, default 7]
       tools/replay_cases.py differ ANSWERS    says which case is the first (from 0) whose answer in this file, as `replay` wrote it, is not the stored one

A case is three u16 lengths (little-endian), and then so many bytes of line, table (none: the one before) and edge list. An answer is a u32 length and so many bytes:
the listing in 01's order, or for a refusal u8 number and u32 offset or place. The old program settles which edges there are (tools/oracle), tools/model only their order:
an answer whose sorted edges are not the old program's is an error here. Long listings are left out, to keep the files small.
"""
import itertools
import pathlib
import struct
import subprocess
import sys

here = pathlib.Path(__file__).parent
sys.path.insert(0, str(here / "model"))
import model  # noqa: E402
import wide  # noqa: E402

# the characters of 02's formal table (S-11) for those of the plain one
FORMAL = dict(zip(map(ord, "一二三四五六七八九十百千万"), map(ord, "壹貳參肆伍陸柒捌玖拾佰仟萬")))
FORMAL_LINES = "壹萬伍 壹萬零伍 佰分之伍 百分之伍 零 捌佰零參 拾拾 柒億玖兆 一万五 壹万伍 壹萬五".split() + ["玖" * 16, "玖" * 17]
GATE = here.parent / "crates/replay"
ORACLE = here / "oracle/target/release/oracle"
MOST = 900
WIDE_COUNT = 60


def frames(data):
    at = 0
    while at < len(data):
        size = int.from_bytes(data[at : at + 4], "little")
        yield data[at + 4 : at + 4 + size]
        at += 4 + size


def differ(path):
    pairs = itertools.zip_longest(frames((GATE / "stdout").read_bytes()), frames(pathlib.Path(path).read_bytes()))
    print(next((k for k, (stored, got) in enumerate(pairs) if stored != got), "none"))


def formal(cases):
    """These cases and FORMAL_LINES, read with the formal table: the plain one's records under their new characters, in rising order."""
    parts = frames(cases)
    cases = list(zip(parts, parts, parts))
    _, records = model.read_table(cases[0][1])
    reader = model.Reader(cases[0][1])
    reader.number(2)
    for _ in range(4):
        for _ in range(reader.number(1)):
            reader.string(1)
    head, rest = cases[0][1][: reader.at], cases[0][1][reader.at :]
    renamed, at = [], 0
    for code_point in records:
        size = record_size(rest, at)
        renamed.append((FORMAL.get(code_point, code_point), rest[at + 4 : at + size]))
        at += size
    table = head + b"".join(struct.pack("<I", c) + r for c, r in sorted(renamed))
    lines = [line.decode().translate(FORMAL).encode() for line, _, _ in cases] + [line.encode() for line in FORMAL_LINES]
    return b"".join(struct.pack("<I", len(part)) + part for line in lines for part in (line, table, b"\0\0"))


def record_size(data, at):
    reader = model.Reader(data)
    reader.at = at + 4
    bits = reader.number(1)
    reader.string(1)
    if bits & 1:
        reader.string(1)
    reader.at += 8 * ((bits >> 1 & 1) + 2 * (bits >> 2 & 1) + (bits >> 3 & 1) + (bits >> 4 & 1))
    if bits >> 5 & 1:
        reader.string(1)
    return reader.at - at


def old_answers(count, seed):
    """Cases of every family without wide characters, with the old program's answers in 01's order."""
    for family in ("limits", "plain", "numerals", "marks", "tables", "given", "faults", "formal"):
        name = "numerals" if family == "formal" else family
        cases = subprocess.run([ORACLE, "gen", "--family", name, "--seed", str(seed), "--count", str(count)], check=True, capture_output=True).stdout
        cases = formal(cases) if family == "formal" else cases
        answers = subprocess.run([ORACLE, "answer"], input=cases, check=True, capture_output=True).stdout
        parts = frames(cases)
        for line, table, edges, answer in zip(parts, parts, parts, frames(answers)):
            if not table or len(answer) > MOST or len(table) + len(edges) + len(line) > 3000 or wide.holds_wide(line, table):
                continue
            if len(answer) != 5:
                assert model.add_numbers(line, table, edges, False) == answer, line
                answer = model.add_numbers(line, table, edges, True)
            yield line, table, edges, answer


def wide_answers(seed):
    for case in wide.cases(WIDE_COUNT, seed):
        answer = model.add_numbers(*case, True)
        if len(answer) <= MOST:
            yield *case, answer


def main():
    if sys.argv[1:2] == ["differ"]:
        return differ(sys.argv[2])
    count, seed = [int(a) for a in sys.argv[1:]] + [500, 7][len(sys.argv) - 1 :]
    stdin, stdout, last, written = bytearray(), bytearray(), None, 0
    for line, table, edges, answer in itertools.chain(old_answers(count, seed), wide_answers(seed)):
        new = b"" if table == last else table
        stdin += struct.pack("<HHH", len(line), len(new), len(edges)) + line + new + edges
        stdout += struct.pack("<I", len(answer)) + answer
        last, written = table, written + 1
    (GATE / "stdin").write_bytes(stdin)
    (GATE / "stdout").write_bytes(stdout)
    print(written, "cases", file=sys.stderr)


if __name__ == "__main__":
    main()
