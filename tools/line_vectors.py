#!/usr/bin/env python3
"""Writes stdin and stdout of the programs line_vectors and number_edges of the gate: lines, and the rows that the old program's answers give for them.

usage: tools/line_vectors.py [ORACLE, default tools/oracle/target/release/oracle]

The old program settles which edges there are (tools/oracle), tools/model only their order: an answer whose sorted edges are not the old program's is an error here. A
refusal is the old program's, by tools/oracle. The line that the program reads is cut here as 01 says, at a newline, the end, or 4,096 bytes.
"""
import pathlib
import struct
import subprocess
import sys

here = pathlib.Path(__file__).resolve().parent
sys.path.insert(0, str(here / "model"))
import model  # noqa: E402

ORACLE = sys.argv[1] if len(sys.argv) > 1 else str(here / "oracle/target/release/oracle")
TOP = "九零零七一九九二五四七四零九九"
NONE = b"\0\0"

LINES = [
    # 01's example, and lines by its words
    *"百分之五 百分之零五 三分之二 零分之二 二百分之三 百百分之三 五百分之 -五 +一百 -百分之五 5 五5 x一百y ٣五".split(),
    # the marked lines, the empty one among them
    *"一百零五 二千五 一万五 一万零五 零万五 百零十 億万 二百万 一二百 一百一百 万億 零百 十十".split(),
    "",
    # limits: TOP, 256 characters, 1,024 edges
    TOP + "一",
    TOP + "二",
    "九九九九兆",
    "x九千零七兆一千九百九十二億",
    "x九千零七兆一千九百九十三億",
    "零" * 256,
    "零" * 257,
    "x" * 257,
    "é" * 257,
    "一百" * 128,
    # 02, S-7: two parts with a character between that has no record, empty parts among them; refused 7 in either part
    *("一百 五", "一万 五", "一百五　二十", "零 百", " 五", "五 ", "  ", "一 " + "九" * 17, "九" * 17 + " 一"),
    # blanks, a carriage return and a byte 0 are characters
    " ",
    "\t五",
    "五\r",
    "五\0",
    # ill-formed: a byte that begins nothing, a sequence cut off inside and at the end, overlong, a surrogate, above U+10FFFF; 2 before 3
    b"\xff",
    b"\x80",
    "一百".encode() + b"\xe4\xb8A",
    "一百".encode() + b"\xe4\xb8",
    b"\xc0\xaf",
    b"\xe0\x80\x80",
    b"\xed\xa0\x80",
    b"\xf4\x90\x80\x80",
    b"x" * 300 + b"\xff",
]


def oracle(*words, given=b""):
    return subprocess.run([ORACLE, *words], input=given, check=True, capture_output=True).stdout


def frame(part):
    return struct.pack("<I", len(part)) + part


def mark(bits):
    return b"-" if not bits & 1 else b"1" if bits & 128 else b"0"


def rows(listing):
    """The rows of a listing: start, end, type, txt and mark of each edge."""
    r = model.Reader(listing)
    out = b""
    for _ in range(r.number(2)):
        bits, start, end = r.number(2), r.number(2), r.number(2)
        type_, txt = r.string(2), r.string(2)
        out += b"%d\t%d\t%s\t%s\t%s\n" % (start, end, type_, txt, mark(bits))
        if bits & 1:
            r.string(2)
        r.at += sum(size for bit, size in ((1, 8), (2, 16), (3, 8), (4, 8)) if bits >> bit & 1)
        for bit in (5, 8):
            if bits >> bit & 1:
                r.string(2)
    assert r.at == len(listing)
    return out


def printed(lines, table):
    """What the program prints for each line."""
    cases = b"".join(frame(line) + frame(table) + frame(NONE) for line in lines)
    answers = oracle("answer", given=cases)
    at = 0
    for line in lines:
        size = int.from_bytes(answers[at : at + 4], "little")
        answer = answers[at + 4 : at + 4 + size]
        at += 4 + size
        if len(answer) == 5:
            yield b"refused %d %d\n" % struct.unpack("<BI", answer)
        else:
            assert model.add_numbers(line, table, NONE, False) == answer, line
            yield rows(model.add_numbers(line, table, NONE, True))
    assert at == len(answers)


def store(crate, given, wanted):
    folder = here.parent / "crates" / crate
    (folder / "stdin").write_bytes(given)
    (folder / "stdout").write_bytes(wanted)


def main():
    table = bytes.fromhex(oracle("plain-table").decode())
    # two lines without an end, each cut at 4,096 bytes; what is left of the second is the first line of the list
    digits, long = b"0123456789" * 409 + b"012345", "三".encode() * 1366
    lines = [long[4096:]] + [line if isinstance(line, bytes) else line.encode() for line in LINES]
    heads = (b"line %d\n" % k for k in range(1, len(lines) + 1))
    cut = b"".join(printed([digits, long[:4096]], table))
    store("line_vectors", digits + long[:4096] + b"".join(line + b"\n" for line in lines), cut + b"".join(a + b for a, b in zip(heads, printed(lines, table))))
    example = "百分之五".encode()
    store("number_edges", example + b"\n", b"".join(printed([example], table)))
    print(2 + len(lines), "lines", file=sys.stderr)


if __name__ == "__main__":
    main()
