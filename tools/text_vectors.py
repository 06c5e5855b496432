#!/usr/bin/env python3
"""Writes crates/text_vectors/stdin and stdout: texts, and the answers that Python's own UTF-8 decoder gives for them.

usage: tools/text_vectors.py
"""
import random
from pathlib import Path

crate = Path(__file__).resolve().parent.parent / "crates" / "text_vectors"
given, wanted = [], []


def remark(words):
    given.append("# " + words)
    wanted.append("# " + words)


def text(line):
    given.append(line.hex().upper())
    try:
        chars = line.decode("utf-8")
    except UnicodeDecodeError as fault:
        wanted.append(f"refused 2 {fault.start}")
        return
    offsets = [len(chars[:p].encode()) for p in range(min(len(chars), 257))]
    if len(chars) > 256:
        wanted.append(f"refused 3 {offsets[256]}")
    else:
        wanted.append(f"chars {len(chars)}" + "".join(f" {at}:{ord(c):x}" for at, c in zip(offsets, chars)))


remark("made by tools/text_vectors.py; the answers are those of Python's UTF-8 decoder")
remark("the scope's own")
text(b"")
text("一万五".encode())
text(bytes.fromhex("E4B841"))
text(b"x" * 300 + b"\xff")
text("é".encode() * 256)
text("é".encode() * 257)
remark("both sides of every length, and of the surrogates")
for c in (0, 0x7F, 0x80, 0x7FF, 0x800, 0xD7FF, 0xE000, 0xFFFF, 0x10000, 0x10FFFF):
    text(chr(c).encode())
remark("every byte alone; every lead byte with second bytes at the limits, whole and cut off")
for b in range(256):
    text(bytes([b]))
for b in (*range(0xC0, 0xC3), 0xDF, *range(0xE0, 0xE2), *range(0xEC, 0xF0), *range(0xF0, 0xF6), 0xFF):
    for x in (0x7F, 0x80, 0x8F, 0x90, 0x9F, 0xA0, 0xBF, 0xC0):
        for rest in (b"", b"\x80", b"\xBF\x80", b"\x80\x7F", b"\x80\xC0", b"\x80\x80A"):
            text(bytes([b, x]) + rest)
remark("texts at random")
random.seed(1)
for n in range(300):
    line = bytearray("".join(random.choice("a零é一百😀") for _ in range(random.randrange(1, 9))).encode())
    if n % 2:
        line[random.randrange(len(line))] = random.randrange(256)
    text(bytes(line))
(crate / "stdin").write_text("\n".join(given) + "\n")
(crate / "stdout").write_text("\n".join(wanted) + "\n")
