#!/usr/bin/env python3
"""Lines that people wrote, for bench/lines: 1,500 of five Debian packages, taken from where the packages put them. None is copied into the repository.

usage: real_lines.py [COUNT of lines, default 1500]     writes them to standard output, one a line

A line is taken as it stands if it is well-formed, has 1 to 256 characters, one of them at least above U+007F, and no control character. Of each package as many are chosen, at even distances
over all its lines in the order of its files' names: no chance is in it, so the same packages give the same lines.
"""
import gzip
import re
import subprocess
import sys

PACKAGES = ("fortunes-zh", "manpages-zh", "manpages-ja", "skkdic", "kakasi-dic")
# kanwadict: a byte, then a word without its first character, which its index has, and its reading, each a length and so many bytes of EUC-JP
ENTRY = re.compile(rb"[\0-\x7f]([\2-\x7e])([\xa1-\xfe]+)([\2-\x7e])([\xa1-\xfe]+)")


def texts(path):
    """The lines of a file as bytes, and how they are encoded."""
    if path.endswith("/kanwadict"):
        entries = ENTRY.findall(open(path, "rb").read())
        return [word + b" " + reading for m, word, n, reading in entries if m[0] == len(word) and n[0] == len(reading)], "euc-jp"
    if path.endswith(("/SKK-JISYO.L", "/itaijidict")):
        return open(path, "rb").read().split(b"\n"), "euc-jp"
    if re.search("/fortunes/[a-z0-9]+$", path):
        return open(path, "rb").read().split(b"\n"), "utf-8"
    if re.search("/man/(zh_CN|zh_TW|ja)/man.*[.]gz$", path):
        return gzip.open(path).read().split(b"\n"), "utf-8"
    return [], "utf-8"


def taken(text, encoding):
    try:
        line = text.decode(encoding)
    except UnicodeDecodeError:
        return None
    real = 1 <= len(line) <= 256 and not line.isascii() and all(ord(c) >= 32 and not 127 <= ord(c) <= 159 for c in line)
    return line if real else None


def lines_of(package):
    files = subprocess.run(["dpkg", "-L", package], check=True, capture_output=True, text=True).stdout.split("\n")
    for path in sorted(files):
        lines, encoding = texts(path)
        yield from (line for line in (taken(text, encoding) for text in lines) if line)


def main(count):
    each = count // len(PACKAGES)
    for package in PACKAGES:
        lines = list(lines_of(package))
        if len(lines) < each:
            sys.exit(f"{package} has {len(lines)} lines")
        for i in range(each):
            sys.stdout.buffer.write(lines[(2 * i + 1) * len(lines) // (2 * each)].encode() + b"\n")


if __name__ == "__main__":
    main(int(sys.argv[1]) if len(sys.argv) > 1 else 1500)
