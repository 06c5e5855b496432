#!/usr/bin/env python3
"""A register at a time: the call for many lines, by the definitions in tools/model/model.py.

usage: lines.py run LIBRARY COUNT SEED   rilvostam_add_numbers_to_lines of a shared library against the model on COUNT random cases, every byte of each page, until the end
       lines.py vectors DIRECTORY        writes stdin and stdout of crates/lines_vectors
"""
import ctypes
import random
import struct
import sys

import model
import singles

WORK, OUT, ENTRY = 65536, 32768, 32780


# ---- the definition
def lines_of(data):
    """The lines, each with the bytes that it takes with its newline."""
    *whole, last = data.split(b"\n")
    return [(l, len(l) + 1) for l in whole] + ([(last, len(last))] if last else [])


def refused_line(line):
    """Refusal 2 or 3 and its offset, where the line is refused so."""
    try:
        text = line.decode()
    except UnicodeDecodeError as e:
        return 2, e.start
    return (3, len(text[:256].encode())) if len(text) > 256 else None


def entry(line, table):
    refused = refused_line(line)
    answer = struct.pack("<BI", *refused) if refused else model.add_numbers(line, table, b"\0\0", True)
    if len(answer) == 5:
        return struct.pack("<IQ", *struct.unpack("<BI", answer))
    return struct.pack("<IQ", 0, len(answer)) + answer


def add_numbers_to_lines(data, table, work, room, refused_table=None):
    """Status, number and next, and the page. refused_table: the table's refusal and its offset, where it has one."""
    if work < WORK:
        return 1, 0, 0, b""
    if refused_table:
        return *refused_table, 0, b""
    page, after = b"", 0
    for line, size in lines_of(data):
        e = entry(line, table)
        if room < len(page) + len(e):
            break
        page, after = page + e, after + size
    return 0, len(page), after, page


# ---- cases
PLAIN = singles.table(singles.PLAIN, singles.MARKS)


def random_case(rng):
    pieces = ("一", "五", "十", "千", "万", "兩", "7", "x", "-", "分之", "\n", "\n", "九" * 17)
    data = "".join(rng.choice(pieces) for _ in range(rng.randrange(24))).encode()
    for other in (b"\xe4\xb8", b"\n", b"a" * 257):
        if rng.random() < 0.2:
            at = rng.randrange(len(data) + 1)
            data = data[:at] + other + data[at:]
    table = PLAIN if rng.random() < 0.5 else singles.random_case(rng)[1]
    return data, table, WORK - (rng.random() < 0.02), rng.choice((0, 11, 12, 14, 100, 500, ENTRY, 65536))


# ---- the library
def call(function, data, table, work, room):
    at, after = ctypes.c_uint64(7), ctypes.c_uint64(7)
    out = ctypes.create_string_buffer(b"." * room, room or 1)
    status = function(data, ctypes.c_size_t(len(data)), table, ctypes.c_size_t(len(table)), ctypes.create_string_buffer(WORK), ctypes.c_size_t(work), out, ctypes.c_size_t(room), ctypes.byref(at), ctypes.byref(after))
    return status, at.value, after.value, out.raw[:room]


def run(path, count, seed):
    library, rng, pages, entries = ctypes.CDLL(path), random.Random(seed), 0, 0
    for i in range(count):
        data, table, work, room = random_case(rng)
        while True:
            told = call(library.rilvostam_add_numbers_to_lines, data, table, work, room)
            status, number, after, page = add_numbers_to_lines(data, table, work, room)
            if told != (status, number, after, page + b"." * (room - len(page))):
                print("case", i, "differs:", data.hex(), table.hex(), work, room)
                return 1
            pages, entries, data = pages + 1, entries + len(lines_of(data)) - len(lines_of(data[after:])), data[after:]
            if status or not after or not data:
                break
    print(f"{count} cases, {pages} pages, {entries} entries; no difference")
    return count == 0


# ---- the vectors
def cases():
    """Lines, table, its refusal, work space, output, and what is to be seen."""
    two = "一万五\n兩".encode()
    first, second = (len(entry(l.encode(), PLAIN)) for l in ("一万五", "兩"))
    for data, room, words in (
        (b"", 100, "no bytes are no line"), (b"\n", 100, "a newline alone is one empty line"), (b"a\nb", 100, "two lines, the second without a newline"), (b"a\nb\n", 100, "two lines, and nothing behind them"),
        (b"a\n\nb", 100, "an empty line between two"), (b"\n\n", 100, "two empty lines"), (b"a\r\n", 100, "a carriage return belongs to its line"),
        (two, 0xffff, "the call's answers"), (b"a\n\xe4\xb8\nb", 100, "an ill-formed line, its offset in the line"), (b"\xe4\xb8\n\x80", 100, "a sequence that a newline parts is ill-formed in both"),
        (b"a" * 256 + b"\n" + b"a" * 257 + b"\n7", 0xffff, "a line of 256 characters, one of 257"), (("九" * 17 + "\n一").encode(), 0xffff, "a line refused 7"),
        (two, first + second, "both fit, just"), (two, first + second - 1, "one byte less holds the first"), (two, first, "the first fits, just"), (two, first - 1, "the output is too short for the first"),
        (b"a\nb\nc", 28, "two of three lines"), (b"a\nb\nc", 41, "still two"), (b"a\nb\nc", 42, "all three"), (b"\xff\xff\n\xff", 23, "an entry without a listing has twelve bytes"), (b"a", 0, "no output"), (b"", 0, "no line and no output"),
    ):
        yield data, PLAIN, None, WORK, room, words
    last = len(PLAIN) - len(sorted(singles.PLAIN)[-1][1])
    broken, ill = (PLAIN[:-1], (4, last)), (singles.table([singles.record("一", b"d\xff", b"1", 1, 1)]), (5, 6))
    yield b"a\nb", *broken, WORK, 100, "a table refused 4"
    yield b"a\nb", *ill, WORK, 100, "a table refused 5"
    yield b"", *broken, WORK, 100, "a table refused 4, without a line"
    yield b"a\nb", PLAIN, None, WORK - 1, 100, "refused 1"
    yield b"\xff", *broken, WORK - 1, 100, "1 before 4"
    yield b"\xff\n", *broken, WORK, 100, "4 before the lines are looked at"


def vectors(directory):
    with open(directory + "/stdin", "w", encoding="utf-8") as given, open(directory + "/stdout", "w", encoding="utf-8") as expected:
        for data, table, refused, work, room, words in cases():
            status, number, after, page = add_numbers_to_lines(data, table, work, room, refused)
            print(data.hex(), table.hex(), f"{room:04x}", f"{work - 1:04x}", words, file=given)
            print(status, number, after, page.hex(), words, file=expected)


def main(arguments):
    if arguments[:1] == ["run"] and len(arguments) == 4:
        return run(arguments[1], int(arguments[2]), int(arguments[3]))
    if arguments[:1] == ["vectors"] and len(arguments) == 2:
        return vectors(arguments[1])
    print(__doc__, file=sys.stderr)
    return 2


if __name__ == "__main__":
    sys.exit(main(sys.argv[1:]))
