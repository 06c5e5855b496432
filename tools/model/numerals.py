#!/usr/bin/env python3
"""Numerals by document 02, S-1, S-4, S-8, S-9 and S-10, written once more in Python from its sentences and held against the library's C calls.

usage: numerals.py run DRIVER COUNT SEED     tools/compare/numerals builds the driver (tools/compare/numerals.c) and calls this
       numerals.py vectors S-1               what the program writing_vectors must write
       numerals.py vectors S-4 [answers]     the fields that the program field_vectors reads; what it must write
       numerals.py vectors S-9 [answers]     the lines that the program weights_vectors reads; what it must write
       numerals.py vectors S-8               what the program sheet_vectors must write
       numerals.py sheet                     the whole proof sheet
       numerals.py vectors S-10 [answers]    the lines that the program worn_vectors reads; what it must write

It shares nothing with the definitions in crates/ but the documents. It proves nothing: it looks for a definition that says something else than 02 does.
"""
import functools
import itertools
import random
import subprocess
import sys

TOP = 2**53 - 1
DIGITS = "零一二三四五六七八九"
TENS = {"十": 10, "百": 100, "千": 1000}
LARGES = {"万": 10**4, "億": 10**8, "兆": 10**12}


# ---- S-1: a plot number written out
def group(n):
    """A group of four digits: one 零 for each stretch of zeros between two digits other than zero."""
    text, zeros = "", False
    for digit, mark in zip(f"{n:04}", ("千", "百", "十", "")):
        if digit == "0":
            zeros = True
        else:
            text += ("零" if zeros and text else "") + DIGITS[int(digit)] + mark
            zeros = False
    return text


def writing(number):
    digits, text = f"{number:016}", ""
    for i, mark in enumerate(("兆", "億", "万", "")):
        g = int(digits[4 * i : 4 * i + 4])
        if g:
            text += ("零" if text and g < 1000 else "") + group(g) + mark
    return text or "零"


def write_number(number, room):
    """The status, what *at says, and the bytes at the front of the output."""
    if number > TOP:
        return 10, 0, b""
    numeral = writing(number).encode()
    return (0, len(numeral), numeral) if len(numeral) <= room else (8, 0, b"")


# ---- S-4: is this field one number?
def atoms(text):
    """The atoms of a stretch without 万, 億 and 兆, as (value, base, is a lone 零, is a single 一 to 九): which they are is never in doubt."""
    found, i = [], 0
    while i < len(text):
        run = ""
        while i < len(text) and text[i] in DIGITS:
            run += str(DIGITS.index(text[i]))
            i += 1
        ten = TENS[text[i]] if i < len(text) else None
        if run and ten and int(run):
            found.append((int(run) * ten, ten, False, False))
            i += 1
        elif run:
            found.append((int(run), 1, run == "0", len(run) == 1 and run != "0"))
        else:
            found.append((ten, ten, False, False))
            i += 1
    return found


def small(text):
    """(value, base, is a single 一 to 九), or None."""
    parts = atoms(text)
    for k in range(1, len(parts)):
        earlier = [base for _, base, lone_zero, _ in parts[:k] if not lone_zero]
        if not earlier or parts[k][0] >= earlier[-1] or parts[k][1] >= earlier[-1]:
            return None
    return sum(p[0] for p in parts), parts[-1][1], len(parts) == 1 and parts[0][3]


def numeral(text):
    """The value of a numeral; None for any other line of table characters. Every stretch between 万, 億 and 兆 has to be one small."""
    total, before, stretch = 0, None, ""
    for c in text + " ":
        if c in DIGITS or c in TENS:
            stretch += c
            continue
        found = small(stretch) if stretch else None
        if stretch and found is None or not stretch and c == " ":
            return total if not stretch and before else None
        if c == " ":
            value, base, single = found
            if single and before:
                value, base = value * (before // 10), before // 10
        else:
            base = LARGES[c]
            value = found[0] * base if stretch else base
        if before and (value >= before or base >= before):
            return None
        total, before, stretch = total + value, base, ""
    return total


def first_fault(line):
    try:
        line.decode()
    except UnicodeDecodeError as e:
        return e.start
    return None


def read_field(line):
    """The status, whether the line is a number, and what *at says."""
    fault = first_fault(line)
    if fault is not None:
        return 2, 0, fault
    text = line.decode()
    if len(text) > 256:
        return 3, 0, len(text[:256].encode())
    value = numeral(text) if all(c in DIGITS or c in TENS or c in LARGES for c in text) else None
    return (0, 0, 0) if value is None else (7, 0, 0) if value > TOP else (0, 1, value)


# ---- S-9: how far one wrong digit goes
def weight(text, i):
    """By trying all nine digits: each keeps the numeral a numeral, and each step from one digit to the next moves the value as far."""
    values = [numeral(text[:i] + d + text[i + 1 :]) for d in DIGITS[1:]]
    steps = {b - a for a, b in zip(values, values[1:])}
    (step,) = steps
    return step


@functools.lru_cache(maxsize=4)
def weights(text):
    return [weight(text, i) for i, c in enumerate(text) if c in DIGITS[1:]]


def weigh_digits(line, room):
    """The status, what *at says, and the weights at the front of the output."""
    status, yes, at = read_field(line)
    if status or not yes:
        return status, at, []
    found = weights(line.decode())
    return (0, len(found), found) if 8 * len(found) <= room else (8, 0, [])


# ---- S-8: a proof sheet of short numerals
@functools.cache
def sheet():
    """The rows of all numerals of one to four characters whose value is at most TOP, shortest first, then character by character in SIXTEEN's order."""
    words = ("".join(word) for length in range(1, 5) for word in itertools.product(SIXTEEN, repeat=length))
    values = ((word, numeral(word)) for word in words)
    return [f"{word}\t{value}\n".encode() for word, value in values if value is not None and value <= TOP]


def proof_sheet(position, room):
    """The page's bytes, and the position after it."""
    page = b""
    for row in sheet()[position:]:
        if len(page) + len(row) > room:
            break
        page, position = page + row, position + 1
    return page, position


# ---- S-10: one character worn off the stone
MARK = "□"


def worn_rows(text):
    """The rows of a line with one □; None for any other line."""
    if text.count(MARK) != 1 or any(c not in SIXTEEN for c in text.replace(MARK, "")):
        return None
    values = ((c, numeral(text.replace(MARK, c))) for c in SIXTEEN)
    return [f"{c}\t{v}\n" for c, v in values if v is not None and v <= TOP]


def worn_character(line, room):
    """The status, what *at says, and the bytes at the front of the output."""
    status, _, at = read_field(line)
    if status in (2, 3):
        return status, at, b""
    rows = worn_rows(line.decode())
    if rows is None:
        return 12, 0, b""
    text = "".join(rows).encode()
    return (8, 0, b"") if len(text) > room else (0, len(text), text) if rows else (13, 0, b"")


# ---- the program writing_vectors
def row(number, room=93):
    status, _, numeral = write_number(number, room)
    return f"{number}\t" + (f"refused {status} 0" if status else numeral.decode())


def vectors_s1():
    yield from map(row, range(10001))
    for k in range(1, 17):
        yield from map(row, (10**k - 1, 10**k, 10**k + 1))
    groups = (0, 7, 1020, 305)
    for i in range(256):
        yield row(sum(groups[i // 4**k % 4] * 10 ** (4 * k) for k in range(4)))
    yield from map(row, (10010000, 100000001))
    yield from (row(TOP, 81), row(TOP, 80), row(TOP + 1), row(TOP + 1, 0), row(2**64 - 1))
    yield from (row(1111111111111111), row(1111111111111111, 92), row(0, 3), row(0, 2))


# ---- the program field_vectors
SIXTEEN = DIGITS + "十百千万億兆"
MARKED = "一百零五 二千五 一万五 一万零五 零万五 百零十 億万 二百万 一二百 一百一百 万億 零百 十十".split()


def fields():
    """All lines of up to two characters, 01's marked lines, both sides of TOP and of 256 characters, characters outside the table, and faults."""
    yield from ["", *SIXTEEN, *(a + b for a in SIXTEEN for b in SIXTEEN), *MARKED]
    yield from (writing(n) for n in (TOP, 10**15, 10005, 100005000))
    yield from ("九千零七兆一千九百九十二億五千四百七十四万零九百九十二", "九零零七一九九二五四七四零九九一", "九零零七一九九二五四七四零九九二")
    yield from ("十十" + "九" * 17, "九九千兆", "一千億五", "零" * 256, "零" * 257, "零" * 255 + "七", "九" * 256, "九" * 257, "九" * 255 + "万", "兆" * 256)
    yield from ("一" + "零" * 254 + "兆", "零" * 254 + "五万", "x", "五x", "x五", "京", "一〇", "一 万", "-五", "万" + "x" * 255, "万" + "x" * 256)
    yield from (b"\xff", "五".encode() + b"\xe4\xb8", b"\xe4", b"\xe9\x9b", b"x" * 300 + b"\xff", b"\xed\xa0\x80", b"\xc0\x80" + "五".encode())
    r = random.Random(4)
    yield from (edited(r) for _ in range(120))


def encoded(field):
    return field if isinstance(field, bytes) else field.encode()


def told(field):
    status, yes, at = read_field(encoded(field))
    return f"refused {status} {at}" if status else f"yes {at}" if yes else "no"


# ---- the program weights_vectors
def weighed_lines():
    """All lines of up to two characters, 01's marked lines, 02's lone digit after each block, both sides of TOP and of 256 characters, leading zeros, and faults."""
    yield from ["", *SIXTEEN, *(a + b for a in SIXTEEN for b in SIXTEEN), *MARKED]
    yield from (f"{small}{large}{last}" for small in ("", "零", "三", "二百三十一") for large in LARGES for last in ("七", "零七", "十七", "千零七", "七十"))
    yield from (writing(n) for n in (TOP, TOP + 1, 10**15, 10005, 100005000, 1111111111111111))
    yield from ("九千零七兆一千九百九十二億五千四百七十四万九", "九零零七一九九二五四七四零九九一", "九零零七一九九二五四七四零九九二", "九千兆九億九万九")
    yield from ("零" * 256, "零" * 257, "零" * 255 + "七", "零" * 254 + "五万", "零" * 20 + "一二三百万五", "零" * 240 + "一二三四五六七八九一二三四五六", "九" * 256, "九" * 257)
    yield from ("一" + "零" * 254 + "兆", "x", "五x", "京", "一〇", "一 万", "五" + "x" * 255, "五" + "x" * 256)
    yield from (b"\xff", "五".encode() + b"\xe4\xb8", b"\xe4", b"x" * 300 + b"\xff", b"\xed\xa0\x80")
    r = random.Random(9)
    yield from (edited(r) for _ in range(120))


def weights_told(line, room):
    status, at, found = weigh_digits(line, room)
    return f"refused {status} {at}" if status else f"weights {at}", found


def weights_row(line):
    line = encoded(line)
    words, found = weights_told(line, 2064)
    rooms = [8 * len(found)] + ([8 * len(found) - 1] if found else [])
    return "".join([words, *(f" {k}" for k in found), *(f"; in {room}: {weights_told(line, room)[0]}" for room in rooms)])


# ---- the program sheet_vectors
def vectors_s8():
    asked = [(0, 200), (0, 0), (0, 5), (0, 6), (0, 7), (0, 11), (0, 12)]
    asked += [(10, 200), (250, 200), (257, 200), (3700, 200), (3707, 200)]
    asked += [(4107, 30), (4107, 29), (6861, 200), (37358, 200)]
    asked += [(50570, 200), (50576, 200), (50576, 27), (50576, 26), (50577, 200), (50577, 0), (50578, 200), (69904, 200), (2**64 - 1, 200)]
    for position, room in asked:
        page, after = proof_sheet(position, room)
        yield f"{position} {room} {len(page)} {after}\n".encode() + page + b"." * (room - len(page)) + b"\n"


# ---- the program worn_vectors
def worn_lines():
    """□ alone and beside each character, between them, at both sides of TOP and of 256 characters; lines without just one □ or with other characters; and faults."""
    yield from [MARK, *(c + MARK for c in SIXTEEN), *(MARK + c for c in SIXTEEN), "十□十", "一□五", "一万□", "一万零□", "二千□", "千□百", "零□百", "億□万", "百□十", "十十□", "□十十"]
    yield from ("九零零七一九九二五四七四零九九□", "九零零七一九九二五四七四零九□一", "九千零七兆一千九百九十二億五千四百七十四万零九百九十□", "□九九九九九九九九九九九九九九九", "九□千兆")
    yield from ("零" * 255 + MARK, MARK + "零" * 255, "零" * 256 + MARK, "九" * 255 + MARK, "零" * 128 + MARK + "零" * 127, MARK * 256, MARK * 257)
    yield from ("", "五", "一万五", "□□", "□一□", "x", "□x", "x□", "五x□", "□京", "一〇□", "□ ", "■", "□■", "一百\u25a0", "-□")
    yield from (b"\xff", MARK.encode() + b"\xff", b"\xe2\x96", MARK.encode()[:2] + "一".encode(), "五".encode() + b"\xe2\x96", b"\xed\xa0\x80", b"x" * 300 + b"\xff")
    r = random.Random(10)
    yield from (worn(r) for _ in range(60))


def worn_told(line):
    status, at, rows = worn_character(encoded(line), 336)
    return f"refused {status} {at}" if status else f"rows {at}\n{rows.decode()}refused 8 0"


# ---- the library against the model
def worn(r):
    """A numeral, or nearly one, with one of its characters worn off."""
    text = edited(r)
    at = r.randrange(len(text) + 1)
    return text[:at] + MARK + text[at + 1 :]


def edited(r):
    """A numeral with a few characters changed, left out or added."""
    text = list(writing(numbers(r) % (TOP + 1)))
    for _ in range(r.randrange(3)):
        at = r.randrange(len(text) + 1)
        text[at : at + r.randrange(2)] = r.choices(SIXTEEN, k=r.randrange(2))
    return "".join(text)


def random_field(r):
    kind = r.randrange(8)
    if kind < 3:
        return edited(r)
    if kind == 3:
        return "".join(r.choices(SIXTEEN, k=r.randrange(10)))
    if kind == 4:
        return "".join(r.choices(DIGITS, k=r.randrange(257))) + r.choice(["", "千", "兆"])
    if kind == 5:
        return "零" * r.randrange(250, 258) + r.choice(["", "五", "万五", "x"])
    line = bytearray(edited(r).encode() * r.choice((1, 1, 9)))
    for _ in range(r.randrange(3) if line else 0):
        line[r.randrange(len(line))] = r.randrange(256)
    return bytes(line[: r.choice((len(line), r.randrange(len(line) + 1)))])



def numbers(r):
    """Numbers of every length, with many zeros among their digits, and some about TOP."""
    kind = r.randrange(8)
    if kind == 0:
        return r.randrange(2**64)
    if kind == 1:
        return TOP + r.randrange(-50, 50)
    digits = r.choices("0123456789", [r.choice((1, 6, 30)), 2, 1, 1, 1, 1, 1, 1, 1, 1], k=r.randrange(1, 17))
    return int("".join(digits))


def case_s1(r):
    number = numbers(r)
    need = write_number(number, 93)[1]
    room = r.choice((0, 93, 200, need, max(need - 1, 0), need + 1, r.randrange(100)))
    status, at, numeral = write_number(number, room)
    out = numeral + b"\xa5" * (room + 8 - len(numeral))
    return f"w {number} {room}", f"{status} {at} {out.hex()}"


def case_s4(r):
    line = encoded(random_field(r))
    status, yes, at = read_field(line)
    return f"f {line.hex() or '-'}", f"{status} {yes} {at}"


def case_s9(r):
    line = encoded(random_field(r))
    need = 8 * len(weigh_digits(line, 2048)[2])
    room = r.choice((0, 2048, need, need, max(need - 1, 0), need + r.randrange(20), r.randrange(300)))
    status, at, found = weigh_digits(line, room)
    out = b"".join(k.to_bytes(8, "little") for k in found)
    out += b"\xa5" * (room + 8 - len(out))
    return f"d {line.hex() or '-'} {room}", f"{status} {at} {out.hex()}"


def case_s8(r):
    """Positions anywhere, about the changes of length and the end, and far past it; outputs of a few rows, or of just some whole rows and a byte more or less."""
    kind = r.randrange(8)
    near = r.choice((0, 16, 257, 3707, len(sheet()))) + r.randrange(-8, 9)
    position = r.randrange(2**64) if kind == 0 else max(near, 0) if kind < 3 else r.randrange(len(sheet()))
    rows = sum(map(len, sheet()[position : position + r.randrange(1, 12)]))
    room = r.choice((0, rows, max(rows - 1, 0), rows + 1, r.randrange(60), r.randrange(400)))
    page, after = proof_sheet(position, room)
    return f"p {position} {room}", f"0 {len(page)} {after} {(page + bytes([0xA5]) * (room + 8 - len(page))).hex()}"


def random_worn(r):
    kind = r.randrange(8)
    if kind < 4:
        return worn(r)
    if kind == 4:
        text = "".join(r.choices(SIXTEEN, k=r.randrange(8)))
        at = r.randrange(len(text) + 1)
        return text[:at] + MARK + text[at:]
    if kind == 5:
        digits = "".join(r.choices(DIGITS, k=r.randrange(258)))
        at = r.randrange(len(digits) + 1)
        return digits[:at] + MARK + digits[at:]
    if kind == 6:
        return "".join(r.choices(SIXTEEN + MARK * 4 + "■x京", k=r.randrange(7)))
    line = bytearray(worn(r).encode() * r.choice((1, 1, 1, 20)))
    for _ in range(r.randrange(3)):
        line[r.randrange(len(line))] = r.randrange(256)
    return bytes(line[: r.choice((len(line), r.randrange(len(line) + 1)))])


def case_s10(r):
    line = encoded(random_worn(r))
    need = worn_character(line, 336)[1]
    room = r.choice((0, 336, 336, 400, need, max(need - 1, 0), need + 1, r.randrange(100)))
    status, at, rows = worn_character(line, room)
    return f"c {line.hex() or '-'} {room}", f"{status} {at} {(rows + bytes([0xA5]) * (room + 8 - len(rows))).hex()}"


CASES = {"S-1": case_s1, "S-4": case_s4, "S-8": case_s8, "S-9": case_s9, "S-10": case_s10}


def run(driver, count, seed):
    for name, case in CASES.items():
        r = random.Random(seed)
        cases = [case(r) for _ in range(count)]
        asked = "".join(f"{question}\n" for question, _ in cases)
        told = subprocess.run([driver], input=asked, capture_output=True, text=True, check=True).stdout.splitlines()
        differ = [(q, mine, its) for (q, mine), its in zip(cases, told, strict=True) if mine != its]
        statuses = sorted({mine.split()[0] for _, mine in cases}, key=int)
        print(f"{name}: {count} cases, statuses {', '.join(statuses)}; {len(differ)} differ", *differ[:5], sep="\n  " if differ else "")
        if differ:
            sys.exit(1)


if __name__ == "__main__":
    if sys.argv[1:] == ["vectors", "S-1"]:
        print(*vectors_s1(), sep="\n")
    elif sys.argv[1:] == ["vectors", "S-4"]:
        sys.stdout.buffer.write(b"".join(encoded(field) + b"\n" for field in fields()))
    elif sys.argv[1:] == ["vectors", "S-4", "answers"]:
        print(*map(told, fields()), sep="\n")
    elif sys.argv[1:] == ["vectors", "S-9"]:
        sys.stdout.buffer.write(b"".join(encoded(line) + b"\n" for line in weighed_lines()))
    elif sys.argv[1:] == ["vectors", "S-9", "answers"]:
        print(*map(weights_row, weighed_lines()), sep="\n")
    elif sys.argv[1:] == ["vectors", "S-8"]:
        sys.stdout.buffer.write(b"".join(vectors_s8()))
    elif sys.argv[1:] == ["sheet"]:
        sys.stdout.buffer.write(b"".join(sheet()))
    elif sys.argv[1:] == ["vectors", "S-10"]:
        sys.stdout.buffer.write(b"".join(encoded(line) + b"\n" for line in worn_lines()))
    elif sys.argv[1:] == ["vectors", "S-10", "answers"]:
        print(*map(worn_told, worn_lines()), sep="\n")
    elif sys.argv[1:2] == ["run"] and len(sys.argv) == 5:
        run(sys.argv[2], int(sys.argv[3]), int(sys.argv[4]))
    else:
        sys.exit(__doc__)
