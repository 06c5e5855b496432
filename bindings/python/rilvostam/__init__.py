"""Written numbers on the lines of registers: 一万五 is 15000.

    >>> import rilvostam
    >>> rilvostam.read_field("一万五")
    15000
    >>> [edge.txt for edge in rilvostam.add_numbers("百分之五") if edge.active is None]
    ['5%']

The functions call librilvostam.so, which is proved against its definitions. A refusal is raised as `Refused`, with the library's number, name and place.
A place counts characters of the line, from 0; an offset counts bytes.
"""

from __future__ import annotations

import ctypes
import struct
from dataclasses import dataclass, field
from fractions import Fraction
from typing import Iterator, List, Optional, Sequence, Tuple, Union, overload

from ._library import EDGE_NUMBERS, function

__version__ = "0.1.0"
__all__ = [
    "Edge",
    "Listing",
    "Number",
    "Refused",
    "NO_EDGES",
    "TOP",
    "add_numbers",
    "add_numbers_to_lines",
    "add_numbers_with_decimals",
    "add_numbers_without_singles",
    "check_table",
    "formal_table",
    "numbers_of",
    "plain_table",
    "proof_sheet",
    "read_field",
    "regular_table",
    "version",
    "weights",
    "worn_character",
    "write_number",
]

TOP = 9_007_199_254_740_991
"""The largest value of a number."""

NO_EDGES = b"\x00\x00"
"""The edge list without an edge."""

_WORK = 65_536
_OUT = 32_768
_PAGE = 1 << 20
_NONE = 2**64 - 1

# Each refusal in the words of include/rilvostam.h: its name, a sentence, and what `at` says with it, "" where it is 0.
_REFUSALS = {
    1: ("SHORT_WORK", "the work space has under 65,536 bytes", ""),
    2: ("NOT_UTF8", "the line is not well-formed UTF-8", "offset of the first ill-formed sequence"),
    3: ("OVER_LONG", "the line has over 256 characters", "offset of the 257th"),
    4: ("TABLE_LAYOUT", "the bytes are no table: an item is cut off, too long or has a bit that may not stand, or bytes are left over", "offset of the item, or of what is left over"),
    5: ("TABLE_CONTENT", "the table has a record or a string that may not stand in one", "offset of the record or string"),
    6: ("BAD_LISTING", "the bytes are no listing, or have an edge that may not stand over the line", "offset of the edge, or of what is left over"),
    7: ("ABOVE_TOP", "a number of the line is above 9,007,199,254,740,991", "place where the number starts"),
    8: ("TOO_LONG", "the listing has over 1,024 edges or over 32,768 bytes, or what is to be written is longer than the output", ""),
    9: ("BAD_PLACE", "a place is past the end of the line, or start is after end", ""),
    10: ("NUMBER_ABOVE_TOP", "the number to be written is above 9,007,199,254,740,991", ""),
    11: ("SUM_ABOVE_TOP", "the sum's numerator or denominator, in lowest terms, is above 9,007,199,254,740,991", "index of the edge in the listing"),
    12: ("NOT_ONE_MARK", "the line has not just one □, or it has another character outside the plain table", ""),
    13: ("NONE_SERVES", "none of the sixteen characters makes the line a numeral up to 9,007,199,254,740,991", ""),
}


class Refused(ValueError):
    """A call was refused: the library's `number` for it, its `name`, a `sentence`, and `at`, the offset, place or index that goes with it, as `place` says, or 0."""

    def __init__(self, number: int, at: int) -> None:
        name, sentence, place = _REFUSALS.get(number, ("UNKNOWN", "the library has no such answer", ""))
        super().__init__(f"refused {number} {name}: {sentence}" + (f" ({place}: {at})" if place else ""))
        self.number = number
        self.name = name
        self.sentence = sentence
        self.place = place
        self.at = at


def version() -> int:
    """The version of the library that is loaded, as one number: 10000 * major + 100 * minor + patch."""
    return function("version")()


Text = Union[str, bytes]


def _utf8(line: Text) -> bytes:
    return line.encode("utf-8", "surrogatepass") if isinstance(line, str) else bytes(line)


def _u64(number: int) -> int:
    if not 0 <= number < 2**64:
        raise OverflowError(f"{number} is no number of 64 bits without a sign")
    return number


def _granted(status: int, at: int) -> int:
    if status:
        raise Refused(status, at)
    return at


@dataclass(frozen=True)
class Edge:
    """An edge of a listing over the line's characters from `start` to `end`. The fields of its numeric data are None where the edge has none."""

    start: int
    end: int
    type: str
    txt: str
    active: Optional[bool] = None
    """None: a regular edge."""
    orig_txt: Optional[str] = None
    value: Optional[float] = None
    fraction: Optional[Tuple[int, int]] = None
    base: Optional[int] = None
    base_multiplier: Optional[float] = None
    script: Optional[str] = None
    large_power: bool = False
    value_s: Optional[str] = None
    decimals: Optional[int] = None
    offset: int = field(default=0, compare=False)
    """Where the edge stands in the listing."""

    @property
    def numeric(self) -> bool:
        """Whether the edge has numeric data."""
        return self.active is not None


def _edge_at(listing: bytes, offset: int) -> Tuple[Edge, int]:
    numbers = (ctypes.c_uint64 * EDGE_NUMBERS)()
    after = ctypes.c_uint64()
    status = function("edge_at")(listing, len(listing), offset, ctypes.byref(numbers), ctypes.byref(after))
    _granted(status, offset)
    map_, start, end, *rest = numbers

    def stands(bit: int) -> bool:
        return bool(map_ >> bit & 1)

    def text(i: int) -> str:
        return listing[rest[i] : rest[i] + rest[i + 1]].decode()

    def f64(i: int) -> float:
        value: float = struct.unpack("<d", struct.pack("<Q", rest[i]))[0]
        return value

    edge = Edge(
        start=start,
        end=end,
        type=text(0),
        txt=text(2),
        active=stands(7) if stands(0) else None,
        orig_txt=text(4) if stands(0) else None,
        value=f64(6) if stands(1) else None,
        fraction=(rest[7], rest[8]) if stands(2) else None,
        base=rest[9] if stands(3) else None,
        base_multiplier=f64(10) if stands(4) else None,
        script=text(11) if stands(5) else None,
        large_power=stands(6),
        value_s=text(13) if stands(8) else None,
        decimals=rest[15] if stands(9) else None,
        offset=offset,
    )
    return edge, after.value


class Listing(Sequence[Edge]):
    """A line with its edges, as a call answered them: a sequence of `Edge`. `bytes(listing)` are the library's own."""

    def __init__(self, line: Text, listing: bytes) -> None:
        self._line = _utf8(line)
        self._bytes = bytes(listing)
        self._edges: Optional[List[Edge]] = None

    @property
    def line(self) -> str:
        """The line."""
        return self._line.decode()

    def __bytes__(self) -> bytes:
        return self._bytes

    def _all(self) -> List[Edge]:
        if self._edges is None:
            edges, at = [], 2
            for _ in range(int.from_bytes(self._bytes[:2], "little")):
                edge, at = _edge_at(self._bytes, at)
                edges.append(edge)
            self._edges = edges
        return self._edges

    def __len__(self) -> int:
        return len(self._all())

    @overload
    def __getitem__(self, i: int) -> Edge: ...

    @overload
    def __getitem__(self, i: slice) -> List[Edge]: ...

    def __getitem__(self, i: Union[int, slice]) -> Union[Edge, List[Edge]]:
        return self._all()[i]

    def __repr__(self) -> str:
        return f"<Listing of {self.line!r}: {len(self)} edges>"

    def _asked(self, name: str, *rest: object) -> int:
        at = ctypes.c_uint64()
        line, listing = self._line, self._bytes
        status = function(name)(line, len(line), listing, len(listing), *rest, ctypes.byref(at))
        return _granted(status, at.value)

    def _edge(self, at: int) -> Optional[Edge]:
        return None if at == _NONE else _edge_at(self._bytes, at)[0]

    def best_edge(self, start: int, end: int, skip_numeric: bool = False) -> Optional[Edge]:
        """The best edge from place start to place end: the first of its class."""
        return self._edge(self._asked("best_edge", _u64(start), _u64(end), skip_numeric))

    def right_neighbor(self, place: int, skip_numeric: bool = False) -> Optional[Edge]:
        """The best edge of the longest span that starts at a place."""
        return self._edge(self._asked("right_neighbor", _u64(place), skip_numeric))

    def left_neighbor(self, place: int, skip_numeric: bool = False) -> Optional[Edge]:
        """The best edge of the longest span that ends at a place."""
        return self._edge(self._asked("left_neighbor", _u64(place), skip_numeric))

    def nearest_number(self, place: int) -> Optional[Edge]:
        """The active numeric edge with the fewest characters between it and a place."""
        return self._edge(self._asked("nearest_number", _u64(place)))

    def path(self, start: int = 0, end: Optional[int] = None, skip_numeric: bool = False) -> "Listing":
        """Right neighbours from start until the end or past it. Without an end: to the line's."""
        to = len(self.line) if end is None else end
        out = ctypes.create_string_buffer(max(len(self._bytes), 2))
        n = self._asked("path", _u64(start), _u64(to), skip_numeric, out, len(out))
        return Listing(self._line, out.raw[:n])

    def shown_text(self, place: int) -> str:
        """The text shown at a place: that of its right neighbour, or the character itself."""
        at, length, inside = ctypes.c_uint64(), ctypes.c_uint64(), ctypes.c_uint8()
        line, listing = self._line, self._bytes
        status = function("shown_text")(
            line, len(line), listing, len(listing), _u64(place), ctypes.byref(at), ctypes.byref(length), ctypes.byref(inside)
        )
        start = _granted(status, at.value)
        source = listing if inside.value else line
        return source[start : start + length.value].decode()

    def shares(self) -> Fraction:
        """What the fractions of the active edges come to together; 0 without any."""
        numerator, denominator = ctypes.c_uint64(), ctypes.c_uint64()
        self._asked("pool_shares", ctypes.byref(numerator), ctypes.byref(denominator))
        return Fraction(numerator.value, denominator.value)


def _called(name: str, line: Text, table: Optional[bytes], edges: bytes) -> Listing:
    text, chars = _utf8(line), plain_table() if table is None else table
    work, out, at = ctypes.create_string_buffer(_WORK), ctypes.create_string_buffer(_OUT), ctypes.c_uint64()
    status = function(name)(
        text, len(text), chars, len(chars), edges, len(edges), work, _WORK, out, _OUT, ctypes.byref(at)
    )
    return Listing(text, out.raw[: _granted(status, at.value)])


def add_numbers(line: Text, table: Optional[bytes] = None, edges: bytes = NO_EDGES) -> Listing:
    """The edges of a line: the given ones, then those of its numbers. Without a table: the plain one."""
    return _called("add_numbers", line, table, edges)


def add_numbers_without_singles(line: Text, table: Optional[bytes] = None, edges: bytes = NO_EDGES) -> Listing:
    """The same, but 兩参參伍陆陸什 and characters of a value above 1000 that stand alone are inactive."""
    return _called("add_numbers_without_singles", line, table, edges)


def add_numbers_with_decimals(line: Text, table: Optional[bytes] = None, edges: bytes = NO_EDGES) -> Listing:
    """The same, but digits, a point without a record in the table and digits are one edge, with its count of decimals, 1 to 15.

    >>> [(edge.txt, edge.value, edge.decimals) for edge in add_numbers_with_decimals("深一.五").path()]
    [('1.5', 1.5, 1)]
    """
    return _called("add_numbers_with_decimals", line, table, edges)


def add_numbers_to_lines(lines: Text, table: Optional[bytes] = None) -> Iterator[Union[Listing, Refused]]:
    """The edges of the lines of a register, in their order: for each line what `add_numbers` answers for it, or the refusal, which is not raised. A refusal of the table is.

    A line ends before a newline or at the end; what follows the last newline is a line only where it is not empty. The table is checked once for many lines.

    >>> for answer in add_numbers_to_lines("墓三号\\n一万五\\n無\\n"):
    ...     print([edge.txt for edge in answer.path()])
    ['3']
    ['15000']
    []
    """
    text, chars = _utf8(lines), plain_table() if table is None else table
    pages = _pages(text, chars)
    first = next(pages, b"")
    return _answers(text, first, pages)


def _pages(text: bytes, table: bytes) -> Iterator[bytes]:
    """The pages for the lines; the first call is made also where there is no line, so that a table is refused."""
    lines = ctypes.create_string_buffer(text, len(text) + 1)
    work, out = ctypes.create_string_buffer(_WORK), ctypes.create_string_buffer(_PAGE)
    behind, at, after = 0, ctypes.c_uint64(), ctypes.c_uint64()
    while True:
        status = function("add_numbers_to_lines")(
            ctypes.byref(lines, behind), len(text) - behind, table, len(table), work, _WORK, out, _PAGE, ctypes.byref(at), ctypes.byref(after)
        )
        yield out.raw[: _granted(status, at.value)]
        behind += after.value
        if behind == len(text):
            return


def _answers(text: bytes, page: bytes, pages: Iterator[bytes]) -> Iterator[Union[Listing, Refused]]:
    start, at = 0, 0
    while start < len(text):
        if at == len(page):
            page, at = next(pages), 0
        end = text.find(b"\n", start)
        line = text[start:] if end < 0 else text[start:end]
        status, number = struct.unpack_from("<IQ", page, at)
        at += 12
        if status:
            yield Refused(status, number)
        else:
            yield Listing(line, page[at : at + number])
            at += number
        start += len(line) + 1


def _written(name: str, room: int, *given: object) -> bytes:
    out, at = ctypes.create_string_buffer(room), ctypes.c_uint64()
    status = function(name)(*given, out, room, ctypes.byref(at))
    return out.raw[: _granted(status, at.value)]


def write_number(number: int) -> str:
    """The numeral of a number from 0 to TOP: 10010000 is 一千零一万."""
    return _written("write_number", 93, _u64(number)).decode()


def read_field(line: Text) -> Optional[int]:
    """The value of a line that is one numeral of the plain table, or None."""
    text, is_number, at = _utf8(line), ctypes.c_uint8(), ctypes.c_uint64()
    status = function("read_field")(text, len(text), ctypes.byref(is_number), ctypes.byref(at))
    value = _granted(status, at.value)
    return value if is_number.value else None


def weights(line: Text) -> List[int]:
    """For each 一 to 九 of a numeral, in line order, by how much the value differs if the digit is one more. Empty for a line that is no numeral."""
    text = _utf8(line)
    out, at = ctypes.create_string_buffer(8 * 256), ctypes.c_uint64()
    status = function("weights")(text, len(text), out, len(out), ctypes.byref(at))
    return list(struct.unpack_from(f"<{_granted(status, at.value)}Q", out.raw))


def _rows(text: bytes) -> List[Tuple[str, int]]:
    rows = (row.split("\t") for row in text.decode().splitlines())
    return [(word, int(value)) for word, value in rows]


def worn_character(line: Text) -> List[Tuple[str, int]]:
    """The characters that may have stood at the one □ of a line, each with the value that the numeral then has."""
    text = _utf8(line)
    return _rows(_written("worn_character", 1024, text, len(text)))


def proof_sheet(position: int = 0) -> Iterator[Tuple[str, int]]:
    """Every numeral of one to four characters with its value, shortest first, from a position on."""
    out, at, after = ctypes.create_string_buffer(4096), ctypes.c_uint64(), ctypes.c_uint64(_u64(position))
    while True:
        _granted(function("proof_sheet")(after.value, out, len(out), ctypes.byref(at), ctypes.byref(after)), 0)
        if at.value == 0:
            return
        yield from _rows(out.raw[: at.value])


def plain_table() -> bytes:
    """The plain table of 零 to 九, 十百千, 万億兆."""
    return _written("plain_table", 582)


def formal_table() -> bytes:
    """The formal table that deeds use: 零, 壹貳參肆伍陸柒捌玖, 拾佰仟, 萬億兆."""
    return _written("formal_table", 582)


def check_table(table: bytes) -> int:
    """How many records a table has. What is no table is refused, as the call would."""
    at = ctypes.c_uint64()
    status = function("check_table")(table, len(table), ctypes.byref(at))
    return _granted(status, at.value)


def regular_table(table: bytes) -> Optional[int]:
    """None for a regular table, of which it is proved which lines are one number; else the offset of its first record that is of none of the four kinds."""
    at = ctypes.c_uint64()
    status = function("regular_table")(table, len(table), ctypes.byref(at))
    irregular = _granted(status, at.value)
    return None if irregular == _NONE else irregular


@dataclass(frozen=True)
class Number:
    """A number in a line: its value, and the places where it starts and ends."""

    value: Union[int, float, Fraction]
    start: int
    end: int


def numbers_of(line: Text, table: Optional[bytes] = None) -> List[Number]:
    """Which number is this line? Where just one active number spans the whole line, that one alone; else all active numbers in it, longest first, of equally long
    ones the one that starts first, then in listing order.

    A part of a longer number is one of them too. Percentages and numbers with a sign are regular edges, without a value, and are none. As `rilvostam_which_numbers` of
    the header, and `which_number` of the Rust crate.

    >>> numbers_of("一万五")
    [Number(value=15000, start=0, end=3)]
    >>> [(n.value, n.start, n.end) for n in numbers_of("墓三号x二十")]
    [(20, 4, 6), (3, 1, 2), (2, 4, 5), (10, 5, 6)]
    """
    listing = add_numbers(line, table)
    found = [_number(edge) for edge in listing if edge.active and (edge.value is not None or edge.fraction is not None)]
    found.sort(key=lambda n: (n.start - n.end, n.start))
    whole = [n for n in found if n.end - n.start == len(listing.line)]
    return whole if len(whole) == 1 else found


def _number(edge: Edge) -> Number:
    if edge.value is None:
        assert edge.fraction is not None
        return Number(Fraction(*edge.fraction), edge.start, edge.end)
    return Number(int(edge.value) if edge.value.is_integer() else edge.value, edge.start, edge.end)
