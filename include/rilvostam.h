/* Rilvostam: written numbers on the lines of registers. The C interface of librilvostam.a.
 *
 * docs/FORMATS.md has the bytes of a table and of a listing field by field, each refusal with an example, and the limits. A listing is read without them: rilvostam_next_edge, below.
 *
 * A slice is a pointer and a length in bytes. No pointer is NULL, not even with length 0. `work`, `out`, `at`, `len`, `in_listing`, `is_number`, `numbers` and `next` overlap no
 * other argument. Bytes need no alignment; `at`, `len`, `numbers` and `next` have that of a uint64_t. The library keeps no state and allocates nothing, so calls may run in
 * parallel, each with buffers of its own.
 *
 * Each function answers RILVOSTAM_OK or the number of a refusal. `*at` is written on every answer: on a refusal the offset in bytes or the place in
 * characters that goes with it, or 0. On a refusal `out` is as it was; otherwise the bytes behind what was written are as they were.
 *
 * A place counts characters of the line, from 0; an offset counts bytes. Multi-byte numbers are little-endian. */
#ifndef RILVOSTAM_H
#define RILVOSTAM_H

#include <stddef.h>
#include <stdint.h>
#include <string.h>

#ifdef __cplusplus
extern "C" {
#endif

/* The version of this header; as one number 10000 * major + 100 * minor + patch. rilvostam_version() is that of the library that is linked. */
#define RILVOSTAM_VERSION "0.1.0"
#define RILVOSTAM_VERSION_NUMBER 100
uint32_t rilvostam_version(void);

/* Refusals, with what *at says then. */
enum {
    RILVOSTAM_OK = 0,
    RILVOSTAM_SHORT_WORK = 1,    /* work space under RILVOSTAM_WORK bytes: 0 */
    RILVOSTAM_NOT_UTF8 = 2,      /* the line is not well-formed UTF-8: offset of the first ill-formed sequence */
    RILVOSTAM_OVER_LONG = 3,     /* over 256 characters: offset of the 257th */
    RILVOSTAM_TABLE_LAYOUT = 4,  /* no table, or bytes left over: offset of the item, or of what is left over */
    RILVOSTAM_TABLE_CONTENT = 5, /* a record or string that may not stand in a table: its offset */
    RILVOSTAM_BAD_LISTING = 6,   /* no listing, or one that does not suit the line: offset of the edge, or of what is left over */
    RILVOSTAM_ABOVE_TOP = 7,     /* a number above 9,007,199,254,740,991: the place where it starts */
    RILVOSTAM_TOO_LONG = 8,      /* the listing has over 1,024 edges or RILVOSTAM_OUT bytes, or what is to be written is longer than the output: 0 */
    RILVOSTAM_BAD_PLACE = 9,     /* a place, start or end above the line's length, or start after end: 0 */
    RILVOSTAM_NUMBER_ABOVE_TOP = 10, /* a number above 9,007,199,254,740,991 that is to be written: 0 */
    RILVOSTAM_SUM_ABOVE_TOP = 11, /* a sum whose numerator or denominator, in lowest terms, is above 9,007,199,254,740,991: index of the edge in the listing, from 0 */
    RILVOSTAM_NOT_ONE_MARK = 12, /* a worn line without just one □, or with another character outside the plain table: 0 */
    RILVOSTAM_NONE_SERVES = 13   /* a worn line that none of the sixteen characters makes a numeral up to 9,007,199,254,740,991: 0 */
};

/* A refusal in words: its name, as above without RILVOSTAM_; a sentence; and what *at says with it, "" where it is 0. */
typedef struct {
    const char *name, *sentence, *place;
} rilvostam_words;

/* The words for an answer of the library; a number that is none has the name UNKNOWN. */
static inline rilvostam_words rilvostam_in_words(uint32_t answer) {
    static const rilvostam_words words[] = {
        {"OK", "nothing is refused", ""},
        {"SHORT_WORK", "the work space has under 65,536 bytes", ""},
        {"NOT_UTF8", "the line is not well-formed UTF-8", "offset of the first ill-formed sequence"},
        {"OVER_LONG", "the line has over 256 characters", "offset of the 257th"},
        {"TABLE_LAYOUT", "the bytes are no table: an item is cut off, too long or has a bit that may not stand, or bytes are left over", "offset of the item, or of what is left over"},
        {"TABLE_CONTENT", "the table has a record or a string that may not stand in one", "offset of the record or string"},
        {"BAD_LISTING", "the bytes are no listing, or have an edge that may not stand over the line", "offset of the edge, or of what is left over"},
        {"ABOVE_TOP", "a number of the line is above 9,007,199,254,740,991", "place where the number starts"},
        {"TOO_LONG", "the listing has over 1,024 edges or over 32,768 bytes, or what is to be written is longer than the output", ""},
        {"BAD_PLACE", "a place is past the end of the line, or start is after end", ""},
        {"NUMBER_ABOVE_TOP", "the number to be written is above 9,007,199,254,740,991", ""},
        {"SUM_ABOVE_TOP", "the sum's numerator or denominator, in lowest terms, is above 9,007,199,254,740,991", "index of the edge in the listing"},
        {"NOT_ONE_MARK", "the line has not just one □, or it has another character outside the plain table", ""},
        {"NONE_SERVES", "none of the sixteen characters makes the line a numeral up to 9,007,199,254,740,991", ""},
    };
    static const rilvostam_words unknown = {"UNKNOWN", "the library has no such answer", ""};
    return answer < sizeof words / sizeof words[0] ? words[answer] : unknown;
}

/* Bytes of work space that rilvostam_add_numbers needs, and bytes of output that always suffice. */
#define RILVOSTAM_WORK 65536
#define RILVOSTAM_OUT 32768

/* Bytes of output that suffice for every numeral. */
#define RILVOSTAM_NUMERAL 93

/* Bytes of output that suffice for the weights of every line. */
#define RILVOSTAM_WEIGHTS 2048

/* Bytes of output that suffice for the rows of every worn line. */
#define RILVOSTAM_WORN 336

/* No edge. */
#define RILVOSTAM_NONE UINT64_MAX

/* The edges of a line as a listing: the given ones, then those of its numbers. `table` says which characters count; its markers and signs stand in the line in either
 * width (U+FF01 to U+FF5E count as U+0021 to U+007E there). `edges` is a listing of regular edges (no edges: the two bytes 00 00).
 * What `work` held before has no influence, and what it holds afterwards means nothing.
 * 0: *at is the length of the listing in out. */
uint32_t rilvostam_add_numbers(const uint8_t *line, size_t line_len, const uint8_t *table, size_t table_len,
                               const uint8_t *edges, size_t edges_len, uint8_t *work, size_t work_len,
                               uint8_t *out, size_t out_len, uint64_t *at);

/* The same, but some singles may not stand: edges one place long that no pass joined are inactive in the listing where they are above 1000 or one of 兩参參伍陆陸什, and so
 * are their copies with a separator before the txt. The refusals are the same, and so are the bytes of the listing but for those active bits. */
uint32_t rilvostam_add_numbers_without_singles(const uint8_t *line, size_t line_len, const uint8_t *table, size_t table_len,
                                               const uint8_t *edges, size_t edges_len, uint8_t *work, size_t work_len,
                                               uint8_t *out, size_t out_len, uint64_t *at);

/* The same with decimals: at least one digit, one point (U+002E, where the table has no record for it) and at least one digit, each touching the next, are one edge: 一.五, and 1.5 where
 * the table has 1 and 5 as digits. Its value is the digits divided by the power of ten, its decimals 1 to 15: a sixteenth decimal stays outside. Digits above
 * 9,007,199,254,740,991 are refused 7, the point left out: 九零零七一九九二五四七四零九九.二 is. Before 十百千 or 万億兆 the edge becomes their product where that is whole: 二.五千 is 2500.
 * Nothing else takes it for a number: a percentage and a sign have its txt. For a line without a point, and with a table that has a record for it, answer and output are those of
 * rilvostam_add_numbers. */
uint32_t rilvostam_add_numbers_with_decimals(const uint8_t *line, size_t line_len, const uint8_t *table, size_t table_len,
                                             const uint8_t *edges, size_t edges_len, uint8_t *work, size_t work_len,
                                             uint8_t *out, size_t out_len, uint64_t *at);

/* Many lines with one table, which is checked once: a page of entries, one for each line, in their order. A line ends before a newline (0x0A) or at the end of the bytes; what
 * follows the last newline is a line only where it is not empty. So no bytes are no line, and a newline alone is one empty line.
 * An entry is a status (4 bytes), a number (8 bytes) and, where the status is 0, so many bytes of listing. Status and number are what rilvostam_add_numbers answers for the line with
 * this table, no given edges and RILVOSTAM_OUT bytes of output; an offset in them counts from the start of the line. rilvostam_add_numbers_to_lines itself refuses 1, 4 and 5 alone.
 * A page holds as many whole entries as out has room for, and none if the first does not fit; RILVOSTAM_ENTRY bytes hold any entry. Call again with the lines from *next on, until
 * *next is lines_len: the pages in a row are the entries of all lines.
 * 0: *at is the length of the page in out, *next the offset behind the last line answered, its newline included; 0 where none was, lines_len where all were. On a refusal *next is 0. */
#define RILVOSTAM_ENTRY 32780
uint32_t rilvostam_add_numbers_to_lines(const uint8_t *lines, size_t lines_len, const uint8_t *table, size_t table_len,
                                        uint8_t *work, size_t work_len, uint8_t *out, size_t out_len, uint64_t *at, uint64_t *next);

/* An entry of a page: the answer for one line. */
typedef struct {
    uint32_t status;        /* RILVOSTAM_OK, or the refusal of this line */
    uint64_t at;            /* with a refusal what goes with it; else the length of the listing */
    const uint8_t *listing; /* with RILVOSTAM_OK the listing, a part of the page; with a refusal no bytes */
    size_t listing_len;
} rilvostam_entry;

/* The entries of a page one after the other, from *at = 0 on:
 *     uint64_t at = 0; rilvostam_entry e;
 *     while (rilvostam_next_entry(page, len, &at, &e)) ..
 * 1: *e is the next entry and *at the offset behind it. 0: no whole entry stands at *at, and both are as they were. Of a page that the library wrote *at is then its length. */
static inline int rilvostam_next_entry(const uint8_t *page, size_t page_len, uint64_t *at, rilvostam_entry *e) {
    uint64_t here = *at, number = 0;
    uint32_t status = 0;
    int i;
    if (here > page_len || page_len - here < 12) return 0;
    for (i = 3; i >= 0; i--) status = status << 8 | page[here + i];
    for (i = 11; i >= 4; i--) number = number << 8 | page[here + i];
    here += 12;
    if (status == RILVOSTAM_OK && page_len - here < number) return 0;
    e->status = status;
    e->at = number;
    e->listing = page + here;
    e->listing_len = status == RILVOSTAM_OK ? (size_t)number : 0;
    *at = here + e->listing_len;
    return 1;
}

/* The best edge from place start to place end: the first of its class in listing order. A skip other than 0: no numeric edge.
 * 0: *at is the offset of the edge in the listing, or RILVOSTAM_NONE. The neighbours, the path and the text shown below take their edges so too. */
uint32_t rilvostam_best_edge(const uint8_t *line, size_t line_len, const uint8_t *listing, size_t listing_len,
                             uint64_t start, uint64_t end, uint8_t skip, uint64_t *at);

/* The best edge of the longest span that starts at a place; that ends at a place. Answers as best_edge. */
uint32_t rilvostam_right_neighbor(const uint8_t *line, size_t line_len, const uint8_t *listing, size_t listing_len,
                                  uint64_t place, uint8_t skip, uint64_t *at);
uint32_t rilvostam_left_neighbor(const uint8_t *line, size_t line_len, const uint8_t *listing, size_t listing_len,
                                 uint64_t place, uint8_t skip, uint64_t *at);

/* The number nearest to a place: the active numeric edge with the fewest characters between it and the place. An edge that starts at or before the place and
 * ends at or behind it counts 0. At equal distance the earlier start, then the longer edge, then the first in listing order. Answers as best_edge: none
 * exactly where the listing has no active numeric edge. */
uint32_t rilvostam_nearest_number(const uint8_t *line, size_t line_len, const uint8_t *listing, size_t listing_len,
                                  uint64_t place, uint64_t *at);

/* The path: right neighbours from start until it is at end or past it, written to out as a listing; a place without one is passed over.
 * 0: *at is the length of that listing. It is never longer than the listing that is read (theorem path_out_shorter, docs/PROVED.md). */
uint32_t rilvostam_path(const uint8_t *line, size_t line_len, const uint8_t *listing, size_t listing_len,
                        uint64_t start, uint64_t end, uint8_t skip, uint8_t *out, size_t out_len, uint64_t *at);

/* The text shown at a place: the txt of its right neighbour, or the character itself.
 * 0: *len bytes from *at on, of the listing where *in_listing is 1, of the line where it is 0. On a refusal *len and *in_listing are 0. */
uint32_t rilvostam_shown_text(const uint8_t *line, size_t line_len, const uint8_t *listing, size_t listing_len,
                              uint64_t place, uint64_t *at, uint64_t *len, uint8_t *in_listing);

/* The edge at an offset of a listing, as numbers: those of the enum below, in numbers[0] to numbers[18]. A text is its offset in the listing and its length; value and mult are the bits
 * of their double; what the edge does not have is 0. An offset is RILVOSTAM_FIRST_EDGE, a *next of this call, or one that a call above answered; whatever stands elsewhere is read
 * as if it were an edge. rilvostam_read_edge and rilvostam_next_edge are easier to use.
 * 0: *next is the offset of the next edge, the listing's length behind the last. Where no whole edge stands, as there, it is refused 6, *next is at and numbers is as it was. */
#define RILVOSTAM_FIRST_EDGE 2
enum {
    RILVOSTAM_EDGE_MAP, /* which fields there are: the bits RILVOSTAM_IS_.. and RILVOSTAM_HAS_.. */
    RILVOSTAM_EDGE_START,
    RILVOSTAM_EDGE_END,
    RILVOSTAM_EDGE_TYPE,
    RILVOSTAM_EDGE_TYPE_LEN,
    RILVOSTAM_EDGE_TXT,
    RILVOSTAM_EDGE_TXT_LEN,
    RILVOSTAM_EDGE_ORIG_TXT,
    RILVOSTAM_EDGE_ORIG_TXT_LEN,
    RILVOSTAM_EDGE_VALUE,
    RILVOSTAM_EDGE_NUMERATOR,
    RILVOSTAM_EDGE_DENOMINATOR,
    RILVOSTAM_EDGE_BASE,
    RILVOSTAM_EDGE_MULT,
    RILVOSTAM_EDGE_SCRIPT,
    RILVOSTAM_EDGE_SCRIPT_LEN,
    RILVOSTAM_EDGE_VALUE_S,
    RILVOSTAM_EDGE_VALUE_S_LEN,
    RILVOSTAM_EDGE_DECIMALS,
    RILVOSTAM_EDGE_NUMBERS /* how many they are: 19 */
};
uint32_t rilvostam_edge_at(const uint8_t *listing, size_t listing_len, uint64_t at, uint64_t *numbers, uint64_t *next);

/* The bits of an edge's map. */
enum {
    RILVOSTAM_IS_NUMERIC = 1, /* it has orig_txt; without this bit none of the others stands */
    RILVOSTAM_HAS_VALUE = 2,
    RILVOSTAM_HAS_FRACTION = 4,
    RILVOSTAM_HAS_BASE = 8,
    RILVOSTAM_HAS_MULT = 16,
    RILVOSTAM_HAS_SCRIPT = 32,
    RILVOSTAM_IS_LARGE_POWER = 64,
    RILVOSTAM_IS_ACTIVE = 128,
    RILVOSTAM_HAS_VALUE_S = 256,
    RILVOSTAM_HAS_DECIMALS = 512
};

/* A text of an edge: a part of the listing, in UTF-8, without a zero byte behind it. printf("%.*s", (int)t.len, t.at) prints it. */
typedef struct {
    const char *at;
    size_t len;
} rilvostam_text;

/* An edge. A field whose bit of the map does not stand is 0, and its text empty. The texts last as long as the listing. */
typedef struct {
    uint64_t offset;     /* where it stands in the listing */
    uint64_t start, end; /* places: characters of the line */
    uint32_t map;
    rilvostam_text type, txt, orig_txt, script, value_s;
    double value, mult;
    uint64_t numerator, denominator, base;
    uint64_t decimals; /* 1 to 15: how many digits stand behind the point; without its bit 0 */
} rilvostam_edge;

static inline rilvostam_text rilvostam_edge_text(const uint8_t *listing, const uint64_t *offset_and_length) {
    rilvostam_text t;
    t.at = (const char *)listing + offset_and_length[0];
    t.len = (size_t)offset_and_length[1];
    return t;
}

static inline void rilvostam_fill_edge(const uint8_t *listing, uint64_t at, const uint64_t *n, rilvostam_edge *e) {
    e->offset = at;
    e->start = n[RILVOSTAM_EDGE_START];
    e->end = n[RILVOSTAM_EDGE_END];
    e->map = (uint32_t)n[RILVOSTAM_EDGE_MAP];
    e->type = rilvostam_edge_text(listing, n + RILVOSTAM_EDGE_TYPE);
    e->txt = rilvostam_edge_text(listing, n + RILVOSTAM_EDGE_TXT);
    e->orig_txt = rilvostam_edge_text(listing, n + RILVOSTAM_EDGE_ORIG_TXT);
    e->script = rilvostam_edge_text(listing, n + RILVOSTAM_EDGE_SCRIPT);
    e->value_s = rilvostam_edge_text(listing, n + RILVOSTAM_EDGE_VALUE_S);
    memcpy(&e->value, n + RILVOSTAM_EDGE_VALUE, sizeof e->value);
    memcpy(&e->mult, n + RILVOSTAM_EDGE_MULT, sizeof e->mult);
    e->numerator = n[RILVOSTAM_EDGE_NUMERATOR];
    e->denominator = n[RILVOSTAM_EDGE_DENOMINATOR];
    e->base = n[RILVOSTAM_EDGE_BASE];
    e->decimals = n[RILVOSTAM_EDGE_DECIMALS];
}

/* The edge at an offset that a call answered: 1 and *e, or 0 where no whole edge stands, and *e is as it was. */
static inline int rilvostam_read_edge(const uint8_t *listing, size_t listing_len, uint64_t at, rilvostam_edge *e) {
    uint64_t n[RILVOSTAM_EDGE_NUMBERS], next;
    if (rilvostam_edge_at(listing, listing_len, at, n, &next) != RILVOSTAM_OK) return 0;
    rilvostam_fill_edge(listing, at, n, e);
    return 1;
}

/* The edges of a listing one after the other, from *at = 0 on:
 *     uint64_t at = 0; rilvostam_edge e;
 *     while (rilvostam_next_edge(listing, len, &at, &e)) ..
 * 1: *e is the next edge and *at the offset behind it. 0: no whole edge stands at *at. Of a listing that the library wrote or accepted *at is then its length. */
static inline int rilvostam_next_edge(const uint8_t *listing, size_t listing_len, uint64_t *at, rilvostam_edge *e) {
    uint64_t n[RILVOSTAM_EDGE_NUMBERS], next, here = *at;
    if (here < RILVOSTAM_FIRST_EDGE) here = RILVOSTAM_FIRST_EDGE;
    *at = here;
    if (rilvostam_edge_at(listing, listing_len, here, n, &next) != RILVOSTAM_OK) return 0;
    rilvostam_fill_edge(listing, here, n, e);
    *at = next;
    return 1;
}

/* Which number is this line? Of its listing, the active numeric edges with a value or a fraction (map): where just one of them spans the whole line, that one alone, so that its
 * value is the line's; else all of them, longest first, of equally long ones the one that starts first, then in listing order. A part of a longer number is one of them too: of
 * 墓三号x二十 these are 20, 3, 2 and 10. Percentages and numbers with a sign are regular edges, without a value, and are none: of -五 it is 5, from place 1 to 2.
 * At most room go to numbers; RILVOSTAM_EDGES hold those of every listing that rilvostam_add_numbers makes. Answers how many went. */
#define RILVOSTAM_EDGES 1024
static inline size_t rilvostam_which_numbers(const uint8_t *line, size_t line_len, const uint8_t *listing, size_t listing_len, rilvostam_edge *numbers, size_t room) {
    rilvostam_edge e;
    uint64_t at = 0, characters = 0;
    size_t count = 0, whole = 0, i;
    for (i = 0; i < line_len; i++) characters += (line[i] & 0xC0) != 0x80;
    while (rilvostam_next_edge(listing, listing_len, &at, &e)) {
        if ((e.map & RILVOSTAM_IS_ACTIVE) == 0 || (e.map & (RILVOSTAM_HAS_VALUE | RILVOSTAM_HAS_FRACTION)) == 0) continue;
        whole += e.end - e.start == characters;
        /* It goes behind those that are longer, and those as long that do not start after it. */
        for (i = count; i > 0; i--) {
            const rilvostam_edge *before = numbers + i - 1;
            if (before->end - before->start > e.end - e.start || (before->end - before->start == e.end - e.start && before->start <= e.start)) break;
            if (i < room) numbers[i] = *before;
        }
        if (i < room) numbers[i] = e;
        if (count < room) count++;
    }
    return whole == 1 && count > 1 ? 1 : count;
}

/* The numeral of a number, at the front of out, in UTF-8 with the characters of the plain table: 10010000 is 一千零一万, and 0 is 零. A number above TOP is refused 10
 * whatever the output's length.
 * 0: *at is the length of the numeral. */
uint32_t rilvostam_write_number(uint64_t number, uint8_t *out, size_t out_len, uint64_t *at);

/* Is this field one number? The line is read with the plain table, straight by the grammar of numerals: 一万五 is one, 一百一百 is none, and so is a line with any other character.
 * 0: *is_number is 1 and *at is the value, or both are 0. A numeral above TOP is refused 7. On a refusal *is_number is 0. */
uint32_t rilvostam_read_field(const uint8_t *line, size_t line_len, uint8_t *is_number, uint64_t *at);

/* How far one wrong digit goes: a weight for each 一 to 九 of a line that is one numeral of the plain table, in line order, eight bytes each, little-endian, at the front of out.
 * Another of these nine in that digit's stead makes a numeral too, whose value differs by the difference of the digits times the weight: 一万五 has the weights 10000 and 1000.
 * A numeral above TOP is refused 7 whatever the output's length. RILVOSTAM_WEIGHTS bytes of output always suffice.
 * 0: *at is the count of the weights, 0 for a line that is no numeral. */
uint32_t rilvostam_weights(const uint8_t *line, size_t line_len, uint8_t *out, size_t out_len, uint64_t *at);

/* A page of the proof sheet: every numeral of one to four characters of the plain table whose value is at most TOP, shortest first, then character by character in the order 零 to 九,
 * 十百千, 万億兆, with its value. A row is the numeral in UTF-8, a tab, the value in decimal and a newline. The sheet has RILVOSTAM_SHEET_ROWS rows, counted from 0; the page begins with the
 * one at `position` and holds as many whole rows as out has room for: none if the first does not fit, and none from RILVOSTAM_SHEET_ROWS on. RILVOSTAM_ROW bytes hold any row.
 * next overlaps no other argument and has the alignment of a uint64_t. Nothing is refused.
 * 0: *at is the length of the page in out, *next the position after its last row, or without rows `position`. */
#define RILVOSTAM_SHEET_ROWS 50577
#define RILVOSTAM_ROW 30
uint32_t rilvostam_proof_sheet(uint64_t position, uint8_t *out, size_t out_len, uint64_t *at, uint64_t *next);

/* One character of the line is worn off and marked □ (U+25A1): which of the sixteen of the plain table may have stood there? Each that makes the line a numeral up to
 * 9,007,199,254,740,991 has a row in out: the character, a tab, the line's value in decimal and a newline, in the order 零 to 九, 十百千, 万億兆. A line without just one
 * □ or with another character outside the table is refused 12, one for which none serves 13.
 * 0: *at is the length of the rows, at most RILVOSTAM_WORN. */
uint32_t rilvostam_worn_character(const uint8_t *line, size_t line_len, uint8_t *out, size_t out_len, uint64_t *at);

/* The shares of a listing: the fractions of its active edges, each added to the sum of those before, in lowest terms. Without any the sum is 0/1. It is refused 11
 * at the first edge with which numerator or denominator is above 9,007,199,254,740,991. numerator and denominator overlap no other argument and have the
 * alignment of a uint64_t.
 * 0: the sum is *numerator / *denominator, and *at is 0. On a refusal *numerator and *denominator are 0. */
uint32_t rilvostam_pool_shares(const uint8_t *line, size_t line_len, const uint8_t *listing, size_t listing_len,
                               uint64_t *numerator, uint64_t *denominator, uint64_t *at);

/* The tables that the library has, for rilvostam_add_numbers: the plain one (零 to 九, 十百千, 万億兆), and the formal one that deeds use (零, 壹貳參肆伍陸柒捌玖, 拾佰仟, 萬億兆).
 * Both have RILVOSTAM_TABLE bytes. 0: *at is the length of the table in out. RILVOSTAM_TOO_LONG where out is shorter. */
#define RILVOSTAM_TABLE 582
uint32_t rilvostam_plain_table(uint8_t *out, size_t out_len, uint64_t *at);
uint32_t rilvostam_formal_table(uint8_t *out, size_t out_len, uint64_t *at);

/* The check of a table, as rilvostam_add_numbers makes it: refusal 4 or 5 with the offset.
 * 0: *at is the count of its records. */
uint32_t rilvostam_check_table(const uint8_t *table, size_t table_len, uint64_t *at);

/* Is this table regular? Then its lines are read by its own grammar of numerals, as proved (docs/PROVED.md, "For makers"): each record is a digit (type "digit", value 0 to 9, base 1,
 * no large power), a unit (value 10 or more, base from 2 up to the value, no large power, not 零 or 〇), a large power (value 10 or more, base 2 or more), or any other (no value, no base
 * above 1 unless it is a large power, not 零 or 〇).
 * 0: *at is RILVOSTAM_NONE where it is, else the offset of its first record of none of the four kinds. RILVOSTAM_TABLE_LAYOUT or RILVOSTAM_TABLE_CONTENT as from rilvostam_add_numbers. */
uint32_t rilvostam_regular_table(const uint8_t *table, size_t table_len, uint64_t *at);

#ifdef __cplusplus
}
#endif

#endif
