/* Tests of the C interface and of the header's inline functions; tools/test_bindings runs it. Silent and 0 where all hold; else a line for each that does not, and 1. */
#include <stdio.h>
#include <string.h>
#include "../../include/rilvostam.h"

static int faults = 0;
#define CHECK(what) ((what) ? (void)0 : (void)(faults++, fprintf(stderr, "%s:%d: not so: %s\n", __FILE__, __LINE__, #what)))

static uint8_t table[RILVOSTAM_TABLE], work[RILVOSTAM_WORK], listing[RILVOSTAM_OUT];
static const uint8_t no_edges[2] = {0, 0};

static int is(rilvostam_text t, const char *text) { return t.len == strlen(text) && memcmp(t.at, text, t.len) == 0; }

static const uint8_t *bytes(const char *text) { return (const uint8_t *)text; }

/* The length of a line's listing, with the plain table. */
static size_t list(const char *line) {
    uint64_t at;
    CHECK(rilvostam_plain_table(table, sizeof table, &at) == RILVOSTAM_OK && at == sizeof table);
    CHECK(rilvostam_add_numbers(bytes(line), strlen(line), table, sizeof table, no_edges, 2, work, sizeof work, listing, sizeof listing, &at) == RILVOSTAM_OK);
    return (size_t)at;
}

static void version(void) {
    unsigned major, minor, patch;
    CHECK(sscanf(RILVOSTAM_VERSION, "%u.%u.%u", &major, &minor, &patch) == 3);
    CHECK(RILVOSTAM_VERSION_NUMBER == 10000 * major + 100 * minor + patch);
    CHECK(rilvostam_version() == RILVOSTAM_VERSION_NUMBER);
}

static void words(void) {
    CHECK(strcmp(rilvostam_in_words(0).name, "OK") == 0);
    CHECK(strcmp(rilvostam_in_words(RILVOSTAM_NOT_UTF8).name, "NOT_UTF8") == 0);
    CHECK(strcmp(rilvostam_in_words(RILVOSTAM_SUM_ABOVE_TOP).place, "index of the edge in the listing") == 0);
    CHECK(strcmp(rilvostam_in_words(13).name, "NONE_SERVES") == 0);
    CHECK(strcmp(rilvostam_in_words(14).name, "UNKNOWN") == 0);
    CHECK(strcmp(rilvostam_in_words(UINT32_MAX).name, "UNKNOWN") == 0);
    for (uint32_t i = 0; i < 16; i++) CHECK(*rilvostam_in_words(i).name && *rilvostam_in_words(i).sentence);
}

/* An edge with every field over the first two places, and behind it a regular one. */
static const uint8_t two[] = "\x02\0\xff\x03\0\0\x02\0\x01\0t\x02\0xy\x01\0o\0\0\0\0\0\0\x14\x40\x01\0\0\0\0\0\0\0\x02\0\0\0\0\0\0\0\x09\0\0\0\0\0\0\0\0\0\0\0\0\0\xe0\x3f\x01\0c\x01\0v\x0f"
                             "\0\0\0\0\x01\0\0\0\0\0";
#define TWO (sizeof two - 1)
#define SECOND (TWO - 10)

static void edges(void) {
    rilvostam_edge e;
    uint64_t at = 0, n[RILVOSTAM_EDGE_NUMBERS], next;
    CHECK(rilvostam_next_edge(two, TWO, &at, &e) && at == SECOND && e.offset == 2 && e.start == 0 && e.end == 2 && e.map == 1023);
    CHECK(is(e.type, "t") && is(e.txt, "xy") && is(e.orig_txt, "o") && is(e.script, "c") && is(e.value_s, "v"));
    CHECK(e.value == 5 && e.mult == 0.5 && e.numerator == 1 && e.denominator == 2 && e.base == 9 && e.decimals == 15);
    CHECK(rilvostam_next_edge(two, TWO, &at, &e) && at == TWO && e.offset == SECOND && e.start == 0 && e.end == 1 && e.map == 0);
    CHECK(is(e.type, "") && is(e.txt, "") && is(e.orig_txt, "") && e.value == 0 && e.base == 0);
    CHECK(!rilvostam_next_edge(two, TWO, &at, &e) && at == TWO && e.offset == SECOND);
    CHECK(rilvostam_read_edge(two, TWO, SECOND, &e) && !rilvostam_read_edge(two, TWO, TWO, &e) && !rilvostam_read_edge(two, TWO, RILVOSTAM_NONE, &e));
    /* cut off anywhere: 6 at the edge, and the numbers as they were */
    for (size_t len = 0; len < TWO; len++) {
        uint64_t cut = len < SECOND ? 2 : SECOND;
        memset(n, 7, sizeof n);
        next = 7;
        CHECK(rilvostam_edge_at(two, len, cut, n, &next) == RILVOSTAM_BAD_LISTING && next == cut);
        for (int i = 0; i < RILVOSTAM_EDGE_NUMBERS; i++) CHECK(n[i] == 0x0707070707070707u);
    }
    CHECK(RILVOSTAM_EDGE_NUMBERS == 19);
    const char *rows[] = {"100", "5", "5%"};
    size_t len = list("百分之五"), count = 0;
    for (at = 0; rilvostam_next_edge(listing, len, &at, &e); count++) CHECK(count < 3 && is(e.txt, rows[count]));
    CHECK(count == 3 && at == len);
}

/* Which numbers a line is, at most room of them: start, end and txt of each, as "0 3 15000,". */
static const char *which(const char *line, size_t room) {
    static rilvostam_edge n[RILVOSTAM_EDGES + 1];
    static char said[256];
    memset(n, 0, sizeof n);
    size_t len = list(line), count = rilvostam_which_numbers(bytes(line), strlen(line), listing, len, n, room);
    CHECK(count <= room && n[room].end == 0);
    *said = 0;
    for (size_t i = 0; i < count; i++) sprintf(said + strlen(said), "%d %d %.*s,", (int)n[i].start, (int)n[i].end, (int)n[i].txt.len, n[i].txt.at);
    return said;
}

static void numbers(void) {
    static const struct {
        const char *line, *numbers;
    } rows[] = {
        {"一万五", "0 3 15000,"},
        {"三分之一", "0 4 1/3,"},
        {"零", "0 1 0,"},
        {"墓三号x二十", "4 6 20,1 2 3,4 5 2,5 6 \xc2\xb7" "10,"},
        {"一百一百", "0 2 100,2 4 \xc2\xb7" "100,0 1 1,1 2 \xc2\xb7" "100,2 3 \xc2\xb7" "1,3 4 \xc2\xb7" "100,"},
        {"x二分之一分之一", "1 5 1/2,4 8 1/1,"},
        {"百分之五", ""},
        {"-五", "1 2 5,"},
        {"x", ""},
        {"", ""},
    };
    rilvostam_edge n[3];
    for (size_t i = 0; i < sizeof rows / sizeof *rows; i++) CHECK(strcmp(which(rows[i].line, RILVOSTAM_EDGES), rows[i].numbers) == 0);
    CHECK(strcmp(which("墓三号x二十", 2), "4 6 20,1 2 3,") == 0 && strcmp(which("墓三号x二十", 1), "4 6 20,") == 0 && *which("墓三号x二十", 0) == 0);
    CHECK(strcmp(which("一万五", 1), "0 3 15000,") == 0 && *which("一万五", 0) == 0);
    size_t len = list("一万五"), line_len = strlen("一万五");
    CHECK(rilvostam_which_numbers(bytes("一万五"), line_len, listing, len, n, 3) == 1 && n[0].value == 15000);
    len = list("三分之一");
    CHECK(rilvostam_which_numbers(bytes("三分之一"), strlen("三分之一"), listing, len, n, 3) == 1 && n[0].numerator == 1 && n[0].denominator == 3 && !(n[0].map & RILVOSTAM_HAS_VALUE));
    /* Two numbers that span the whole line x are both given, in listing order; one without value and fraction is none. */
    const uint8_t two_values[] = "\x03\0\x81\0\0\0\x01\0\0\0\0\0\0\0\x83\0\0\0\x01\0\0\0\0\0\0\0\0\0\0\0\0\0\x14\x40\x83\0\0\0\x01\0\0\0\0\0\0\0\0\0\0\0\0\0\x08\x40";
    CHECK(rilvostam_which_numbers(bytes("x"), 1, two_values, sizeof two_values - 1, n, 3) == 2 && n[0].value == 5 && n[1].value == 3);
}

/* The call with decimals: 1.5 is one edge, which the reading calls know; so it is one number. */
static void decimals(void) {
    const char *line = "一.五";
    rilvostam_edge n[3];
    uint64_t at, found;
    size_t len = list(line);
    CHECK(rilvostam_which_numbers(bytes(line), strlen(line), listing, len, n, 3) == 2);
    CHECK(rilvostam_add_numbers_with_decimals(bytes(line), strlen(line), table, sizeof table, no_edges, 2, work, sizeof work, listing, sizeof listing, &at) == RILVOSTAM_OK);
    len = (size_t)at;
    CHECK(rilvostam_which_numbers(bytes(line), strlen(line), listing, len, n, 3) == 1 && n[0].value == 1.5 && n[0].decimals == 1 && is(n[0].txt, "1.5") && is(n[0].orig_txt, line));
    CHECK(rilvostam_right_neighbor(bytes(line), strlen(line), listing, len, 0, 0, &found) == RILVOSTAM_OK && found == n[0].offset);
    CHECK(rilvostam_add_numbers_with_decimals(bytes(line), strlen(line), table, sizeof table, no_edges, 2, work, sizeof work, listing, len - 1, &at) == RILVOSTAM_TOO_LONG && at == 0);
}

/* What the entries of a page say, behind what was said before: the length of each listing, or a refusal with what goes with it. */
static void say_entries(const uint8_t *page, size_t len, char *said) {
    rilvostam_entry e;
    uint64_t at = 0;
    while (rilvostam_next_entry(page, len, &at, &e)) {
        if (e.status) sprintf(said + strlen(said), "refused %u ", (unsigned)e.status);
        sprintf(said + strlen(said), "%llu,", (unsigned long long)e.at);
        CHECK(e.status ? e.listing_len == 0 : e.listing_len == e.at && e.listing + e.listing_len <= page + len);
    }
    CHECK(at == len);
}

/* A register: a line with a number, an empty one, one that is refused, one without a newline behind it. */
static void many_lines(void) {
    static uint8_t page[RILVOSTAM_ENTRY];
    const char *lines = "墓三号\n\nx\xff\n一万五";
    size_t lines_len = strlen(lines), room, behind;
    char whole[256] = "", said[256] = "", expected[256] = "";
    uint64_t at, next;
    rilvostam_entry e;
    sprintf(expected, "%u,2,refused 2 1,%u,", (unsigned)list("墓三号"), (unsigned)list("一万五"));
    CHECK(rilvostam_add_numbers_to_lines(bytes(lines), lines_len, table, sizeof table, work, sizeof work, page, sizeof page, &at, &next) == RILVOSTAM_OK && next == lines_len);
    say_entries(page, (size_t)at, whole);
    CHECK(strcmp(whole, expected) == 0);
    /* the last entry has the listing that the line alone has */
    for (behind = (size_t)at, at = 0; at < behind;) CHECK(rilvostam_next_entry(page, behind, &at, &e));
    CHECK(e.listing_len == list("一万五") && memcmp(e.listing, listing, e.listing_len) == 0);
    /* by pages of just one entry: the same in a row; a page too short for the first has none */
    room = 12 + list("一万五");
    for (behind = 0; behind < lines_len; behind += (size_t)next) {
        CHECK(rilvostam_add_numbers_to_lines(bytes(lines) + behind, lines_len - behind, table, sizeof table, work, sizeof work, page, room, &at, &next) == RILVOSTAM_OK);
        if (next == 0) break;
        say_entries(page, (size_t)at, said);
    }
    CHECK(strcmp(said, whole) == 0);
    CHECK(rilvostam_add_numbers_to_lines(bytes(lines), lines_len, table, sizeof table, work, sizeof work, page, 13, &at, &next) == RILVOSTAM_OK && at == 0 && next == 0);
    CHECK(rilvostam_add_numbers_to_lines(bytes("\n"), 0, table, sizeof table, work, sizeof work, page, sizeof page, &at, &next) == RILVOSTAM_OK && at == 0 && next == 0);
    CHECK(rilvostam_add_numbers_to_lines(bytes("\n"), 1, table, sizeof table, work, sizeof work, page, sizeof page, &at, &next) == RILVOSTAM_OK && at == 14 && next == 1);
    CHECK(rilvostam_add_numbers_to_lines(bytes(lines), lines_len, bytes("\0\0"), 2, work, sizeof work, page, sizeof page, &at, &next) == RILVOSTAM_TABLE_LAYOUT && at == 2 && next == 0);
    /* an entry that is cut off anywhere is none, and *at stays */
    for (room = 0; room < 14; room++) {
        at = 0;
        CHECK(!rilvostam_next_entry(bytes("\0\0\0\0\2\0\0\0\0\0\0\0\0\0"), room, &at, &e) && at == 0);
    }
    at = UINT64_MAX;
    CHECK(!rilvostam_next_entry(page, sizeof page, &at, &e) && at == UINT64_MAX);
}

static void tables(void) {
    uint64_t at;
    list("");
    CHECK(rilvostam_check_table(table, sizeof table, &at) == RILVOSTAM_OK && at == 16);
    CHECK(rilvostam_check_table(table, sizeof table - 1, &at) == RILVOSTAM_TABLE_LAYOUT && at > 500);
    CHECK(rilvostam_check_table(bytes("\0\0"), 2, &at) == RILVOSTAM_TABLE_LAYOUT && at == 2);
    CHECK(rilvostam_check_table(bytes("\0\0\x01\0\0\0\0"), 7, &at) == RILVOSTAM_TABLE_CONTENT && at == 3);
    CHECK(rilvostam_check_table(bytes("\0\0\0\0\0\0"), 6, &at) == RILVOSTAM_OK && at == 0);
    CHECK(rilvostam_formal_table(table, sizeof table, &at) == RILVOSTAM_OK && rilvostam_check_table(table, sizeof table, &at) == RILVOSTAM_OK && at == 16);
    CHECK(rilvostam_plain_table(table, sizeof table - 1, &at) == RILVOSTAM_TOO_LONG && at == 0);
}

static void reading(void) {
    const char *line = "x一万五";
    size_t line_len = strlen(line), len = list(line);
    uint64_t at, length, numerator, denominator;
    uint8_t in_listing, path[256];
    rilvostam_edge e;
    CHECK(rilvostam_right_neighbor(bytes(line), line_len, listing, len, 1, 0, &at) == RILVOSTAM_OK && rilvostam_read_edge(listing, len, at, &e) && e.value == 15000);
    CHECK(rilvostam_left_neighbor(bytes(line), line_len, listing, len, 4, 0, &at) == RILVOSTAM_OK && at == e.offset);
    CHECK(rilvostam_best_edge(bytes(line), line_len, listing, len, 1, 4, 0, &at) == RILVOSTAM_OK && at == e.offset);
    CHECK(rilvostam_best_edge(bytes(line), line_len, listing, len, 1, 4, 1, &at) == RILVOSTAM_OK && at == RILVOSTAM_NONE);
    CHECK(rilvostam_nearest_number(bytes(line), line_len, listing, len, 0, &at) == RILVOSTAM_OK && at == e.offset);
    CHECK(rilvostam_shown_text(bytes(line), line_len, listing, len, 0, &at, &length, &in_listing) == RILVOSTAM_OK && at == 0 && length == 1 && in_listing == 0);
    CHECK(rilvostam_path(bytes(line), line_len, listing, len, 0, 4, 0, path, sizeof path, &at) == RILVOSTAM_OK && rilvostam_read_edge(path, (size_t)at, 2, &e) && is(e.txt, "15000"));
    CHECK(rilvostam_right_neighbor(bytes(line), line_len, listing, len, 5, 0, &at) == RILVOSTAM_BAD_PLACE && at == 0);
    len = list("三分之一x六分之一");
    line = "三分之一x六分之一";
    CHECK(rilvostam_pool_shares(bytes(line), strlen(line), listing, len, &numerator, &denominator, &at) == RILVOSTAM_OK && numerator == 1 && denominator == 2);
}

static void numerals(void) {
    uint64_t at;
    uint8_t out[RILVOSTAM_NUMERAL], is_number;
    CHECK(rilvostam_write_number(10005, out, sizeof out, &at) == RILVOSTAM_OK && at == strlen("一万零五") && memcmp(out, "一万零五", (size_t)at) == 0);
    CHECK(rilvostam_write_number((UINT64_C(1) << 53), out, 0, &at) == RILVOSTAM_NUMBER_ABOVE_TOP && at == 0);
    CHECK(rilvostam_read_field(bytes("一万五"), strlen("一万五"), &is_number, &at) == RILVOSTAM_OK && is_number == 1 && at == 15000);
    CHECK(rilvostam_read_field(bytes("五x"), strlen("五x"), &is_number, &at) == RILVOSTAM_OK && is_number == 0 && at == 0);
}

int main(void) {
    version();
    words();
    edges();
    numbers();
    decimals();
    many_lines();
    tables();
    reading();
    numerals();
    return faults ? 1 : 0;
}
