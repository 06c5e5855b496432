/* Times the checks of a table and of a listing: nanoseconds for each record and each edge, the least of seven runs of at least 50 ms. */
#include <stdint.h>
#include <stdio.h>
#include <stdlib.h>
#include <string.h>
#include <time.h>

#include "rilvostam.h"

size_t timed_check_table(const uint8_t *table, size_t len);
size_t timed_check_listing(const uint8_t *listing, size_t len, size_t chars);
size_t timed_walk(const uint8_t *listing, size_t len, size_t count);

static uint8_t bytes[8 << 20];
static size_t len;

static void put(uint64_t v, int width) {
    for (int i = 0; i < width; i++) bytes[len++] = (uint8_t)(v >> (8 * i));
}

static void text(const char *s, int width) {
    size_t n = strlen(s);
    put(n, width);
    memcpy(bytes + len, s, n);
    len += n;
}

/* Records by their map: 1 rom, 2 value, 4 fraction, 8 base, 16 mult, 32 script. */
static void table(unsigned n, int map, const char *type, const char *rom, const char *script) {
    len = 0;
    put(n, 2);
    put(1, 1);
    text("%", 1);
    for (int i = 0; i < 3; i++) put(0, 1);
    for (unsigned i = 0; i < n; i++) {
        put(0x10000 + i, 4);
        put(map, 1);
        text(type, 1);
        if (map & 1) text(rom, 1);
        for (int bit = 2; bit <= 16; bit *= 2) {
            if (map & bit) put(10, 8);
            if (map & bit & 4) put(10, 8);
        }
        if (map & 32) text(script, 1);
    }
}

/* Edges over a line of 256 characters; numeric ones with value, base and script. */
static void listing(unsigned n, int numeric, const char *type, const char *txt) {
    len = 0;
    put(n, 2);
    for (unsigned i = 0; i < n; i++) {
        put(numeric ? 1 + 2 + 8 + 32 : 0, 2);
        put(i % 256, 2);
        put(i % 256 + 1, 2);
        text(type, 2);
        text(txt, 2);
        if (numeric) {
            text(txt, 2);
            put(0x4024000000000000u, 8);
            put(10, 8);
            text("Han", 2);
        }
    }
}

static double now(void) {
    struct timespec t;
    clock_gettime(CLOCK_MONOTONIC, &t);
    return t.tv_sec * 1e9 + t.tv_nsec;
}

static size_t expected;
static uint8_t line[256];

/* The best edge over the line's last character: line and listing are checked, then every edge is looked at. */
static size_t best(void) {
    uint64_t at;
    uint32_t refused = rilvostam_best_edge(line, sizeof line, bytes, len, 255, 256, 0, &at);
    return refused ? SIZE_MAX - 1 : at == RILVOSTAM_NONE ? 0 : 1;
}

static void same(size_t got) {
    if (got != expected) {
        printf("got %zu, expected %zu\n", got, expected);
        exit(1);
    }
}

#define TIME(n, call) \
    do { \
        double least = 1e18; \
        for (int run = 0; run < 7; run++) { \
            double from = now(), to; \
            unsigned long rounds = 0; \
            do { \
                same(call); \
                rounds++; \
                to = now(); \
            } while (to - from < 5e7); \
            if ((to - from) / rounds < least) least = (to - from) / rounds; \
        } \
        printf(" %8.1f", least / (n)); \
        fflush(stdout); \
    } while (0)

static void tables(const char *what, int map, const char *type, const char *rom, const char *script) {
    static const unsigned sizes[] = {16, 1500, 65535};
    printf("%-44s", what);
    for (int i = 0; i < 3; i++) {
        table(sizes[i], map, type, rom, script);
        expected = sizes[i];
        TIME(sizes[i], timed_check_table(bytes, len));
    }
    printf("\n");
}

static void listings(const char *what, int numeric, const char *type, const char *txt) {
    static const unsigned sizes[] = {10, 1000, 60000};
    printf("%-44s", what);
    for (int i = 0; i < 3; i++) {
        listing(sizes[i], numeric, type, txt);
        expected = sizes[i];
        TIME(sizes[i], timed_check_listing(bytes, len, 256));
    }
    printf("\n%-44s", "  walk by next_at and edge_at");
    for (int i = 0; i < 3; i++) {
        listing(sizes[i], numeric, type, txt);
        expected = sizes[i] < 256 ? sizes[i] : 256;
        TIME(sizes[i], timed_walk(bytes, len, sizes[i]));
    }
    printf("\n%-44s", "  rilvostam_best_edge");
    for (int i = 0; i < 3; i++) {
        listing(sizes[i], numeric, type, txt);
        expected = sizes[i] > 255;
        TIME(sizes[i], best());
    }
    printf("\n");
}

int main(void) {
    memset(line, 'x', sizeof line);
    printf("ns a record, check_table                           16    1,500   65,535\n");
    tables("short ASCII strings, value and base", 43, "multi", "shi", "Han");
    tables("the same without base", 35, "multi", "shi", "Han");
    tables("the same with every field", 63, "multi", "shi", "Han");
    tables("ASCII strings of 23, 17 and 10 bytes", 43, "a-rather-long-type-name", "some-romanisation", "Devanagari");
    tables("strings of one 3-byte character each", 43, "\xE5\xA4\x9A", "\xE5\x8D\x81", "\xE6\xBC\xA2");
    tables("strings of one 2-byte character each", 43, "\xC3\xA9", "\xC3\xB6", "\xC3\xBC");
    printf("\nns an edge, check_listing                          10    1,000   60,000\n");
    listings("regular edges, ASCII", 0, "wylie", "bcu");
    listings("regular edges, a text of 3 bytes", 0, "tib", "\xE5\x8D\x81");
    listings("numeric edges, ASCII", 1, "numeric", "10");
    return 0;
}
