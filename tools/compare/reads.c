/* Holds the reading calls of librilvostam.a against the old program. Standard input: frames of three (line, listing, what the old program finds there), as
 * `oracle finished` and `oracle foreign` write them; tools/oracle/README.md has the form of the third. Prints the counts; exits 1 on a difference.
 * The shown text is held against the right neighbour and the line. */
#include <stdio.h>
#include <stdlib.h>
#include <string.h>
#include "../../include/rilvostam.h"

static uint8_t *line, *listing, *want, *got, *path_out;
static uint32_t line_len, listing_len, want_len;
static size_t got_len, got_room;

static int frame(uint8_t **bytes, uint32_t *len) {
    uint8_t n[4];
    size_t k = fread(n, 1, 4, stdin);
    if (k == 0) return 0;
    if (k != 4) exit(2);
    *len = n[0] | n[1] << 8 | n[2] << 16 | (uint32_t)n[3] << 24;
    /* exactly as long as the slice, so that a tool for memory errors sees a byte too far */
    *bytes = realloc(*bytes, *len ? *len : 1);
    if (!*bytes || fread(*bytes, 1, *len, stdin) != *len) exit(2);
    return 1;
}

static void put(unsigned b) {
    if (got_len == got_room) got = realloc(got, got_room = got_room * 2 + 1024);
    got[got_len++] = (uint8_t)b;
}

static void put16(unsigned n) { put(n & 255); put(n >> 8); }

static unsigned u16(const uint8_t *s, size_t at) { return s[at] | s[at + 1] << 8; }

static int begins(const uint8_t *s, size_t n, const char *p) { return n >= strlen(p) && memcmp(s, p, strlen(p)) == 0; }

/* The class of the edge at an offset, as the oracle counts them. */
static unsigned class(const uint8_t *s, size_t at) {
    unsigned map = u16(s, at), n = u16(s, at + 6);
    const uint8_t *type = s + at + 8;
    if (map & 1) return map & 128 ? 1 : 5;
    if (begins(type, n, "rom decomp")) return 3;
    return begins(type, n, "rom") || begins(type, n, "num") ? 2 : 4;
}

static void bad(const char *what) { fprintf(stderr, "refused or wrong: %s\n", what); exit(1); }

/* Behind the edge at an offset. */
static size_t next(const uint8_t *s, size_t at) {
    static const unsigned numbers[] = {1, 2, 2, 3, 4};
    unsigned map = u16(s, at);
    at += 6;
    for (unsigned i = 0; i < 2 + (map & 1); i++) at += 2 + u16(s, at);
    for (int i = 0; i < 5; i++) if (map >> numbers[i] & 1) at += 8;
    if (map >> 5 & 1) at += 2 + u16(s, at);
    if (map >> 8 & 1) at += 2 + u16(s, at);
    return at + (map >> 9 & 1);
}

static void neighbor(uint64_t at, int end) {
    if (at == RILVOSTAM_NONE) { put16(65535); put(0); return; }
    put16(u16(listing, at + (end ? 4 : 2)));
    put(class(listing, at));
}

static void path(unsigned start, unsigned end, uint8_t skip) {
    uint64_t n;
    path_out = realloc(path_out, listing_len + 8);
    memset(path_out, 0xA5, listing_len + 8);
    if (rilvostam_path(line, line_len, listing, listing_len, start, end, skip, path_out, listing_len, &n)) bad("path");
    for (int i = 0; i < 8; i++) if (path_out[listing_len + i] != 0xA5) bad("a byte behind the output");
    for (size_t i = n; i < listing_len; i++) if (path_out[i] != 0xA5) bad("a byte behind the path");
    unsigned count = u16(path_out, 0);
    size_t at = 2;
    put16(count);
    for (unsigned i = 0; i < count; i++) {
        put16(u16(path_out, at + 2)); put16(u16(path_out, at + 4)); put(class(path_out, at));
        at = next(path_out, at);
    }
    if (at != n) bad("the path's length");
    if (n > 0) { /* one byte less is refused, and the output is as it was */
        uint64_t k;
        uint8_t *o = malloc(n);
        memset(o, 0x5A, n);
        if (rilvostam_path(line, line_len, listing, listing_len, start, end, skip, o, n - 1, &k) != RILVOSTAM_TOO_LONG || k != 0) bad("the path's room");
        for (size_t i = 0; i < n; i++) if (o[i] != 0x5A) bad("output of a refused path");
        free(o);
    }
}

static void shown(unsigned chars) {
    size_t from = 0;
    for (unsigned p = 0; p <= chars; p++) {
        uint64_t at, len, right;
        uint8_t in;
        uint32_t r = rilvostam_shown_text(line, line_len, listing, listing_len, p, &at, &len, &in);
        if (p == chars) { if (r != RILVOSTAM_BAD_PLACE || at || len || in) bad("the end's text"); break; }
        size_t to = from + 1;
        while (to < line_len && (line[to] & 0xC0) == 0x80) to++;
        if (r || rilvostam_right_neighbor(line, line_len, listing, listing_len, p, 0, &right)) bad("shown text");
        if (right == RILVOSTAM_NONE ? in != 0 || at != from || len != to - from
                                    : in != 1 || at != right + 8 + u16(listing, right + 6) + 2 || len != u16(listing, at - 2)) bad("the part shown");
        from = to;
    }
}

int main(void) {
    unsigned long cases = 0, answers = 0;
    while (frame(&line, &line_len)) {
        if (!frame(&listing, &listing_len) || !frame(&want, &want_len)) return 2;
        unsigned chars = 0;
        uint64_t at;
        for (uint32_t i = 0; i < line_len; i++) chars += (line[i] & 0xC0) != 0x80;
        got_len = 0;
        for (uint8_t skip = 0; skip < 2; skip++) {
            for (unsigned a = 0; a <= chars; a++)
                for (unsigned z = a; z <= chars; z++) {
                    if (rilvostam_best_edge(line, line_len, listing, listing_len, a, z, skip * 7, &at)) bad("best edge");
                    put(at == RILVOSTAM_NONE ? 0 : class(listing, at));
                    if (at != RILVOSTAM_NONE && (u16(listing, at + 2) != a || u16(listing, at + 4) != z)) bad("the best edge's span");
                }
            for (unsigned p = 0; p <= chars; p++) {
                if (rilvostam_right_neighbor(line, line_len, listing, listing_len, p, skip, &at)) bad("right neighbour");
                neighbor(at, 1);
                if (rilvostam_left_neighbor(line, line_len, listing, listing_len, p, skip, &at)) bad("left neighbour");
                neighbor(at, 0);
            }
            if (chars > 8) {
                unsigned third = chars / 3, half = chars / 2;
                path(0, chars, skip); path(0, half, skip); path(third, half, skip); path(third, chars, skip);
            } else {
                for (unsigned a = 0; a <= chars; a++) for (unsigned z = a; z <= chars; z++) path(a, z, skip);
            }
        }
        if (rilvostam_best_edge(line, line_len, listing, listing_len, 1, 0, 0, &at) != RILVOSTAM_BAD_PLACE || at) bad("start after end");
        if (rilvostam_right_neighbor(line, line_len, listing, listing_len, (uint64_t)1 << 32, 0, &at) != RILVOSTAM_BAD_PLACE || at) bad("a place past the line");
        shown(chars);
        if (got_len != want_len || memcmp(got, want, got_len)) {
            fprintf(stderr, "case %lu differs\n", cases);
            return 1;
        }
        cases++;
        answers += got_len;
    }
    printf("%lu listings, %lu bytes of answers: no difference\n", cases, answers);
    return 0;
}
