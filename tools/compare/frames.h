/* For programs that hold the library against the old program (tools/oracle/README.md): frames, and listings compared as sets.
 * The old program's set is sorted by start, end, type and txt, and so is ours before the two are compared. */
#include <stdint.h>
#include <stdio.h>
#include <stdlib.h>
#include <string.h>

typedef struct { uint8_t *bytes; uint32_t len; } Slice;
typedef struct { const uint8_t *at; size_t len; } Edge;

static unsigned long cases;

static void bad(const char *what) { fprintf(stderr, "case %lu: %s\n", cases, what); exit(1); }

static int frame(FILE *f, Slice *s) {
    uint8_t n[4];
    size_t k = fread(n, 1, 4, f);
    if (k == 0) return 0;
    if (k != 4) bad("a cut frame");
    s->len = n[0] | n[1] << 8 | n[2] << 16 | (uint32_t)n[3] << 24;
    s->bytes = realloc(s->bytes, s->len ? s->len : 1);
    if (!s->bytes || fread(s->bytes, 1, s->len, f) != s->len) bad("a cut frame");
    return 1;
}

static void put_frame(FILE *f, const uint8_t *bytes, uint32_t len) {
    uint8_t n[4] = {(uint8_t)len, (uint8_t)(len >> 8), (uint8_t)(len >> 16), (uint8_t)(len >> 24)};
    fwrite(n, 1, 4, f);
    fwrite(bytes, 1, len, f);
}

static inline void copy(Slice *to, const Slice *from) {
    to->bytes = realloc(to->bytes, from->len ? from->len : 1);
    if (!to->bytes) bad("no memory");
    memcpy(to->bytes, from->bytes, to->len = from->len);
}

static unsigned u16(const uint8_t *s) { return s[0] | s[1] << 8; }

static size_t edge_len(const uint8_t *s) {
    static const unsigned numbers[] = {1, 2, 2, 3, 4};
    unsigned map = u16(s);
    size_t at = 6;
    for (unsigned i = 0; i < 2 + (map & 1); i++) at += 2 + u16(s + at);
    for (int i = 0; i < 5; i++) if (map >> numbers[i] & 1) at += 8;
    if (map >> 5 & 1) at += 2 + u16(s + at);
    if (map >> 8 & 1) at += 2 + u16(s + at);
    return at + (map >> 9 & 1);
}

static int by_text(const uint8_t *a, const uint8_t *b) {
    size_t m = u16(a), n = u16(b);
    int c = memcmp(a + 2, b + 2, m < n ? m : n);
    return c ? c : m < n ? -1 : m > n;
}

static int by_key(const void *x, const void *y) {
    const uint8_t *a = ((const Edge *)x)->at, *b = ((const Edge *)y)->at;
    int c;
    if (u16(a + 2) != u16(b + 2)) return u16(a + 2) < u16(b + 2) ? -1 : 1;
    if (u16(a + 4) != u16(b + 4)) return u16(a + 4) < u16(b + 4) ? -1 : 1;
    if ((c = by_text(a + 6, b + 6))) return c;
    return by_text(a + 8 + u16(a + 6), b + 8 + u16(b + 6));
}

/* The listing, sorted, equals the old program's. */
static void same_set(const Slice *want, const uint8_t *out, size_t len) {
    static uint8_t sorted[32768];
    Edge edges[1024];
    unsigned count = u16(out);
    size_t at = 2;
    if (count > 1024) bad("over 1,024 edges");
    for (unsigned i = 0; i < count; i++) {
        edges[i].at = out + at;
        edges[i].len = edge_len(out + at);
        at += edges[i].len;
    }
    if (at != len) bad("the listing's length is not that of its edges");
    qsort(edges, count, sizeof *edges, by_key);
    memcpy(sorted, out, 2);
    at = 2;
    for (unsigned i = 0; i < count; i++) { memcpy(sorted + at, edges[i].at, edges[i].len); at += edges[i].len; }
    if (want->len != len || memcmp(want->bytes, sorted, len)) bad("another set of edges");
}
