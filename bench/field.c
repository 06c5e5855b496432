/* Times rilvostam_read_field beside rilvostam_add_numbers with the plain table, on the same lines: nanoseconds for a call, the least of thirty rounds of at least 5 ms. */
#include <stdio.h>
#include <string.h>
#include <time.h>

#include "../include/rilvostam.h"

static uint8_t table[4096], work[RILVOSTAM_WORK], out[RILVOSTAM_OUT], wide[1024];
static const uint8_t no_edges[2];
static size_t table_len;

static double now(void) {
    struct timespec t;
    clock_gettime(CLOCK_MONOTONIC, &t);
    return t.tv_sec * 1e9 + t.tv_nsec;
}

static void field(const char *line, size_t len) {
    uint64_t at;
    uint8_t is_number;
    rilvostam_read_field((const uint8_t *)line, len, &is_number, &at);
}

static void call(const char *line, size_t len) {
    uint64_t at;
    rilvostam_add_numbers((const uint8_t *)line, len, table, table_len, no_edges, 2, work, sizeof work, out, sizeof out, &at);
}

/* A call of one of n lines, each in turn. */
static double least(void (*timed)(const char *, size_t), const char *const *lines, size_t n) {
    double best = 1e18;
    size_t lens[16];
    for (size_t i = 0; i < n; i++) lens[i] = strlen(lines[i]);
    for (int round = 0; round < 30; round++) {
        double from = now(), to;
        unsigned long calls = 0;
        do {
            for (int k = 0; k < 16; k++)
                for (size_t i = 0; i < n; i++) timed(lines[i], lens[i]);
            calls += 16 * n;
            to = now();
        } while (to - from < 5e6);
        if ((to - from) / calls < best) best = (to - from) / calls;
    }
    return best;
}

static void row(const char *what, const char *const *lines, size_t n) {
    double ours = least(field, lines, n), whole = least(call, lines, n);
    printf("| %s | %.1f | %.0f | %.1f |\n", what, ours, whole, whole / ours);
}

int main(int argc, char **argv) {
    /* the short plain lines of bench/call */
    static const char *const lines[] = {"一万五", "二千五", "一百零五", "第五百二十三号", "百分之五", "九千零七兆一千九百九十二億五千四百", "x", ""};
    FILE *f = argc == 2 ? fopen(argv[1], "rb") : NULL;
    if (!f) return fprintf(stderr, "usage: field TABLE\n"), 1;
    table_len = fread(table, 1, sizeof table, f);
    fclose(f);
    printf("| line | field ns | call ns | ratio |\n|---|---|---|---|\n");
    row("the eight lines", lines, 8);
    row("the four of them that are numerals", (const char *const[]){lines[0], lines[1], lines[2], lines[5]}, 4);
    row("the four that are none", (const char *const[]){lines[3], lines[4], lines[6], lines[7]}, 4);
    for (int i = 0; i < 8; i++) row(lines[i][0] ? lines[i] : "(empty)", &lines[i], 1);
    const char *long_line = (const char *)wide;
    for (int i = 0; i < 256; i++) memcpy(wide + 3 * i, "零", 3);
    row("256 × 零", &long_line, 1);
    memcpy(wide + 765, "百", 3);
    row("255 × 零, 百: none", &long_line, 1);
    return 0;
}
