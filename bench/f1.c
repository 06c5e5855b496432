/* rilvostam_add_numbers on a line with 1,000 given edges whose txt ends with a decimal digit: F1 asks the digit test for each.
 * usage: f1 CHARACTER CALLS     the character that every txt ends with, and how often the call is made
 * bench/f1 counts the instructions. */
#include <stdio.h>
#include <stdlib.h>
#include <string.h>
#include "../include/rilvostam.h"

enum { EDGES = 1000, CHARS = 200 };

static uint8_t work[RILVOSTAM_WORK], out[RILVOSTAM_OUT], edges[RILVOSTAM_OUT], line[CHARS];

static size_t put_u16(size_t at, unsigned n) {
    edges[at] = (uint8_t)n;
    edges[at + 1] = (uint8_t)(n >> 8);
    return at + 2;
}

/* Edge i: one place of the line, type "x", txt two letters that tell the edges of a place apart and the character. */
static size_t put_edge(size_t at, unsigned i, const char *end) {
    size_t len = strlen(end);
    at = put_u16(at, 0);
    at = put_u16(at, i % CHARS);
    at = put_u16(at, i % CHARS + 1);
    at = put_u16(at, 1);
    edges[at++] = 'x';
    at = put_u16(at, 2 + (unsigned)len);
    edges[at++] = (uint8_t)('a' + i / CHARS);
    edges[at++] = 'b';
    memcpy(edges + at, end, len);
    return at + len;
}

int main(int argc, char **argv) {
    static const uint8_t table[6];
    uint64_t at = 0;
    if (argc != 3) return 2;
    memset(line, 'y', CHARS);
    size_t size = put_u16(0, EDGES);
    for (unsigned i = 0; i < EDGES; i++) size = put_edge(size, i, argv[1]);
    for (int calls = atoi(argv[2]); calls > 0; calls--)
        if (rilvostam_add_numbers(line, CHARS, table, sizeof table, edges, size, work, sizeof work, out, sizeof out, &at)) return 1;
    printf("%u bytes\n", (unsigned)at);
    return 0;
}
