/* Prints the edges of a line: start, end, type, txt, and 1, 0 or - (active, inactive, regular), tabs between. With -n, which number the line is: its value where the whole
 * line is one number, else the numbers in it with their places, longest first. A refusal is told in words on standard error.
 * usage: example [-n] LINE [TABLE], where TABLE is a file of a table's bytes (tools/table makes one); without it the plain table
 * exit status: 0; 1 for a refusal; 2 where the arguments or the file can't be used */
#include <stdio.h>
#include <stdlib.h>
#include <string.h>
#include "rilvostam.h"

static uint8_t table[4 << 20], work[RILVOSTAM_WORK], listing[RILVOSTAM_OUT];

static int refused(uint32_t answer, uint64_t at) {
    rilvostam_words w = rilvostam_in_words(answer);
    fprintf(stderr, "refused %u %s: %s", (unsigned)answer, w.name, w.sentence);
    if (*w.place) fprintf(stderr, " (%s: %llu)", w.place, (unsigned long long)at);
    fputc('\n', stderr);
    return 1;
}

static void print_edges(size_t len) {
    rilvostam_edge e;
    uint64_t at = 0;
    while (rilvostam_next_edge(listing, len, &at, &e))
        printf("%llu\t%llu\t%.*s\t%.*s\t%c\n", (unsigned long long)e.start, (unsigned long long)e.end, (int)e.type.len, e.type.at, (int)e.txt.len, e.txt.at,
               !(e.map & RILVOSTAM_IS_NUMERIC) ? '-' : e.map & RILVOSTAM_IS_ACTIVE ? '1' : '0');
}

/* Characters of a line that the library accepted: every byte but those that continue one. */
static size_t characters(const char *line) {
    size_t n = 0;
    for (; *line; line++) n += (*line & 0xC0) != 0x80;
    return n;
}

static void print_numbers(const char *line, size_t len) {
    static rilvostam_edge numbers[RILVOSTAM_EDGES];
    size_t n = rilvostam_which_numbers((const uint8_t *)line, strlen(line), listing, len, numbers, RILVOSTAM_EDGES), i;
    for (i = 0; i < n; i++) {
        rilvostam_edge e = numbers[i];
        if (e.start != 0 || e.end != characters(line)) printf("from %llu to %llu: ", (unsigned long long)e.start, (unsigned long long)e.end);
        if (e.map & RILVOSTAM_HAS_VALUE) printf("%.0f\n", e.value);
        else printf("%llu/%llu\n", (unsigned long long)e.numerator, (unsigned long long)e.denominator);
    }
    if (n == 0) printf("no number\n");
}

int main(int argc, char **argv) {
    const uint8_t no_edges[2] = {0, 0};
    uint64_t at, table_len;
    uint32_t answer;
    int asked = argc > 1 && strcmp(argv[1], "-n") == 0, words = argc - 1 - asked;
    if (words < 1 || words > 2) {
        fprintf(stderr, "usage: example [-n] LINE [TABLE]\n");
        return 2;
    }
    const char *line = argv[1 + asked];
    if (words == 2) {
        FILE *f = fopen(argv[2 + asked], "rb");
        if (!f || (table_len = fread(table, 1, sizeof table, f), ferror(f)) || table_len == sizeof table) {
            fprintf(stderr, "%s can't be read, or has over %zu bytes\n", argv[2 + asked], sizeof table - 1);
            return 2;
        }
    } else if ((answer = rilvostam_plain_table(table, sizeof table, &table_len)) != RILVOSTAM_OK) {
        return refused(answer, table_len);
    }
    answer = rilvostam_add_numbers((const uint8_t *)line, strlen(line), table, table_len, no_edges, sizeof no_edges, work, sizeof work, listing, sizeof listing, &at);
    if (answer != RILVOSTAM_OK) return refused(answer, at);
    if (asked) print_numbers(line, at);
    else print_edges(at);
    return fflush(stdout) == 0 ? 0 : 2;
}
