/* Holds rilvostam_add_numbers_to_lines against the old program, and against rilvostam_add_numbers.
 * usage: lines CASES ANSWERS SEED [OURS]     files that `oracle gen --family registers` and `oracle answer` write (tools/oracle/README.md); OURS gets the entries in the form of the
 * answers, for tools/model/model.py --ordered
 * Cases in a row with one table are the lines of a register. Its pages are asked for with outputs of random lengths, each from where the one before ended. Each entry must be the old program's
 * answer for its line, as a set, and what rilvostam_add_numbers answers, byte for byte; a page must end just where the next entry does not fit, and leave what is behind it as it was. */
#include <stdio.h>
#include <stdlib.h>
#include <string.h>
#include "../../include/rilvostam.h"
#include "frames.h"

enum { WORK = 65536, OUT = 32768, ENTRY = 12 + OUT, ROOM = 4 * ENTRY, GUARD = 64, MOST = 4096 };

static uint8_t work[WORK + GUARD], page[ROOM + GUARD], alone[OUT];
static Slice lines[MOST], answers[MOST], table, text;
static unsigned count;
static unsigned long pages, empty_pages, registers, damaged, accepted, empty, refused[10];
static uint64_t state;

static uint32_t below(uint32_t n) {
    state = state * 6364136223846793005u + 1442695040888963407u;
    return (uint32_t)(state >> 33) % n;
}

/* Lengths of outputs: too short for an entry, about one entry of a line without a number, some entries, many. */
static size_t any_room(void) {
    switch (below(8)) {
    case 0: return below(14);
    case 1: return 14 + below(30);
    case 2: return ENTRY;
    case 3: return below(ROOM + 1);
    default: return below(1200);
    }
}

static uint32_t ask(size_t from, size_t work_len, size_t room, uint64_t *at, uint64_t *next) {
    memset(page, 0xA5, sizeof page);
    memset(work + WORK, 0x5A, GUARD);
    *at = *next = 7;
    uint32_t r = rilvostam_add_numbers_to_lines(text.bytes + from, text.len - from, table.bytes, table.len, work, work_len, page, room, at, next);
    if (!r && *at > room) bad("a page longer than the output");
    for (size_t i = r ? 0 : *at; i < sizeof page; i++) if (page[i] != 0xA5) bad("a byte behind the page was touched");
    for (int i = 0; i < GUARD; i++) if (work[WORK + i] != 0x5A) bad("a byte behind the work space was touched");
    return r;
}

static uint64_t number(const uint8_t *s, int width) {
    uint64_t n = 0;
    while (width--) n = n << 8 | s[width];
    return n;
}

/* The length of the entry that line k must have; its status and number go to the pointers, its listing stands in alone. */
static size_t entry_alone(unsigned k, uint32_t *status, uint64_t *n) {
    static const uint8_t none[2] = {0, 0};
    *status = rilvostam_add_numbers(lines[k].bytes, lines[k].len, table.bytes, table.len, none, 2, work, WORK, alone, OUT, n);
    return 12 + (*status ? 0 : *n);
}

/* The entry at the front of s is that of line k; its length. */
static size_t entry(const uint8_t *s, size_t left, unsigned k, FILE *ours) {
    uint32_t status;
    uint64_t n;
    size_t len = entry_alone(k, &status, &n);
    if (left < len) bad("a page ends within an entry");
    if (number(s, 4) != status || number(s + 4, 8) != n || (!status && memcmp(s + 12, alone, n))) bad("an entry that is not the call's answer");
    if (status) {
        uint8_t refusal[5] = {(uint8_t)status, (uint8_t)n, (uint8_t)(n >> 8), (uint8_t)(n >> 16), (uint8_t)(n >> 24)};
        if (answers[k].len != 5 || memcmp(answers[k].bytes, refusal, 5)) bad("another refusal than the old program's");
        if (ours) put_frame(ours, refusal, 5);
        refused[status < 10 ? status : 0]++;
    } else {
        if (answers[k].len == 5) bad("accepted");
        same_set(&answers[k], s + 12, n);
        if (ours) put_frame(ours, s + 12, (uint32_t)n);
        accepted++;
        empty += n == 2;
    }
    return len;
}

/* Every line is refused with its table: the whole is, and each line that is refused for its table is so alike. */
static void damaged_table(uint32_t r, uint64_t at, uint64_t next, FILE *ours) {
    uint64_t told;
    if ((r != 4 && r != 5) || rilvostam_check_table(table.bytes, table.len, &told) != r || told != at || next) bad("another answer for the table");
    for (unsigned k = 0; k < count; k++) {
        if (answers[k].len != 5 || answers[k].bytes[0] > 5) bad("the old program accepts the table");
        if (answers[k].bytes[0] > 3 && (answers[k].bytes[0] != r || number(answers[k].bytes + 1, 4) != at)) bad("another refusal of the table");
        if (ours) put_frame(ours, answers[k].bytes, answers[k].len);
    }
    damaged++;
}

static void check_register(FILE *ours) {
    size_t from = 0, ends[MOST];
    text.len = 0;
    for (unsigned k = 0; k < count; k++) {
        text.bytes = realloc(text.bytes, text.len + lines[k].len + 1);
        if (!text.bytes) bad("no memory");
        memcpy(text.bytes + text.len, lines[k].bytes, lines[k].len);
        text.len += lines[k].len;
        if (k + 1 < count || !lines[k].len || below(2)) text.bytes[text.len++] = '\n';
        ends[k] = text.len;
    }
    registers++;
    uint64_t at, next;
    if (ask(0, WORK - 1, ROOM, &at, &next) != RILVOSTAM_SHORT_WORK || at || next) bad("short work space");
    for (unsigned k = 0; k < count;) {
        size_t room = any_room(), used = 0;
        uint32_t status, r = ask(from, WORK, room, &at, &next);
        uint64_t n;
        if (r) { damaged_table(r, at, next, ours); return; }
        unsigned first = k;
        while (used < at) used += entry(page + used, at - used, k++, ours);
        if (next != (k > first ? ends[k - 1] - from : 0)) bad("another next");
        if (k < count && used + entry_alone(k, &status, &n) <= room) bad("an entry more would fit");
        if (k == first && room >= ENTRY) bad("no entry in an output of 32,780 bytes");
        from += next;
        pages++;
        empty_pages += k == first;
    }
    if (ask(text.len, WORK, any_room(), &at, &next) || at || next) bad("no bytes are no line");
}

int main(int argc, char **argv) {
    static Slice line, lent, edges, answer;
    if (argc < 4) return 2;
    FILE *in = fopen(argv[1], "rb"), *told = fopen(argv[2], "rb"), *ours = argc > 4 ? fopen(argv[4], "wb") : NULL;
    if (!in || !told || (argc > 4 && !ours)) return 2;
    state = strtoull(argv[3], NULL, 10);
    while (frame(in, &line)) {
        if (!frame(in, &lent) || !frame(in, &edges) || !frame(told, &answer)) bad("a frame is missing");
        if (edges.len != 2) bad("given edges");
        if (count && (count == MOST || lent.len != table.len || memcmp(lent.bytes, table.bytes, lent.len))) { check_register(ours); count = 0; }
        if (!count) copy(&table, &lent);
        copy(&lines[count], &line);
        copy(&answers[count++], &answer);
        cases++;
    }
    if (count) check_register(ours);
    printf("%lu lines in %lu registers, %lu with a damaged table; %lu pages, %lu of them without an entry; %lu entries accepted, %lu of them without an edge", cases, registers, damaged, pages, empty_pages, accepted, empty);
    for (int i = 1; i < 10; i++) if (refused[i]) printf(", %lu refused %d", refused[i], i);
    printf("; no difference\n");
    return ours && fclose(ours) ? 2 : 0;
}
