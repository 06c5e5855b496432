/* Asks the library what standard input asks, one question to a line, for tools/model/numerals.py:
 *     w NUMBER ROOM    rilvostam_write_number with an output of ROOM bytes
 *     f HEX            rilvostam_read_field on these bytes; - is the empty line
 *     d HEX ROOM       rilvostam_weights on these bytes with an output of ROOM bytes
 *     p POSITION ROOM  rilvostam_proof_sheet with an output of ROOM bytes
 *     c HEX ROOM       rilvostam_worn_character on these bytes, with an output of ROOM bytes
 * Each answer is a row. For w, d and c: the status, *at, and the output in hexadecimal with eight bytes behind it; outputs are filled with A5 before. For f: the status, *is_number, *at.
 * For p: the status, *at, *next, and the output as for w. */
#include <inttypes.h>
#include <stdio.h>
#include <string.h>

#include "../../include/rilvostam.h"

#define GUARD 8
static uint8_t out[4096], line[4096];
static char hex[2 * sizeof line + 1];

static void show(uint32_t status, uint64_t at, size_t room) {
    printf("%" PRIu32 " %" PRIu64 " ", status, at);
    for (size_t i = 0; i < room + GUARD; i++) printf("%02x", out[i]);
    printf("\n");
}

static void write_number(uint64_t number, size_t room) {
    uint64_t at = 77;
    memset(out, 0xa5, sizeof out);
    uint32_t status = rilvostam_write_number(number, out, room, &at);
    show(status, at, room);
}

/* The bytes that hex says go to line; their count. */
static size_t unhex(void) {
    size_t len = 0;
    for (unsigned byte; hex[0] != '-' && sscanf(hex + 2 * len, "%2x", &byte) == 1; len++) line[len] = (uint8_t)byte;
    return len;
}

static void weigh_digits(size_t room) {
    size_t len = unhex();
    uint64_t at = 77;
    memset(out, 0xa5, sizeof out);
    uint32_t status = rilvostam_weights(line, len, out, room, &at);
    show(status, at, room);
}

static void worn_character(size_t room) {
    size_t len = unhex();
    uint64_t at = 77;
    memset(out, 0xa5, sizeof out);
    uint32_t status = rilvostam_worn_character(line, len, out, room, &at);
    show(status, at, room);
}

static void read_field(void) {
    size_t len = unhex();
    uint64_t at = 77;
    uint8_t is_number = 77;
    uint32_t status = rilvostam_read_field(line, len, &is_number, &at);
    printf("%" PRIu32 " %d %" PRIu64 "\n", status, is_number, at);
}

static void proof_sheet(uint64_t position, size_t room) {
    uint64_t at = 77, next = 77;
    memset(out, 0xa5, room + GUARD);
    uint32_t status = rilvostam_proof_sheet(position, out, room, &at, &next);
    printf("%" PRIu32 " %" PRIu64 " %" PRIu64 " ", status, at, next);
    for (size_t i = 0; i < room + GUARD; i++) printf("%02x", out[i]);
    printf("\n");
}

int main(void) {
    uint64_t number;
    size_t room;
    char kind;
    while (scanf(" %c", &kind) == 1) {
        if (kind == 'w' && scanf("%" SCNu64 " %zu", &number, &room) == 2 && room + GUARD <= sizeof out)
            write_number(number, room);
        else if (kind == 'p' && scanf("%" SCNu64 " %zu", &number, &room) == 2 && room + GUARD <= sizeof out)
            proof_sheet(number, room);
        else if (kind == 'f' && scanf("%8192s", hex) == 1)
            read_field();
        else if (kind == 'd' && scanf("%8192s %zu", hex, &room) == 2 && room + GUARD <= sizeof out)
            weigh_digits(room);
        else if (kind == 'c' && scanf("%8192s %zu", hex, &room) == 2 && room + GUARD <= sizeof out)
            worn_character(room);
        else
            return 2;
    }
    return 0;
}
