/* Prints the proof sheet of short numerals, page by page. usage: sheet [ROOM, the bytes of a page, from 30 on; default 4096] */
#include <stdio.h>
#include <stdlib.h>
#include "../../include/rilvostam.h"

int main(int argc, char **argv) {
    static uint8_t page[1 << 21];
    size_t room = argc == 2 ? strtoul(argv[1], NULL, 10) : 4096;
    if (argc > 2 || room < RILVOSTAM_ROW || room > sizeof page) { fprintf(stderr, "usage: sheet [ROOM, 30 to %zu]\n", sizeof page); return 2; }
    uint64_t at, position = 0;
    do {
        rilvostam_proof_sheet(position, page, room, &at, &position);
        fwrite(page, 1, at, stdout);
    } while (at > 0);
    return fflush(stdout) ? 2 : 0;
}
