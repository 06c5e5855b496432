/* Times the proof sheet (rilvostam_proof_sheet): whole in one page, and by pages of fewer bytes. Milliseconds for the whole sheet, the least of forty rounds in turn. */
#include <stdio.h>
#include <stdlib.h>
#include <time.h>

#include "../include/rilvostam.h"

static uint8_t page[1 << 21];

static double now(void) {
    struct timespec t;
    clock_gettime(CLOCK_MONOTONIC, &t);
    return t.tv_sec * 1e3 + t.tv_nsec / 1e6;
}

/* The sheet by pages of so many bytes: how many pages have rows. */
static unsigned long sheet(size_t room) {
    unsigned long pages = 0;
    uint64_t at, position = 0, bytes = 0;
    for (;; pages++) {
        rilvostam_proof_sheet(position, page, room, &at, &position);
        if (!at) break;
        bytes += at;
    }
    if (position != RILVOSTAM_SHEET_ROWS || bytes != 1066671) exit(1);
    return pages;
}

int main(void) {
    static const size_t rooms[] = {sizeof page, 65536, 4096, 1024, 256};
    double least[5] = {1e18, 1e18, 1e18, 1e18, 1e18};
    unsigned long pages[5];
    for (int round = 0; round < 40; round++)
        for (int i = 0; i < 5; i++) {
            double from = now();
            pages[i] = sheet(rooms[i]);
            double took = now() - from;
            if (took < least[i]) least[i] = took;
        }
    printf("| bytes of a page | pages | ms | times one page |\n|---|---|---|---|\n");
    for (int i = 0; i < 5; i++) printf("| %zu | %lu | %.1f | %.1f |\n", rooms[i], pages[i], least[i], least[i] / least[0]);
    return 0;
}
