/* Holds rilvostam_add_numbers against the old program.
 * usage: numbers CASES ANSWERS [OURS]     files that `oracle gen` and `oracle answer` write (tools/oracle/README.md); OURS gets this library's answers in
 * the same form, unsorted, for tools/model/model.py --ordered
 * The old program's set is sorted by start, end, type and txt, and so is ours before the two are compared. Every buffer is just as long as it is said to be, or has guard
 * bytes behind it; on a refusal the output must be as it was. */
#include <stdio.h>
#include <stdlib.h>
#include <string.h>
#include "../../include/rilvostam.h"
#include "frames.h"

enum { WORK = 65536, OUT = 32768, GUARD = 64 };

static uint8_t work[WORK + GUARD], out[OUT + GUARD];
static unsigned long accepted, refused[10];

static uint32_t call(const Slice c[3], size_t out_len, uint64_t *at) {
    uint32_t r;
    memset(out, 0xA5, sizeof out);
    memset(work + WORK, 0x5A, GUARD);
    r = rilvostam_add_numbers(c[0].bytes, c[0].len, c[1].bytes, c[1].len, c[2].bytes, c[2].len, work, WORK, out, out_len, at);
    for (size_t i = r ? 0 : *at; i < sizeof out; i++) if (out[i] != 0xA5) bad("a byte of the output was touched");
    for (int i = 0; i < GUARD; i++) if (work[WORK + i] != 0x5A) bad("a byte behind the work space was touched");
    return r;
}

int main(int argc, char **argv) {
    static Slice c[3], want;
    if (argc < 3) return 2;
    FILE *in = fopen(argv[1], "rb"), *answers = fopen(argv[2], "rb"), *ours = argc > 3 ? fopen(argv[3], "wb") : NULL;
    if (!in || !answers || (argc > 3 && !ours)) return 2;
    while (frame(in, &c[0])) {
        uint64_t at, again;
        if (!frame(in, &c[1]) || !frame(in, &c[2]) || !frame(answers, &want)) bad("a frame is missing");
        uint32_t r = call(c, OUT, &at);
        if (r) {
            uint8_t refusal[5] = {(uint8_t)r, (uint8_t)at, (uint8_t)(at >> 8), (uint8_t)(at >> 16), (uint8_t)(at >> 24)};
            if (want.len != 5 || memcmp(want.bytes, refusal, 5)) { fprintf(stderr, "refused %u %lu\n", r, (unsigned long)at); bad("another answer"); }
            if (ours) put_frame(ours, refusal, 5);
            refused[r < 10 ? r : 0]++;
        } else {
            if (want.len == 5) bad("accepted");
            same_set(&want, out, at);
            if (ours) put_frame(ours, out, (uint32_t)at);
            if (cases % 16 == 0) { /* an output that just fits, and one that does not */
                if (call(c, at, &again) || again != at) bad("an output of just that length");
                if (call(c, at - 1, &again) != RILVOSTAM_TOO_LONG || again) bad("an output one byte too short");
                if (rilvostam_add_numbers(c[0].bytes, c[0].len, c[1].bytes, c[1].len, c[2].bytes, c[2].len, work, WORK - 1, out, OUT, &again) != RILVOSTAM_SHORT_WORK || again) bad("short work space");
            }
            accepted++;
        }
        cases++;
    }
    printf("%lu cases: %lu accepted", cases, accepted);
    for (int i = 1; i < 10; i++) if (refused[i]) printf(", %lu refused %d", refused[i], i);
    printf("; no difference\n");
    return ours && fclose(ours) ? 2 : 0;
}
