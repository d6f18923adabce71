/* Reads samples of 16 bits from standard input, in pieces of PIECE, with room for ROOM intervals a call, and writes the
 * intervals as they lie in memory:
 *
 *     slicer FOLLOWS THRESHOLD FINENESS SMOOTH PACE START PIECE ROOM [MOVE]
 *
 * With MOVE the slicer is copied to another place behind each call, and the old one is overwritten. The status is 1 if
 * the words are wrong or there is no memory, 2 if the settings are refused, and 3 if a call breaks what tc.h says: what
 * is written behind the intervals that are made, a call that takes more than there is, or less than it has room for,
 * and a slicer that changes when there is no room, or by settings that are refused. */
#include "tc.h"
#include <stdio.h>
#include <stdlib.h>
#include <string.h>

static tc_slicer slicers[2];

/* Whether a call kept what tc.h says of it. `ticks` were all 0xa5. */
static bool keeps(tc_taken taken, size_t count, const uint32_t *ticks, size_t room) {
    const unsigned char *bytes = (const unsigned char *)ticks;
    for (size_t i = taken.made * sizeof *ticks; i < room * sizeof *ticks; i++) {
        if (bytes[i] != 0xa5) {
            return false;
        }
    }
    bool all = taken.used == count || taken.full || taken.made == room;
    return taken.used <= count && taken.made <= room && all && (room > 0 || taken.used == 0);
}

int main(int argc, char **argv) {
    if (argc < 9) {
        return 1;
    }
    uint32_t numbers[8];
    for (int i = 0; i < 8; i++) {
        numbers[i] = (uint32_t)strtoul(argv[i + 1], NULL, 10);
    }
    tc_slicer_settings settings = {numbers[0], numbers[1], numbers[2], numbers[3], numbers[4], numbers[5]};
    size_t piece = numbers[6], room = numbers[7];
    int now = 0;
    if (!tc_slicer_init(&slicers[now], &settings)) {
        return 2;
    }
    int16_t *samples = (int16_t *)malloc(piece * sizeof *samples);
    uint32_t *ticks = (uint32_t *)malloc((room + 1) * sizeof *ticks);
    if (!samples || !ticks) {
        return 1;
    }
    size_t count;
    while ((count = fread(samples, sizeof *samples, piece, stdin)) > 0) {
        for (size_t at = 0;;) {
            memset(ticks, 0xa5, room * sizeof *ticks);
            tc_slicer before = slicers[now];
            tc_taken taken = tc_slicer_write_s16(&slicers[now], samples + at, count - at, ticks, room);
            bool same = memcmp(&before, &slicers[now], sizeof before) == 0;
            if (!keeps(taken, count - at, ticks, room) || (room == 0 && !same)) {
                return 3;
            }
            fwrite(ticks, sizeof *ticks, taken.made, stdout);
            at += taken.used;
            if (argc > 9) {
                memcpy(&slicers[!now], &slicers[now], sizeof slicers[now]);
                memset(&slicers[now], 0xa5, sizeof slicers[now]);
                now = !now;
            }
            if (taken.made < room || room == 0 || taken.full) {
                break;
            }
        }
    }
    /* Settings that are refused change nothing, and others begin anew. */
    tc_slicer before = slicers[now];
    tc_slicer_settings none = {0, 0, 0, 0, 0, 2};
    if (tc_slicer_start(&slicers[now], &none) || memcmp(&before, &slicers[now], sizeof before) != 0) {
        return 3;
    }
    free(samples);
    free(ticks);
    return tc_slicer_start(&slicers[now], &settings) ? 0 : 3;
}
