/* Reads samples of 16 bits from standard input, in pieces of PIECE, with room for ROOM events a call, and writes
 * the events as they lie in memory:
 *
 *     pieces SYSTEM TOLERANCE FOLLOWS THRESHOLD FINENESS SMOOTH PACE PIECE ROOM [MOVE]
 *
 * With MOVE the reader is copied to another place behind each call, and the old one is overwritten. The status is 1
  * if the words are wrong or there is no memory, 2 if the settings are refused, and 3 if a call breaks what tc.h
 * says: what is written behind the events that are made, a call that takes more than there is, or less than it has room
  * for, and a reader that changes when there is no room. */
#include "tc.h"
#include <stdio.h>
#include <stdlib.h>
#include <string.h>

static tc_reader readers[2];

/* Whether a call kept what tc.h says of it. `events` were all 0xa5. */
static bool keeps(tc_taken taken, size_t count, const tc_event *events, size_t room) {
    const unsigned char *bytes = (const unsigned char *)events;
    for (size_t i = taken.made * sizeof *events; i < room * sizeof *events; i++) {
        if (bytes[i] != 0xa5) {
            return false;
        }
    }
    bool all = taken.used == count || taken.full || taken.made + 2 > room;
    return taken.used <= count && taken.made <= room && all && (room >= 2 || (taken.used == 0 && taken.made == 0));
}

int main(int argc, char **argv) {
    if (argc < 10) {
        return 1;
    }
    uint32_t numbers[9];
    for (int i = 0; i < 9; i++) {
        numbers[i] = (uint32_t)strtoul(argv[i + 1], NULL, 10);
    }
    tc_settings settings = {numbers[0], numbers[1], numbers[2], numbers[3], numbers[4], numbers[5], numbers[6]};
    size_t piece = numbers[7], room = numbers[8];
    int now = 0;
    if (!tc_reader_init(&readers[now], &settings)) {
        return 2;
    }
    int16_t *samples = (int16_t *)malloc(piece * sizeof *samples);
    tc_event *events = (tc_event *)malloc((room + 1) * sizeof *events);
    if (!samples || !events) {
        return 1;
    }
    size_t count;
    while ((count = fread(samples, sizeof *samples, piece, stdin)) > 0) {
        size_t at = 0;
        for (;;) {
            memset(events, 0xa5, room * sizeof *events);
            tc_reader before = readers[now];
            tc_taken taken = tc_reader_write_s16(&readers[now], samples + at, count - at, events, room);
            bool same = memcmp(&before, &readers[now], sizeof before) == 0;
            if (!keeps(taken, count - at, events, room) || (room < 2 && !same)) {
                return 3;
            }
            fwrite(events, sizeof *events, taken.made, stdout);
            at += taken.used;
            if (argc > 10) {
                memcpy(&readers[!now], &readers[now], sizeof readers[now]);
                memset(&readers[now], 0xa5, sizeof readers[now]);
                now = !now;
            }
            if (room < 2 || room - taken.made >= 2 || taken.full) {
                break;
            }
        }
    }
    /* Settings that are refused change nothing, and others begin anew. */
    tc_reader before = readers[now];
    tc_settings none = {0, 0, 0, 0, 0, 0, 0};
    if (tc_reader_start(&readers[now], &none) || memcmp(&before, &readers[now], sizeof before) != 0) {
        return 3;
    }
    free(samples);
    free(events);
    return tc_reader_start(&readers[now], &settings) ? 0 : 3;
}
