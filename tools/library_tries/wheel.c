/* Reads words that were heard, as they lie in memory, from standard input, and writes the frames of a flywheel, with
 * room for so many a call:
 *
 *     wheel LIMIT ROOM LAST [MOVE]
 *
 * Behind the words the time is told up to the tick LAST. With MOVE the flywheel is copied to another place behind
 * each call, and the old one is overwritten. The status is 1 where the words are wrong, 2 where the limit is refused, 3
 * where a call breaks what tc.h says, and 4 where a word or the last tick is refused. */
#include "tc.h"
#include <stdio.h>
#include <stdlib.h>
#include <string.h>

enum { MOST = 300 };
static tc_wheel wheels[2];
static int now;

/* Whether a call kept what tc.h says of it. `frames` were all 0xa5. */
static bool keeps(tc_given taken, const tc_wheel *before, const tc_frame *frames, size_t room) {
    const unsigned char *bytes = (const unsigned char *)frames;
    for (size_t i = taken.made * sizeof *frames; i < room * sizeof *frames; i++) {
        if (bytes[i] != 0xa5) {
            return false;
        }
    }
    bool same = memcmp(before, &wheels[now], sizeof *before) == 0;
    bool all = taken.done || taken.refused || taken.made == room;
    return taken.made <= room && all && (!taken.refused || (same && taken.made == 0 && !taken.done));
}

/* Tells a word, or where there is none a tick, until it is done. Gives 0, or the status of what went wrong. */
static int tell(const tc_heard *word, uint64_t tick, size_t room, bool moves) {
    static tc_frame frames[MOST];
    for (;;) {
        memset(frames, 0xa5, sizeof frames);
        tc_wheel before = wheels[now];
        tc_given taken = word ? tc_wheel_hear(&wheels[now], word, frames, room)
                                    : tc_wheel_pass(&wheels[now], tick, frames, room);
        if (!keeps(taken, &before, frames, room)) {
            return 3;
        }
        if (taken.refused) {
            return 4;
        }
        fwrite(frames, sizeof *frames, taken.made, stdout);
        if (moves) {
            memcpy(&wheels[!now], &wheels[now], sizeof wheels[now]);
            memset(&wheels[now], 0xa5, sizeof wheels[now]);
            now = !now;
        }
        if (taken.done) {
            return 0;
        }
        if (room == 0) {
            return taken.made == 0 ? 0 : 3;
        }
    }
}

int main(int argc, char **argv) {
    if (argc < 4) {
        return 1;
    }
    uint32_t limit = (uint32_t)strtoul(argv[1], NULL, 10);
    size_t room = (size_t)strtoul(argv[2], NULL, 10);
    uint64_t last = strtoull(argv[3], NULL, 10);
    if (room > MOST) {
        return 1;
    }
    if (!tc_wheel_init(&wheels[now], limit)) {
        return 2;
    }
    tc_heard word;
    int status = 0;
    while (status == 0 && fread(&word, sizeof word, 1, stdin) == 1) {
        status = tell(&word, 0, room, argc > 4);
    }
    if (status == 0) {
        status = tell(NULL, last, room, argc > 4);
    }
    /* A limit that is refused changes nothing, and another begins anew. */
    tc_wheel before = wheels[now];
    if (tc_wheel_start(&wheels[now], 256) || memcmp(&before, &wheels[now], sizeof before) != 0 ||
        !tc_wheel_start(&wheels[now], limit)) {
        status = 3;
    }
    return status;
}
