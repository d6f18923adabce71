/* Reads intervals, 32 bits in the machine's order, from standard input, in pieces of a length, with room for so many
 * events a call, and writes the events as they lie in memory, those at the end of the tape too:
 *
 *     tape SYSTEM TOLERANCE FIRM PIECE ROOM [MOVE]
 *
 * With MOVE the reader is copied to another place behind each call, and the old one is overwritten. The status is 1
 * where the words are wrong or there is no memory, 2 where the settings are refused, 3 where a call breaks what tc.h
 * says, and 4 where a number is refused, when those before it are read. */
#include "tc.h"
#include <stdio.h>
#include <stdlib.h>
#include <string.h>

static tc_tape tapes[2];
static int now;
static size_t least; /* the room that a call asks for */

/* Whether a call kept what tc.h says of it. `events` were all 0xa5. */
static bool keeps(tc_tape_taken taken, const uint32_t *ticks, size_t count, const tc_event *events, size_t room) {
    const unsigned char *bytes = (const unsigned char *)events;
    for (size_t i = taken.made * sizeof *events; i < room * sizeof *events; i++) {
        if (bytes[i] != 0xa5) {
            return false;
        }
    }
    bool next = taken.used < count && (ticks[taken.used] < 1 || ticks[taken.used] > 16777215);
    bool all = taken.used == count || taken.full || taken.refused || taken.made + least > room;
    bool few = room >= least || (taken.used == 0 && taken.made == 0);
    return taken.used <= count && taken.made <= room && taken.refused == next && all && few;
}

/* Copies the reader to another place. */
static void move(void) {
    memcpy(&tapes[!now], &tapes[now], sizeof tapes[now]);
    memset(&tapes[now], 0xa5, sizeof tapes[now]);
    now = !now;
}

/* Has a piece taken. Gives 0, or the status of what went wrong. */
static int take(const uint32_t *ticks, size_t count, tc_event *events, size_t room, bool moves) {
    for (size_t at = 0;;) {
        memset(events, 0xa5, room * sizeof *events);
        tc_tape before = tapes[now];
        tc_tape_taken taken = tc_tape_write(&tapes[now], ticks + at, count - at, events, room);
        bool same = memcmp(&before, &tapes[now], sizeof before) == 0;
        if (!keeps(taken, ticks + at, count - at, events, room) || (room < least && !same)) {
            return 3;
        }
        fwrite(events, sizeof *events, taken.made, stdout);
        at += taken.used;
        if (moves) {
            move();
        }
        if (taken.refused) {
            return 4;
        }
        if (room < least || room - taken.made >= least || taken.full) {
            return 0;
        }
    }
}

int main(int argc, char **argv) {
    if (argc < 6) {
        return 1;
    }
    uint32_t numbers[5];
    for (int i = 0; i < 5; i++) {
        numbers[i] = (uint32_t)strtoul(argv[i + 1], NULL, 10);
    }
    tc_tape_settings settings = {numbers[0], numbers[1], numbers[2]};
    size_t piece = numbers[3], room = numbers[4];
    least = settings.firm == 2 ? 4 : 3;
    if (!tc_tape_init(&tapes[now], &settings)) {
        return 2;
    }
    uint32_t *ticks = (uint32_t *)malloc(piece * sizeof *ticks);
    tc_event *events = (tc_event *)malloc((room + 4) * sizeof *events);
    if (!ticks || !events) {
        return 1;
    }
    size_t count;
    int status = 0;
    while (status == 0 && (count = fread(ticks, sizeof *ticks, piece, stdin)) > 0) {
        status = take(ticks, count, events, room, argc > 6);
    }
    /* The end changes nothing, and neither do settings that are refused. Others begin anew. */
    tc_tape before = tapes[now];
    uint64_t told = tc_tape_told(&tapes[now]);
    size_t last = tc_tape_last(&tapes[now], events, least);
    fwrite(events, sizeof *events, last, stdout);
    tc_tape_settings none = {0, 0, 0};
    bool kept = last <= least - 1 && (last == 0 || events[0].tick >= told) &&
                tc_tape_last(&tapes[now], events, least - 1) == 0 && !tc_tape_start(&tapes[now], &none);
    if (!kept || memcmp(&before, &tapes[now], sizeof before) != 0 || !tc_tape_start(&tapes[now], &settings)) {
        status = 3;
    }
    free(ticks);
    free(events);
    return status;
}
