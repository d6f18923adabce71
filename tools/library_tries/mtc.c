/* Writes the MIDI Time Code of frames that lie in memory as they do, or reads labels from bytes of MIDI, in pieces of a
 * length, with room for so many a call:
 *
 *     mtc write ROOM [MOVE]
 *     mtc read PIECE ROOM [MOVE]
 *
 * With MOVE the object is copied to another place behind each call, and the old one is overwritten. The status is 1
 * where the words are wrong or there is no memory, 3 where a call breaks what tc.h says, and 4 where a frame is
 * refused. */
#include "tc.h"
#include <stdio.h>
#include <stdlib.h>
#include <string.h>

static tc_mtc_writer writers[2];
static tc_mtc_reader readers[2];
static int now;

/* Whether what lies behind `made` bytes is untouched. It was all 0xa5. */
static bool untouched(const void *memory, size_t made, size_t all) {
    for (size_t i = made; i < all; i++) {
        if (((const unsigned char *)memory)[i] != 0xa5) {
            return false;
        }
    }
    return true;
}

/* Writes frame after frame. Gives the status. */
static int write_frames(size_t room, bool moves) {
    static uint8_t bytes[64];
    tc_frame frame;
    if (room > sizeof bytes || !tc_mtc_writer_init(&writers[now])) {
        return 1;
    }
    while (fread(&frame, sizeof frame, 1, stdin) == 1) {
        memset(bytes, 0xa5, sizeof bytes);
        tc_mtc_writer before = writers[now];
        tc_given given = tc_mtc_writer_write(&writers[now], &frame, bytes, room);
        bool same = memcmp(&before, &writers[now], sizeof before) == 0;
        bool kept = given.made <= TC_MTC_MOST && untouched(bytes, given.made, sizeof bytes);
        if (!kept || (!given.done && (!same || given.made != 0)) || (!given.refused && given.done != (room >= 18))) {
            return 3;
        }
        if (given.refused) {
            return 4;
        }
        fwrite(bytes, 1, given.made, stdout);
        if (moves) {
            memcpy(&writers[!now], &writers[now], sizeof writers[now]);
            memset(&writers[now], 0xa5, sizeof writers[now]);
            now = !now;
        }
    }
    return 0;
}

/* Has a piece read. Gives 0, or 3 where a call breaks what tc.h says. */
static int take(const uint8_t *bytes, size_t count, tc_mtc_event *events, size_t room, bool moves) {
    for (size_t at = 0;;) {
        memset(events, 0xa5, (room + 1) * sizeof *events);
        tc_taken taken = tc_mtc_reader_read(&readers[now], bytes + at, count - at, events, room);
        bool all = taken.used == count - at || taken.full || taken.made == room;
        bool within = taken.used <= count - at && taken.made <= room && (room > 0 || taken.used == 0);
        if (!all || !within || !untouched(events, taken.made * sizeof *events, (room + 1) * sizeof *events)) {
            return 3;
        }
        fwrite(events, sizeof *events, taken.made, stdout);
        at += taken.used;
        if (moves) {
            memcpy(&readers[!now], &readers[now], sizeof readers[now]);
            memset(&readers[now], 0xa5, sizeof readers[now]);
            now = !now;
        }
        if (taken.made < room || room == 0 || taken.full) {
            return 0;
        }
    }
}

/* Reads piece after piece. Gives the status. */
static int read_bytes(size_t piece, size_t room, bool moves) {
    uint8_t *bytes = (uint8_t *)malloc(piece);
    tc_mtc_event *events = (tc_mtc_event *)malloc((room + 1) * sizeof *events);
    if (!bytes || !events || !tc_mtc_reader_init(&readers[now])) {
        return 1;
    }
    int status = 0;
    size_t count;
    while (status == 0 && (count = fread(bytes, 1, piece, stdin)) > 0) {
        status = take(bytes, count, events, room, moves);
    }
    free(bytes);
    free(events);
    return status;
}

int main(int argc, char **argv) {
    if (argc > 2 && strcmp(argv[1], "write") == 0) {
        return write_frames((size_t)strtoul(argv[2], NULL, 10), argc > 3);
    }
    if (argc > 3 && strcmp(argv[1], "read") == 0) {
        return read_bytes((size_t)strtoul(argv[2], NULL, 10), (size_t)strtoul(argv[3], NULL, 10), argc > 4);
    }
    return 1;
}
