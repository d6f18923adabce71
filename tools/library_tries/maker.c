/* Makes code of 80 bits, which lie in memory as they do on standard input, and of it sound:
 *
 *     maker FROM TO STEP LEVEL PIECE ROOM [MOVE]
 *
 * Before the bits come a zero and a one, by which a reader locks. With a LEVEL below 0 it writes the intervals, of 32
 * bits, and else the samples, of 16, in pieces of so many intervals, with room for so many samples a call. With MOVE
 * both makers are copied to another place behind each call, and the old ones are overwritten. The status is 1 where the
 * words are wrong, 2 where the shape or the level is refused, and 3 where a call breaks what tc.h says. */
#include "tc.h"
#include <stdio.h>
#include <stdlib.h>
#include <string.h>

enum { MOST = 256, SAMPLES = 4096 };
static tc_maker makers[2];
static tc_sound sounds[2];
static int now;
static bool moves;
static uint32_t ticks[MOST];
static int16_t samples[SAMPLES];

/* Whether what lies behind `made` bytes is untouched. It was all 0xa5. */
static bool untouched(const void *memory, size_t made, size_t all) {
    for (size_t i = made; i < all; i++) {
        if (((const unsigned char *)memory)[i] != 0xa5) {
            return false;
        }
    }
    return true;
}

/* Copies both makers to another place. */
static void move(void) {
    if (moves) {
        makers[!now] = makers[now];
        sounds[!now] = sounds[now];
        memset(&makers[now], 0xa5, sizeof makers[now]);
        memset(&sounds[now], 0xa5, sizeof sounds[now]);
        now = !now;
    }
}

/* Writes the samples of so many intervals, in pieces. Gives 0, or the status of what went wrong. */
static int sound(size_t made, size_t piece, size_t room) {
    for (size_t from = 0; from < made; from += piece) {
        size_t count = made - from < piece ? made - from : piece;
        for (size_t at = 0;;) {
            memset(samples, 0xa5, sizeof samples);
            tc_sound_taken taken = tc_sound_write(&sounds[now], ticks + from + at, count - at, samples, room);
            bool within = taken.used <= count - at && taken.made <= room;
            if (!within || !untouched(samples, taken.made * sizeof *samples, sizeof samples) ||
                (taken.made < room && taken.used != count - at)) {
                return 3;
            }
            fwrite(samples, sizeof *samples, taken.made, stdout);
            at += taken.used;
            move();
            if (taken.made < room) {
                break;
            }
        }
    }
    return 0;
}

/* Makes the cells of so many bits. Gives 0, or the status of what went wrong. */
static int make(const tc_bits *bits, uint32_t count, long level, size_t piece, size_t room) {
    memset(ticks, 0xa5, sizeof ticks);
    tc_maker before = makers[now];
    tc_given little = tc_maker_bits(&makers[now], bits, count, ticks, 2 * count - 1);
    tc_given many = tc_maker_bits(&makers[now], bits, 129, ticks, MOST);
    bool same = memcmp(&before, &makers[now], sizeof before) == 0 && untouched(ticks, 0, sizeof ticks);
    if (!same || little.done || little.refused || many.done || !many.refused) {
        return 3;
    }
    tc_given given = tc_maker_bits(&makers[now], bits, count, ticks, MOST);
    if (!given.done || given.refused || !untouched(ticks, given.made * sizeof *ticks, sizeof ticks)) {
        return 3;
    }
    if (level >= 0) {
        return sound(given.made, piece, room);
    }
    fwrite(ticks, sizeof *ticks, given.made, stdout);
    move();
    return 0;
}

int main(int argc, char **argv) {
    if (argc < 7) {
        return 1;
    }
    uint32_t numbers[3];
    for (int i = 0; i < 3; i++) {
        numbers[i] = (uint32_t)strtoul(argv[i + 1], NULL, 10);
    }
    long level = strtol(argv[4], NULL, 10);
    size_t piece = (size_t)strtoul(argv[5], NULL, 10), room = (size_t)strtoul(argv[6], NULL, 10);
    moves = argc > 7;
    if (piece == 0 || room == 0 || room > SAMPLES) {
        return 1;
    }
    if (!tc_maker_init(&makers[now], numbers[0], numbers[1], numbers[2]) ||
        !tc_sound_init(&sounds[now], level < 0 ? 0 : (uint32_t)level)) {
        return 2;
    }
    tc_bits lead = {2, 0}, bits;
    int status = make(&lead, 2, level, piece, room);
    while (status == 0 && fread(&bits, sizeof bits, 1, stdin) == 1) {
        status = make(&bits, 80, level, piece, room);
    }
    return status;
}
