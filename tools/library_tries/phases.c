/* Plays one recording in blocks of each size, and at each phase of the blocks, and tells a flywheel the words of each
 * block, and then the tick up to which all words are told:
 *
 *     phases SOUND|TAPE SYSTEM TOLERANCE FIRM PACE MOST
 *
 * Standard input has the intervals, 32 bits in the machine's order. Of a SOUND they become samples, one a tick, with a
 * silence behind them. Blocks have 1 to MOST samples or intervals, and the first one each number below that. Each way
 * has to give the same frames, no word refused. The frames of one way are written as they lie in memory. The status is
 * 1 where the words are wrong or there is no memory, 2 where settings are refused, and 3 where a flywheel refuses a word
 * or a tick, the tick up to which all is told falls, or the frames differ. */
#include "tc.h"
#include <stdio.h>
#include <stdlib.h>
#include <string.h>

enum { LONGEST = 1 << 16, SILENCE = 2200, FRAMES = 64, ROOM = 16 };
static uint32_t ticks[LONGEST];
static int16_t samples[LONGEST];
static size_t interval_count, sample_count;
static bool of_sound;
static tc_settings heard_as;
static tc_tape_settings taken_as;

/* What one way of playing has: its readers, its flywheel, and the frames so far. */
static struct {
    tc_reader reader;
    tc_tape tape;
    tc_wheel wheel;
    tc_frame frames[FRAMES];
    size_t made;
    uint64_t told;
} play;

/* Has a flywheel hear a word, or where there is none pass a tick. */
static bool turn(const tc_heard *word, uint64_t tick) {
    tc_given given;
    do {
        size_t room = FRAMES - play.made;
        given = word ? tc_wheel_hear(&play.wheel, word, play.frames + play.made, room)
                     : tc_wheel_pass(&play.wheel, tick, play.frames + play.made, room);
        play.made += given.made;
    } while (!given.done && !given.refused && play.made < FRAMES);
    return given.done;
}

static bool hear(const tc_event *events, size_t count) {
    for (size_t i = 0; i < count; i++) {
        tc_heard word = tc_heard_in(&events[i]);
        if (events[i].kind == TC_WORD && !turn(&word, 0)) {
            return false;
        }
    }
    return true;
}

/* Plays a block: what it brings is heard, and then the time passes. */
static bool block(size_t at, size_t count) {
    tc_event events[ROOM];
    for (size_t used = 0, made = ROOM; ROOM - made < 4; used += 0) {
        if (of_sound) {
            tc_taken taken = tc_reader_write_s16(&play.reader, samples + at + used, count - used, events, ROOM);
            used += taken.used, made = taken.made;
        } else {
            tc_tape_taken taken = tc_tape_write(&play.tape, ticks + at + used, count - used, events, ROOM);
            used += taken.used, made = taken.made;
        }
        if (!hear(events, made)) {
            return false;
        }
    }
    uint64_t told = of_sound ? tc_reader_told(&play.reader) : tc_tape_told(&play.tape);
    bool later = told >= play.told;
    play.told = told;
    return later && turn(NULL, told);
}

/* Plays all in blocks of a size, the first of them of another one. Gives 0, or the status of what went wrong. */
static int play_in(size_t size, size_t first) {
    size_t count = of_sound ? sample_count : interval_count;
    memset(&play, 0, sizeof play);
    if (!tc_reader_init(&play.reader, &heard_as) || !tc_tape_init(&play.tape, &taken_as) ||
        !tc_wheel_init(&play.wheel, 5)) {
        return 2;
    }
    for (size_t at = 0, length = first; at < count; at += length, length = size) {
        length = length < count - at ? length : count - at;
        if (!block(at, length)) {
            return 3;
        }
    }
    tc_event events[ROOM];
    return of_sound || hear(events, tc_tape_last(&play.tape, events, ROOM)) ? 0 : 3;
}

int main(int argc, char **argv) {
    if (argc != 7) {
        return 1;
    }
    uint32_t numbers[5];
    for (int i = 0; i < 5; i++) {
        numbers[i] = (uint32_t)strtoul(argv[i + 2], NULL, 10);
    }
    of_sound = strcmp(argv[1], "SOUND") == 0;
    tc_settings sound = {numbers[0], numbers[1], 0, 1, 16, 1, numbers[3]};
    tc_tape_settings tape = {numbers[0], numbers[1], numbers[2]};
    heard_as = sound, taken_as = tape;
    interval_count = fread(ticks, sizeof *ticks, LONGEST, stdin);
    tc_sound maker;
    if (!tc_sound_init(&maker, 9000)) {
        return 2;
    }
    if (of_sound) {
        sample_count = tc_sound_write(&maker, ticks, interval_count, samples, LONGEST - SILENCE).made + SILENCE;
    }
    static tc_frame frames[FRAMES];
    size_t made = 0;
    for (size_t size = 1; size <= numbers[4]; size++) {
        for (size_t first = 0; first < size; first++) {
            int status = play_in(size, first);
            if (status != 0) {
                fprintf(stderr, "blocks of %zu behind one of %zu: status %d\n", size, first, status);
                return status;
            }
            if (size == 1) {
                made = play.made;
                memcpy(frames, play.frames, sizeof frames);
            } else if (made != play.made || memcmp(frames, play.frames, made * sizeof *frames) != 0) {
                fprintf(stderr, "blocks of %zu behind one of %zu: other frames\n", size, first);
                return 3;
            }
        }
    }
    fwrite(frames, sizeof *frames, made, stdout);
    return 0;
}
