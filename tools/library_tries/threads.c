/* Reads the samples of 16 bits of a file in two threads at once, each with a reader of its own, in pieces of 7 and of
  * 1,024, and writes the events as they lie in memory; the status is 3 if the two differ.
 *
 *     threads FILE SYSTEM TOLERANCE FOLLOWS THRESHOLD FINENESS SMOOTH PACE */
#include "tc.h"
#include <pthread.h>
#include <stdio.h>
#include <stdlib.h>
#include <string.h>

enum { MOST = 100000 };
static int16_t samples[4000000];
static size_t count;
static tc_settings settings;

struct reading {
    pthread_t thread;
    size_t piece, made;
    tc_reader reader;
    tc_event events[MOST];
};
static struct reading readings[2];

static void *read_all(void *given) {
    struct reading *it = (struct reading *)given;
    if (!tc_reader_init(&it->reader, &settings)) {
        return NULL;
    }
    size_t at = 0;
    while (at < count && it->made + 2 <= MOST) {
        size_t piece = count - at < it->piece ? count - at : it->piece;
        tc_taken taken = tc_reader_write_s16(&it->reader, samples + at, piece, it->events + it->made, MOST - it->made);
        at += taken.used;
        it->made += taken.made;
    }
    return NULL;
}

int main(int argc, char **argv) {
    FILE *file = argc == 9 ? fopen(argv[1], "rb") : NULL;
    if (!file) {
        return 1;
    }
    count = fread(samples, sizeof *samples, sizeof samples / sizeof *samples, file);
    fclose(file);
    uint32_t numbers[7];
    for (int i = 0; i < 7; i++) {
        numbers[i] = (uint32_t)strtoul(argv[i + 2], NULL, 10);
    }
    memcpy(&settings, numbers, sizeof settings);
    readings[0].piece = 7;
    readings[1].piece = 1024;
    for (int i = 0; i < 2; i++) {
        if (pthread_create(&readings[i].thread, NULL, read_all, &readings[i]) != 0) {
            return 1;
        }
    }
    for (int i = 0; i < 2; i++) {
        pthread_join(readings[i].thread, NULL);
    }
    size_t made = readings[0].made;
    if (made != readings[1].made || memcmp(readings[0].events, readings[1].events, made * sizeof(tc_event)) != 0) {
        return 3;
    }
    fwrite(readings[0].events, sizeof(tc_event), made, stdout);
    return 0;
}
