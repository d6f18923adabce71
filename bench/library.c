/* How long the library takes for a sample, in blocks of 1,024, and for comparison libltc if it was found:
 *
 *     cc -std=c11 -O2 -I include bench/library.c lib/libtc.a -o library
 *     cc -std=c11 -O2 -I include -DWITH_LIBLTC bench/library.c lib/libtc.a -lltc -o library
 *     ./library FILE SYSTEM [TIMES [READER]]
 *
 * FILE has 16-bit samples of one channel at 48,000 a second, as they lie in memory, and is read TIMES times
 * (20), each time by a new reader: by each of normal, worn, rough, fixed and libltc, or by the one that is named. The
 * thresholds follow the sound, but for that of fixed, which has the normal tolerance. A line
 * for each: processor time for a sample, samples a second, and words. Instructions are counted by
 * `valgrind --tool=callgrind ./library FILE SYSTEM 1 READER`. */
#define _POSIX_C_SOURCE 199309L
#include "tc.h"
#include <stdio.h>
#include <stdlib.h>
#include <string.h>
#include <time.h>
#ifdef WITH_LIBLTC
#include <ltc.h>
#endif

enum { BLOCK = 1024, RATE = 48000 };
static int16_t *samples;
static size_t count;

static double seconds(void) {
    struct timespec now;
    clock_gettime(CLOCK_PROCESS_CPUTIME_ID, &now);
    return (double)now.tv_sec + (double)now.tv_nsec / 1e9;
}

/* A threshold that does not follow the sound. */
enum { FIXED = 4000 };

static size_t by_tc(uint32_t system, uint32_t tolerance, uint32_t follows, uint32_t threshold) {
    static tc_reader reader;
    tc_settings settings = {system, tolerance, follows, threshold, 16, 1, 0};
    tc_event events[64];
    size_t words = 0;
    if (!tc_reader_init(&reader, &settings)) {
        exit(2);
    }
    for (size_t at = 0; at < count;) {
        size_t block = count - at < BLOCK ? count - at : BLOCK;
        tc_taken taken = tc_reader_write_s16(&reader, samples + at, block, events, 64);
        for (size_t i = 0; i < taken.made; i++) {
            words += events[i].kind == TC_WORD;
        }
        at += taken.used;
    }
    return words;
}

#ifdef WITH_LIBLTC
static size_t by_libltc(uint32_t system) {
    LTCDecoder *decoder = ltc_decoder_create(RATE / (int)system, 64);
    LTCFrameExt frame;
    size_t words = 0;
    for (size_t at = 0; at < count; at += BLOCK) {
        size_t block = count - at < BLOCK ? count - at : BLOCK;
        ltc_decoder_write_s16(decoder, samples + at, block, (ltc_off_t)at);
        while (ltc_decoder_read(decoder, &frame)) {
            words++;
        }
    }
    ltc_decoder_free(decoder);
    return words;
}
#endif

static size_t by_normal(uint32_t system) { return by_tc(system, 0, 1, 250); }
static size_t by_worn(uint32_t system) { return by_tc(system, 1, 1, 250); }
static size_t by_rough(uint32_t system) { return by_tc(system, 2, 1, 250); }
static size_t by_fixed(uint32_t system) { return by_tc(system, 0, 0, FIXED); }

static const struct reader {
    const char *name;
    size_t (*read)(uint32_t system);
} readers[] = {
    {"normal", by_normal},
    {"worn", by_worn},
    {"rough", by_rough},
    {"fixed", by_fixed},
#ifdef WITH_LIBLTC
    {"libltc", by_libltc},
#endif
};

int main(int argc, char **argv) {
    FILE *file = argc > 2 ? fopen(argv[1], "rb") : NULL;
    if (!file) {
        fprintf(stderr, "usage: library FILE SYSTEM [TIMES [READER]]\n");
        return 1;
    }
    uint32_t system = (uint32_t)strtoul(argv[2], NULL, 10);
    int times = argc > 3 ? atoi(argv[3]) : 20;
    fseek(file, 0, SEEK_END);
    count = (size_t)ftell(file) / sizeof *samples;
    rewind(file);
    samples = malloc((count + 1) * sizeof *samples);
    if (!samples || fread(samples, sizeof *samples, count, file) != count) {
        return 1;
    }
    fclose(file);
    for (size_t number = 0; number < sizeof readers / sizeof *readers; number++) {
        const struct reader *reader = &readers[number];
        if (argc > 4 && strcmp(argv[4], reader->name) != 0) {
            continue;
        }
        size_t words = 0;
        double began = seconds();
        for (int i = 0; i < times; i++) {
            words = reader->read(system);
        }
        double each = (seconds() - began) / ((double)count * times);
        printf("%-7s %6.2f ns a sample, %5.0f million samples a second, %zu words\n", reader->name, each * 1e9,
               1e-6 / each, words);
    }
    free(samples);
    return 0;
}
