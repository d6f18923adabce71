/* A plug-in of LV2 that passes a sound on, and shows the label of the latest word in it.
 *
 *     cc -std=c11 -shared -fPIC reader.c $(pkg-config --cflags --libs lv2 tc-static) -o tc.lv2/reader.so
 *
 * Both .ttl files go into tc.lv2 too. */
#include <lv2/core/lv2.h>
#include <stdlib.h>
#include <string.h>
#include "tc.h"

enum { CODE, THROUGH, SYSTEM, HOURS, MINUTES, SECONDS, FRAMES, WORDS, PORTS, PIECE = 256, ROOM = 16 };
struct plugin {
    float *ports[PORTS];
    uint32_t system;
    float words;
    tc_event latest;
    tc_reader reader;
};

static bool starts(struct plugin *it) {
    tc_settings settings = {.system = it->system, .tolerance = 2, .follows = 1, .threshold = 250, .fineness = 16, .smooth = 1};
    return tc_reader_start(&it->reader, &settings);
}

static LV2_Handle instantiate(const LV2_Descriptor *of, double rate, const char *path, const LV2_Feature *const *features) {
    (void)of, (void)rate, (void)path, (void)features;
    tc_settings settings = {.system = 25, .tolerance = 2, .follows = 1, .threshold = 250, .fineness = 16, .smooth = 1};
    struct plugin *it = aligned_alloc(TC_READER_BOUNDARY, (sizeof *it + TC_READER_BOUNDARY - 1) / TC_READER_BOUNDARY * TC_READER_BOUNDARY);
    if (!it) return NULL;
    memset(it, 0, sizeof *it);
    it->system = 25;
    if (tc_reader_init(&it->reader, &settings)) return it;
    free(it);
    return NULL;
}

static void connect_port(LV2_Handle handle, uint32_t port, void *place) {
    if (port < PORTS) ((struct plugin *)handle)->ports[port] = place;
}

static void read_piece(struct plugin *it, const float *sound, size_t count) {
    int16_t samples[PIECE];
    tc_event events[ROOM];
    for (size_t i = 0; i < count; i++)
        samples[i] = (int16_t)(sound[i] >= 1 ? 32767 : sound[i] > -1 ? sound[i] * 32767 : -32767);
    for (size_t at = 0; at < count;) {
        tc_taken taken = tc_reader_write_s16(&it->reader, samples + at, count - at, events, ROOM);
        for (size_t i = 0; i < taken.made; i++)
            if (events[i].kind == TC_WORD) it->latest = events[i], it->words++;
        at += taken.used;
        if (taken.full && !starts(it)) return;
    }
}

static void run(LV2_Handle handle, uint32_t count) {
    struct plugin *it = handle;
    uint32_t before = it->system;
    it->system = (uint32_t)*it->ports[SYSTEM];
    if (it->system != before && !starts(it)) it->system = before;
    for (uint32_t at = 0; at < count; at += PIECE)
        read_piece(it, it->ports[CODE] + at, count - at < PIECE ? count - at : PIECE);
    memmove(it->ports[THROUGH], it->ports[CODE], count * sizeof(float));
    const uint8_t parts[] = {it->latest.hours, it->latest.minutes, it->latest.seconds, it->latest.frames};
    for (int i = 0; i < 4; i++) *it->ports[HOURS + i] = parts[i];
    *it->ports[WORDS] = it->words;
}

static const LV2_Descriptor READER = {"urn:tc:reader", instantiate, connect_port, NULL, run, NULL, free, NULL};

LV2_SYMBOL_EXPORT const LV2_Descriptor *lv2_descriptor(uint32_t index) { return index ? NULL : &READER; }
